//! Refused calls, on blocks of every content: each returns the number that SPEC 2.2 gives, and the block and the buffer are as they were.

use crate::bytes::judge_message;
use crate::inputs::Chance;
use crate::ours::Answer;
use crate::ours::Event;
use crate::ours::FILL;
use crate::ours::Lists;
use crate::ours::Message;
use crate::ours::Plan;
use crate::ours::Pool;
use crate::ours::Tuning;
use crate::report::Kind;
use crate::report::Row;
use crate::report::progress;
use crate::tuners::any_message;

/// Channel lists with their refusals.
const LISTS: [(&[u8], u8); 4] = [(&[16], 6), (&[1, 1], 7), (&[2, 2, 16], 7), (&[3, 255, 3], 6)];

const NO_PITCHES: [f64; 7] = [0.0, -1.0, f64::NAN, f64::INFINITY, f64::NEG_INFINITY, 1e300, 1e-7];

const TURNS: usize = 5000;

/// Holds an answer to the refusal that SPEC 2.2 gives for the arguments alone.
fn one(row: &mut Row, what: &str, number: u8, refusal: u8, untouched: bool) {
    row.cases += 1;
    if (number, untouched) != (refusal, true) {
        row.differs(Kind::Unexpected, 0, || format!("{what}: {number}, not {refusal}; block and buffer untouched: {untouched}"));
    } else {
        row.differs(Kind::Refusal, 0, || format!("{what}: refusal {refusal}"));
    }
}

/// The events that every tuner refuses by their arguments alone, with the refusals.
fn damaged(chance: &mut Chance) -> Vec<(Event, u8)> {
    let (key, low, over) = (chance.below(256) as u8, chance.below(128) as u8, 128 + chance.below(128) as u8);
    let bend = chance.pick(&[-8193, 8192, i16::MIN, i16::MAX]);
    let messages = [Message { first: over, kind: 0x8 + chance.below(6) as u8, ..any_message(chance) }, Message { kind: 0xe, first: low, second: low, bend }];
    let mut events = vec![(Event::Press(key, 440.0, over), 8), (Event::Release(key, over), 8), (Event::Pressure(key, over), 8)];
    events.extend(messages.map(|message| (Event::All(message), judge_message(message))));
    events
}

/// What the call refused, and whether it left the block and the buffer.
fn play<B: Copy + PartialEq>(block: &mut B, chance: &mut Chance, call: impl FnOnce(&mut B, &mut [u8]) -> Answer) -> (u8, bool) {
    let mut out = vec![FILL; chance.below(40)];
    let before = *block;
    let answer = call(block, &mut out);
    let left = *block == before && out.iter().all(|&b| b == FILL) && (answer.outcome, answer.channels, answer.bytes) == (4, 0, 0);
    (answer.refusal, left)
}

fn pool(row: &mut Row, chance: &mut Chance, block: &mut Pool) {
    let (key, hz) = (chance.below(256) as u8, chance.pick(&NO_PITCHES));
    let mut events = damaged(chance);
    events.extend([(Event::Press(key, hz, 64), 1), (Event::Repitch(key, hz), 1)]);
    for (event, refusal) in events {
        let (number, left) = play(block, chance, |block, out| block.play(event, out));
        one(row, &format!("{event:?}"), number, refusal, left);
    }
    let before = *block;
    let (list, refusal) = chance.pick(&LISTS);
    let number = block.open(list, chance.below(2) == 0, chance.below(256) as u8, chance.below(256) as u8);
    one(row, &format!("a pool tuner of {list:?}"), number, refusal, *block == before);
    let number = block.open_model(list, chance.below(2) == 0, chance.below(256) as u8, chance.below(256) as u8);
    one(row, &format!("a pool model of {list:?}"), number, refusal, *block == before);
    let answer = block.register_key(key, hz);
    one(row, &format!("a press at {hz:?} Hz"), answer.refusal, 1, answer.outcome == 4 && *block == before);
    let answer = block.repitch_key(key, hz);
    one(row, &format!("a repitch to {hz:?} Hz"), answer.refusal, 1, answer.outcome == 4 && *block == before);
}

/// A press of a held key is refused by 11 without retrigger, and with it for want of room alone.
fn held(row: &mut Row, chance: &mut Chance) {
    let (key, mode, retrigger) = (chance.below(256) as u8, chance.below(3) as u8, chance.below(2) as u8);
    let mut block = Pool::of(|_| 0);
    block.open(&[4, 9], chance.below(2) == 0, mode, retrigger);
    block.play(Event::Press(key, 440.0, 64), &mut [FILL; 21]);
    let (number, left) = play(&mut block, chance, |block, out| block.play(Event::Press(key, 455.0, 64), out));
    if retrigger == 0 {
        one(row, "a press of a held key", number, 11, left);
    } else if number == 10 {
        one(row, "a press of a held key with retrigger", number, 10, left);
    } else {
        row.cases += 1;
        if number != 0 {
            row.differs(Kind::Unexpected, 0, || format!("a press of a held key with retrigger, mode {mode}: refusal {number}"));
        } else if left {
            row.differs(Kind::Unexpected, 0, || format!("a press of a held key with retrigger, mode {mode}: nothing changed"));
        }
    }
}

/// Lists that a plan refuses, and the refusal of those with pitches and of those with notes.
fn lists(chance: &mut Chance) -> (Lists, u8) {
    let mut lists = Lists { pitch_keys: vec![1, 2], pitches: vec![440.0, 470.0], note_keys: vec![1, 2], notes: vec![69, 70], detunings: vec![1.0, 1.01] };
    let refusal = match chance.below(3) {
        0 => {
            lists.pitch_keys.push(3);
            lists.notes.push(3);
            12
        }
        1 => {
            (lists.pitch_keys[1], lists.note_keys[1]) = (1, 1);
            5
        }
        _ => {
            lists.pitches[0] = chance.pick(&NO_PITCHES);
            lists.notes[0] = chance.pick(&[-301, 501, i32::MIN, i32::MAX]);
            0
        }
    };
    (lists, refusal)
}

fn plan(row: &mut Row, chance: &mut Chance, block: &mut Plan) {
    let (lists, refusal) = lists(chance);
    let (by_pitches, by_notes) = if refusal == 0 { (1, 4) } else { (refusal, refusal) };
    let mut events = damaged(chance);
    events.extend([(Event::TuneByPitches, by_pitches), (Event::TuneByNotes, by_notes)]);
    for (event, refusal) in events {
        let (number, left) = play(block, chance, |block, out| block.play(event, &lists, out));
        one(row, &format!("{event:?} of {lists:?}"), number, refusal, left);
    }
    let before = *block;
    let (list, refusal) = chance.pick(&LISTS);
    let number = block.open(list, chance.below(2) == 0);
    one(row, &format!("a plan tuner of {list:?}"), number, refusal, *block == before);
    let number = block.open_model(list, chance.below(256) as u8);
    one(row, &format!("a plan model of {list:?}"), number, refusal, *block == before);
    let answers = [block.set_tuning_of_pitches(&lists.pitch_keys, &lists.pitches), block.set_tuning(&lists.note_keys, &lists.notes, &lists.detunings)];
    for (answer, refusal) in answers.into_iter().zip([by_pitches, by_notes]) {
        one(row, &format!("{lists:?}"), if let Tuning::Refused(number) = answer { number } else { 0 }, refusal, *block == before);
    }
}

/// Blocks of any content, of the lowest bits alone, and of all ones and all zeros.
fn cell(chance: &mut Chance, turn: usize) -> u64 {
    match turn % 4 {
        0 => chance.next(),
        1 => chance.next() % 20,
        2 => u64::MAX,
        _ => 0,
    }
}

pub fn run(chance: &mut Chance, rows: &mut Vec<Row>) {
    let mut row = Row::new("refused calls: blocks of every content");
    for turn in 0..TURNS {
        if turn % 500 == 0 {
            progress(&format!("refused calls, {turn} of {TURNS}"));
        }
        let mut block = Pool::of(|_| cell(chance, turn) as u16);
        pool(&mut row, chance, &mut block);
        held(&mut row, chance);
        let mut block = Plan::of(|_| cell(chance, turn));
        plan(&mut row, chance, &mut block);
    }
    rows.push(row);
}
