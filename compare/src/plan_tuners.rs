//! Plan tuners: the bytes of every tuning, and of every call on it.

use tune::tuner::AotTuner;
use tune::tuner::TunableMidi;

use crate::bytes::Handler;
use crate::bytes::Written;
use crate::bytes::judge_message;
use crate::bytes::rust_message;
use crate::bytes::sender;
use crate::inputs::Chance;
use crate::inputs::REFERENCES;
use crate::inputs::step;
use crate::inputs::temperaments;
use crate::nearest;
use crate::ours;
use crate::ours::Calls;
use crate::ours::Event;
use crate::ours::Lists;
use crate::ours::Message;
use crate::pools::first_answer;
use crate::plans::excused;
use crate::plans::judge_notes;
use crate::plans::judge_pitches;
use crate::plans::mapping;
use crate::plans::plan_of_pitches;
use crate::report::Kind;
use crate::report::Row;
use crate::report::progress;
use crate::rule;
use crate::tuners::Answer;
use crate::tuners::Told;
use crate::tuners::any_message;
use crate::tuners::channel_list;
use crate::tuners::hold;
use crate::tuners::short_buffers;
use crate::tuners::to_all;

/// Keys with their pitches.
pub type Lines = Vec<(u8, f64)>;

pub struct Sequence {
    channels: Vec<u8>,
    bends: bool,
    tuner: AotTuner<u8, TunableMidi<Handler>>,
    written: Written,
    /// The lines of the tunings by pitches, and of those by notes and detunings, which the Rust finds from these pitches.
    by_pitches: Lines,
    by_notes: Lines,
    lists: Lists,
    /// The plan of SPEC 6.3: each key's channel and note.
    places: Vec<Option<(usize, i32)>>,
    /// Why the plan may differ from the Rust's.
    excuse: Option<Kind>,
    calls: Vec<Told>,
}

/// The lists as the port takes them; the notes and detunings are the Rust's.
fn lists(by_pitches: &Lines, by_notes: &Lines) -> Lists {
    let (pitch_keys, pitches) = by_pitches.iter().copied().unzip();
    let note_keys = by_notes.iter().map(|line| line.0).collect();
    let (notes, detunings) = by_notes.iter().map(|line| nearest::found(line.1)).unzip();
    Lists { pitch_keys, pitches, note_keys, notes, detunings }
}

impl Sequence {
    pub fn new(channels: &[u8], bends: bool, by_pitches: Lines, by_notes: Lines) -> Sequence {
        let (sender, written) = sender(bends, channels);
        Sequence {
            channels: channels.to_vec(),
            bends,
            tuner: AotTuner::start(sender),
            written,
            lists: lists(&by_pitches, &by_notes),
            by_pitches,
            by_notes,
            places: vec![None; 256],
            excuse: None,
            calls: Vec::new(),
        }
    }

    /// The rules' refusal, 0 where there is none: the Rust has none, and is not called then.
    fn judge(&self, event: Event) -> u8 {
        match event {
            Event::Press(_, _, value) | Event::Release(_, value) | Event::Pressure(_, value) if value > 127 => 8,
            Event::All(message) => judge_message(message),
            Event::TuneByPitches => judge_pitches(&self.lists.pitch_keys, &self.lists.pitches).unwrap_or(0),
            Event::TuneByNotes => judge_notes(&self.lists.note_keys, &self.lists.notes, &self.lists.detunings).unwrap_or(0),
            _ => 0,
        }
    }

    /// What SPEC 9.3 answers to a tuning.
    fn tuned(&mut self, plan: rule::Plan) -> Answer {
        let channels = plan.count as u16;
        if plan.count > self.channels.len() {
            self.places = vec![None; 256];
            return Answer { kind: ours::NOTHING, channels, ..Answer::default() };
        }
        self.places = plan.places;
        let bytes = self.channels.iter().zip(plan.tops).flat_map(|(&channel, detuning)| rule::tuning(self.bends, channel, detuning)).collect();
        Answer { bytes, channels, ..Answer::default() }
    }

    /// What the rules answer.
    fn rule(&mut self, event: Event) -> Answer {
        let note = |kind: u8, key: u8, value: u8| {
            let place = self.places[usize::from(key)];
            place.map_or(Vec::new(), |(channel, note)| rule::note_message(kind, self.channels[channel], note, value))
        };
        let lists = &self.lists;
        let bytes = match event {
            Event::TuneByPitches => {
                self.excuse = excused(2, &lists.pitches);
                let plan = plan_of_pitches(2, &lists.pitch_keys, &lists.pitches);
                return self.tuned(plan);
            }
            Event::TuneByNotes => {
                self.excuse = None;
                let plan = rule::plan(2, &lists.note_keys, &lists.notes, &lists.detunings);
                return self.tuned(plan);
            }
            Event::Press(key, _, velocity) => note(0x9, key, velocity),
            Event::Release(key, velocity) => note(0x8, key, velocity),
            Event::Pressure(key, pressure) => note(0xa, key, pressure),
            Event::All(message) => to_all(message, self.bends, &self.channels),
            Event::Stop => Vec::new(),
            Event::Repitch(..) => unreachable!("of a pool tuner"),
        };
        Answer { bytes, ..Answer::default() }
    }

    fn tune(&mut self, by_notes: bool) -> (u8, u16) {
        let lines = if by_notes { &self.by_notes } else { &self.by_pitches };
        let (keys, pitches): (Vec<u8>, Vec<f64>) = lines.iter().copied().unzip();
        let count = self.tuner.set_tuning(&mapping(&keys, &pitches), keys.iter().copied()).unwrap();
        (if self.tuner.tuned() { 0 } else { ours::NOTHING }, count as u16)
    }

    fn rust(&mut self, event: Event) -> Answer {
        let (mut kind, mut channels) = (0, 0);
        match event {
            Event::TuneByPitches => (kind, channels) = self.tune(false),
            Event::TuneByNotes => (kind, channels) = self.tune(true),
            Event::Press(key, _, velocity) => self.tuner.note_on(key, velocity),
            Event::Release(key, velocity) => self.tuner.note_off(key, velocity),
            Event::Pressure(key, pressure) => self.tuner.note_attr(key, pressure),
            Event::All(message) => self.tuner.global_attr(rust_message(message)),
            // The Rust's ends its tuner and sends nothing.
            Event::Stop => {}
            Event::Repitch(..) => unreachable!("of a pool tuner"),
        }
        Answer { kind, bytes: self.written.take(), channels }
    }

    pub fn call(&mut self, event: Event) {
        let refusal = self.judge(event);
        let refused = || Answer { kind: refusal, ..Answer::default() };
        let (rule, rust) = if refusal == 0 { (self.rule(event), self.rust(event)) } else { (refused(), refused()) };
        self.calls.push(Told { event, rule, rust, excuse: self.excuse });
    }

    pub fn calls(self) -> Vec<Told> {
        self.calls
    }

    /// A press, a pressure and a release of every key.
    fn touch_all(&mut self, chance: &mut Chance) {
        for key in 0..=255 {
            let mut value = || chance.below(128) as u8;
            let (on, pressure, off) = (value(), value(), value());
            self.call(Event::Press(key, 0.0, on));
            self.call(Event::Pressure(key, pressure));
            self.call(Event::Release(key, off));
        }
    }

    fn compare(mut self, row: &mut Row) {
        self.tuner.stop();
        let rust = Answer { bytes: self.written.take(), ..Answer::default() };
        self.calls.push(Told { event: Event::Stop, rule: Answer::default(), rust, excuse: None });
        let setting = format!("channels {:?}, bends {}, by pitches {:?}, by notes {:?}", self.channels, self.bends, self.by_pitches, self.by_notes);
        hold(row, &setting, self.by_pitches.len() + self.by_notes.len(), &self.calls, |calls| {
            calls.play_plan(&self.channels, self.bends, &self.lists);
        });
    }
}

/// All lists of so many lines over a palette of pitches, tuned by pitches, touched, and tuned by notes.
fn exhaustive(row: &mut Row, length: u32, channels: &[u8], bends: bool) {
    const CLOSE: [f64; 4] = [1.0, 1.0000005, 1.0000015, 1.01];
    let palette: Vec<f64> = [440.0, 16000.0].iter().flat_map(|hz| CLOSE.map(|d| hz * d)).collect();
    for code in 0..palette.len().pow(length) {
        let mut rest = code;
        let lines: Lines = (0..length as u8)
            .map(|i| {
                let hz = palette[rest % palette.len()];
                rest /= palette.len();
                (9 - i, hz)
            })
            .collect();
        let mut turned = lines.clone();
        turned.reverse();
        let mut sequence = Sequence::new(channels, bends, lines.clone(), turned);
        sequence.call(Event::Press(9, 0.0, 64));
        for tuning in [Event::TuneByPitches, Event::TuneByNotes] {
            sequence.call(tuning);
            for key in 5..=9 {
                sequence.call(Event::Press(key, 0.0, 100));
                sequence.call(Event::Pressure(key, 30));
                sequence.call(Event::Release(key, 0));
            }
        }
        row.meets("lists");
        sequence.compare(row);
    }
}

/// Lines of few different detunings, so that keys share channels.
fn any_lines(chance: &mut Chance) -> Lines {
    let n = chance.pick(&[0, 1, 2, 3, 4, 7, 12, 15, 16, 17, 31, 61, 128, 255, 256]);
    let shades: Vec<f64> = (0..1 + chance.below(20)).map(|_| ((chance.unit() - 0.5) / 12.0).exp2()).collect();
    chance
        .keys()
        .into_iter()
        .take(n)
        .map(|key| {
            let note = chance.below(200) as f64 - 100.0;
            let shade = chance.pick(&shades) * (1.0 + 1e-6 * chance.below(4) as f64 * chance.unit());
            (key, 440.0 * (note / 12.0).exp2() * shade)
        })
        .collect()
}

fn any_call(chance: &mut Chance) -> Event {
    let key = chance.below(256) as u8;
    let values = if chance.below(20) == 0 { 256 } else { 128 };
    let value = chance.below(values) as u8;
    match chance.below(40) {
        0 => Event::TuneByPitches,
        1 => Event::TuneByNotes,
        2 => Event::All(Message { first: 128 + chance.below(128) as u8, ..any_message(chance) }),
        3 => Event::All(Message { kind: 0xe, bend: chance.pick(&[-8193, 8192, i16::MIN, i16::MAX]), ..any_message(chance) }),
        4..=6 => Event::All(any_message(chance)),
        7 => Event::Stop,
        8..=19 => Event::Press(key, 0.0, value),
        20..=29 => Event::Pressure(key, value),
        _ => Event::Release(key, value),
    }
}

/// Lists with a fault: SPEC 2.2 is the judge, and the plan from before stays.
fn damaged(chance: &mut Chance, row: &mut Row, bends: bool) {
    let channels = channel_list(chance, 3);
    let good: Lines = vec![(1, 440.0), (2, 450.0), (3, 880.0)];
    let bad_pitches = [0.0, -440.0, f64::NAN, f64::INFINITY, step((-20f64).exp2(), -1), step(40f64.exp2(), 1)];
    let bad_detunings = [0.0, f64::NAN, step(0.5, -1), step(2.0, 1), f64::INFINITY, -1.0];
    let mut sequence = Sequence::new(&channels, bends, good.clone(), good);
    // One of the two tunings keeps its good lists.
    let (first, second) = if chance.below(2) == 0 { (Event::TuneByPitches, Event::TuneByNotes) } else { (Event::TuneByNotes, Event::TuneByPitches) };
    let lists = &mut sequence.lists;
    let line = chance.below(3);
    if let Event::TuneByPitches = second {
        match chance.below(4) {
            0 => lists.pitches[line] = chance.pick(&bad_pitches),
            1 => lists.pitch_keys[2] = lists.pitch_keys[chance.below(2)],
            2 => lists.pitches.truncate(line),
            _ => lists.pitch_keys.push(200),
        }
    } else {
        match chance.below(6) {
            0 => lists.notes[line] = chance.pick(&[-301, 501, i32::MIN, i32::MAX]),
            1 => lists.detunings[line] = chance.pick(&bad_detunings),
            2 => lists.note_keys[2] = lists.note_keys[chance.below(2)],
            3 => lists.notes.truncate(line),
            4 => lists.detunings.truncate(line),
            _ => lists.note_keys.push(200),
        }
    }
    sequence.call(first);
    sequence.call(second);
    for key in 0..5 {
        sequence.call(Event::Press(key, 0.0, 64));
    }
    sequence.compare(row);
}

pub fn run(chance: &mut Chance, rows: &mut Vec<Row>) {
    let mut row = Row::new("plan tuners: all short lists");
    for bends in [false, true] {
        for channels in [&[][..], &[9], &[15, 0]] {
            progress(&format!("plan tuners: all lists of up to 4 lines, bends {bends}, channels {channels:?}"));
            for length in 0..=4 {
                exhaustive(&mut row, length, channels, bends);
            }
        }
    }
    rows.push(row);

    let mut row = Row::new("plan tuners: temperaments");
    for temperament in temperaments() {
        progress(&format!("plan tuners: {}", temperament.name));
        for reference in REFERENCES {
            for bends in [false, true] {
                let n = chance.pick(&[12, 61, 128, 256]);
                let present = chance.pick(&[1, 15, 16]);
                let first = -(n as i32) / 2;
                let lines: Lines = (0..n as i32).map(|i| (i as u8, temperament.pitch(reference, first + i))).collect();
                let octave_up = lines.iter().map(|&(key, hz)| (key, hz * 2.0)).collect();
                let mut sequence = Sequence::new(&channel_list(chance, present), bends, lines, octave_up);
                sequence.call(Event::TuneByPitches);
                sequence.touch_all(chance);
                sequence.call(Event::TuneByNotes);
                sequence.touch_all(chance);
                sequence.compare(&mut row);
            }
        }
    }
    rows.push(row);

    let mut row = Row::new("plan tuners: joining limits");
    progress("plan tuners: joining limits");
    for turn in 0..6000 {
        let base = 440.0 * ((chance.below(60) as f64 - 30.0) / 12.0).exp2() * (1.0 + 0.02 * (chance.unit() - 0.5));
        let mut lines = vec![(1, base)];
        for key in 2..3 + chance.below(4) as u8 {
            let last = lines[lines.len() - 1].1;
            lines.push((key, step(last * 1.000001, chance.below(9) as i64 - 4)));
        }
        let mut sequence = Sequence::new(&channel_list(chance, 16), turn % 2 == 1, lines.clone(), lines);
        for tuning in [Event::TuneByNotes, Event::TuneByPitches] {
            sequence.call(tuning);
            for key in 0..8 {
                sequence.call(Event::Press(key, 0.0, 64));
            }
        }
        sequence.compare(&mut row);
    }
    rows.push(row);

    let mut row = Row::new("plan tuners: chance");
    for turn in 0..3000 {
        if turn % 100 == 0 {
            progress(&format!("plan tuners: chance, {turn} of 3000"));
        }
        let present = chance.pick(&[0, 1, 2, 5, 15, 16]);
        let mut sequence = Sequence::new(&channel_list(chance, present), turn % 2 == 1, any_lines(chance), any_lines(chance));
        for _ in 0..200 {
            let event = any_call(chance);
            sequence.call(event);
        }
        sequence.compare(&mut row);
    }
    rows.push(row);

    let mut row = Row::new("plan tuners: damaged lists");
    for turn in 0..4000 {
        damaged(chance, &mut row, turn % 2 == 1);
    }
    rows.push(row);

    let mut row = Row::new("plan tuners: buffers too short");
    progress("plan tuners: buffers too short");
    for turn in 0..2000 {
        let bends = turn % 2 == 1;
        let n = chance.below(17);
        let channels = channel_list(chance, n);
        let (by_pitches, by_notes) = (any_lines(chance), any_lines(chance));
        let lists = lists(&by_pitches, &by_notes);
        let tunings = [Event::TuneByPitches, Event::TuneByNotes];
        let before: Vec<Event> = (0..chance.below(3)).map(|_| chance.pick(&tunings)).collect();
        let last = if chance.below(3) == 0 { any_call(chance) } else { chance.pick(&tunings) };
        let setting = format!("channels {channels:?}, bends {bends}, {} and {} lines", lists.pitches.len(), lists.notes.len());
        let rules = |events: &[Event]| {
            let mut sequence = Sequence::new(&channels, bends, by_pitches.clone(), by_notes.clone());
            events.iter().for_each(|&event| sequence.call(event));
            sequence.calls()
        };
        short_buffers(&mut row, &setting, &before, last, 0..=255, rules, |calls| {
            calls.play_plan(&channels, bends, &lists);
        });
    }
    rows.push(row);

    let mut row = Row::new("plan tuners: channel lists");
    for (list, refusal) in [(&[][..], 0), (&[15], 0), (&[16], 6), (&[1, 2, 1], 7), (&[2, 2, 16], 7), (&[3, 255, 3], 6)] {
        row.cases += 1;
        let lists = lists(&vec![(1, 440.0)], &Lines::new());
        let mut calls = Calls::new(&[Event::TuneByPitches], 20);
        let answer = calls.play_plan(list, false, &lists);
        if (answer, calls.answers[0], calls.channels[0]) != (refusal, first_answer(refusal, list), u16::from(refusal == 0)) {
            row.differs(Kind::Unexpected, list.len(), || format!("{list:?}: {answer}, not {refusal}"));
        } else if refusal != 0 {
            row.differs(Kind::Refusal, list.len(), || format!("{list:?}: refusal {refusal}"));
        }
    }
    rows.push(row);
}
