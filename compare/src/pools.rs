//! Pools: every answer of long sequences, then every lookup.

use tune::note::Note;
use tune::pitch::Pitch;
use tune::tuner::AccessKeyResult;
use tune::tuner::GroupBy;
use tune::tuner::JitTuningModel;
use tune::tuner::PoolingMode;
use tune::tuner::RegisterKeyResult;

use crate::inputs::Chance;
use crate::inputs::REFERENCES;
use crate::inputs::temperaments;
use crate::nearest;
use crate::ours;
use crate::ours::Events;
use crate::report::Kind;
use crate::report::Row;
use crate::report::progress;
use crate::rule;

/// What the Rust answers to an event, in the port's numbers.
#[derive(Debug, PartialEq)]
struct Answer {
    kind: u8,
    channel: usize,
    note: i32,
    stopped: i32,
    detuning: f64,
}

fn nothing(kind: u8) -> Answer {
    Answer { kind, channel: 0, note: ours::NO_NOTE, stopped: ours::NO_NOTE, detuning: 0.0 }
}

fn pressed(result: RegisterKeyResult, hz: f64) -> Answer {
    match result {
        RegisterKeyResult::Accepted { channel, stopped_note, started_note, detuning } => {
            let (note, rule) = rule::nearest(hz);
            assert!(note == started_note.midi_number() && nearest::close(rule, detuning.as_float()), "{hz:?} Hz: docs/SPEC.md and the Rust differ");
            let stopped = stopped_note.map_or(ours::NO_NOTE, Note::midi_number);
            Answer { kind: ours::FOUND, channel, note, stopped, detuning: rule }
        }
        RegisterKeyResult::Rejected => nothing(ours::NOTHING),
    }
}

fn accessed(result: AccessKeyResult) -> Answer {
    match result {
        AccessKeyResult::Found { channel, found_note } => Answer {
            kind: ours::FOUND,
            channel,
            note: found_note.midi_number(),
            stopped: ours::NO_NOTE,
            detuning: 0.0,
        },
        AccessKeyResult::NotFound => nothing(ours::NOTHING),
    }
}

pub fn rust_mode(mode: u8) -> PoolingMode {
    match mode {
        0 => PoolingMode::Block,
        1 => PoolingMode::Stop,
        _ => PoolingMode::Ignore,
    }
}

pub fn rust_group(letters: bool) -> GroupBy {
    if letters { GroupBy::NoteLetter } else { GroupBy::Channel }
}

/// A sequence for both. The Rust is not defined on a press of a held key, nor here on a pitch out of range: those are the port's alone, which refuses them.
struct Sequence {
    rust: JitTuningModel<u8>,
    events: Events,
    /// Of the Rust, but with the rules' detunings, which are the Rust's but for their last bits.
    answers: Vec<Answer>,
}

impl Sequence {
    fn new(channels: usize, letters: bool, mode: u8) -> Sequence {
        Sequence {
            rust: JitTuningModel::new(channels, rust_group(letters), rust_mode(mode)),
            events: Events::default(),
            answers: Vec::new(),
        }
    }

    fn press(&mut self, key: u8, hz: f64) {
        self.events.push(ours::PRESS, key, hz);
        let low = (-20f64).exp2();
        let high = 40f64.exp2();
        let answer = if !(low <= hz && hz <= high) {
            nothing(1)
        } else if let AccessKeyResult::Found { .. } = self.rust.access_key(key) {
            nothing(11)
        } else {
            pressed(self.rust.register_key(key, Pitch::from_hz(hz)), hz)
        };
        self.answers.push(answer);
    }

    fn release(&mut self, key: u8) {
        self.events.push(ours::RELEASE, key, 0.0);
        let answer = accessed(self.rust.deregister_key(key));
        self.answers.push(answer);
    }

    fn lookup(&mut self, key: u8) {
        self.events.push(ours::LOOKUP, key, 0.0);
        let answer = accessed(self.rust.access_key(key));
        self.answers.push(answer);
    }

    fn compare(mut self, row: &mut Row, channels: &[u8], letters: bool, mode: u8, keys: u8) {
        for key in 0..=keys {
            self.lookup(key);
        }
        self.play(row, channels, letters, mode, 0);
        self.without_held().play(row, channels, letters, mode, 1);
    }

    /// The same without the presses of held keys, which the rules refuse and the Rust was not told of.
    fn without_held(self) -> Sequence {
        let mut events = Events::default();
        let mut answers = Vec::new();
        for (i, answer) in self.answers.into_iter().enumerate() {
            if answer.kind != 11 {
                events.push(self.events.kinds[i], self.events.keys[i], self.events.pitches[i]);
                answers.push(answer);
            }
        }
        Sequence { rust: self.rust, events, answers }
    }

    /// Plays the port's model, and compares every answer.
    fn play(&mut self, row: &mut Row, channels: &[u8], letters: bool, mode: u8, retrigger: u8) {
        self.events.ready();
        self.events.play(channels, letters, mode, retrigger);
        let e = &self.events;
        let a = &e.answers;
        for (i, rust) in self.answers.iter().enumerate() {
            row.cases += 1;
            let ours = Answer {
                kind: a.kinds[i],
                channel: usize::from(a.channels[i]),
                note: a.notes[i],
                stopped: a.stopped[i],
                detuning: a.detunings[i],
            };
            if ours == *rust {
                match ours.kind {
                    1..=13 => row.differs(Kind::Refusal, i, || {
                        format!("event {} of key {} at {:?} Hz: refusal {}", e.kinds[i], e.keys[i], e.pitches[i], ours.kind)
                    }),
                    ours::NOTHING => row.meets("answers not found or rejected"),
                    _ if ours.stopped != ours::NO_NOTE => row.meets("presses that stopped a note"),
                    _ => {}
                }
                continue;
            }
            row.differs(Kind::Unexpected, i, || {
                let upto: Vec<_> = (0..=i).map(|j| (e.kinds[j], e.keys[j], e.pitches[j])).collect();
                format!("{} channels, letters {letters}, mode {mode}, retrigger {retrigger}, {upto:?}: {ours:?}; the Rust: {rust:?}", channels.len())
            });
            return;
        }
    }
}

/// All sequences of so many events with three keys, on so many channels. An event is a press of a key (at its pitch, or an octave or a tone away) or a release.
fn exhaustive(row: &mut Row, length: u32, channels: usize, letters: bool, mode: u8) {
    const PITCHES: [f64; 3] = [440.0, 882.0, 494.5];
    let list: Vec<u8> = (0..channels as u8).collect();
    for code in 0..6u32.pow(length) {
        let mut sequence = Sequence::new(channels, letters, mode);
        let mut rest = code;
        for _ in 0..length {
            let event = rest % 6;
            rest /= 6;
            let key = (event / 2) as u8;
            if event % 2 == 0 {
                sequence.press(key, PITCHES[key as usize]);
            } else {
                sequence.release(key);
            }
        }
        row.meets("sequences");
        sequence.compare(row, &list, letters, mode, 3);
    }
}

/// A pitch whose note is the same on both sides.
pub fn sure(chance: &mut Chance, from: impl Fn(&mut Chance) -> f64) -> f64 {
    loop {
        let hz = from(chance);
        if nearest::from_boundary(hz) > nearest::NEAR {
            return hz;
        }
    }
}

/// What the first press on a channel list answers.
pub fn first_answer(refusal: u8, list: &[u8]) -> u8 {
    match () {
        () if refusal != 0 => ours::UNANSWERED,
        () if list.is_empty() => ours::NOTHING,
        () => ours::FOUND,
    }
}

pub fn run(chance: &mut Chance, rows: &mut Vec<Row>) {
    let mut row = Row::new("pools: all short sequences");
    for letters in [false, true] {
        for mode in 0..3 {
            for channels in 0..=3 {
                progress(&format!("pools: all sequences of 6 events, mode {mode}, {channels} channels"));
                exhaustive(&mut row, 6, channels, letters, mode);
            }
        }
    }
    rows.push(row);

    let mut row = Row::new("pools: chance");
    for letters in [false, true] {
        for mode in 0..3 {
            for (turn, channels) in [0, 1, 2, 3, 5, 8, 15, 16].into_iter().enumerate() {
                progress(&format!("pools: chance, mode {mode}, {channels} channels"));
                for few in [true, false] {
                    let keys = if few { channels * 2 + 3 } else { 256 };
                    let mut sequence = Sequence::new(channels, letters, mode);
                    for _ in 0..20_000 {
                        let key = chance.below(keys) as u8;
                        match chance.below(if turn % 2 == 0 { 9 } else { 12 }) {
                            0..=3 => {
                                let hz = sure(chance, Chance::pitch);
                                sequence.press(key, hz);
                            }
                            4 => {
                                let hz = sure(chance, Chance::any_pitch);
                                sequence.press(key, hz);
                            }
                            5 => sequence.lookup(key),
                            6 if few && chance.below(50) == 0 => {
                                let hz = chance.pick(&[0.0, -1.0, f64::NAN, f64::INFINITY, 1e300]);
                                sequence.press(key, hz);
                            }
                            _ => sequence.release(key),
                        }
                    }
                    let list: Vec<u8> = chance.keys().into_iter().filter(|&c| c < 16).take(channels).collect();
                    sequence.compare(&mut row, &list, letters, mode, 255);
                }
            }
        }
    }
    rows.push(row);

    let mut row = Row::new("pools: chords in temperaments");
    for temperament in temperaments() {
        progress(&format!("pools: chords in {}", temperament.name));
        for mode in 0..3 {
            for letters in [false, true] {
                let channels = chance.pick(&[1, 2, 4, 12, 16]);
                let reference = chance.pick(&REFERENCES);
                let mut sequence = Sequence::new(channels, letters, mode);
                for _ in 0..40 {
                    let root = chance.below(48) as i32 - 24;
                    let chord: Vec<i32> = (0..1 + chance.below(6)).map(|i| root + 3 * i as i32 + chance.below(3) as i32).collect();
                    for &degree in &chord {
                        let hz = temperament.pitch(reference, degree);
                        if nearest::from_boundary(hz) > nearest::NEAR {
                            sequence.press((degree + 100) as u8, hz);
                        }
                    }
                    for &degree in &chord {
                        if chance.below(4) != 0 {
                            sequence.release((degree + 100) as u8);
                        }
                    }
                }
                let list: Vec<u8> = (0..channels as u8).collect();
                sequence.compare(&mut row, &list, letters, mode, 255);
            }
        }
    }
    rows.push(row);

    let mut row = Row::new("channel lists");
    let sixteen: Vec<u8> = (0..16).collect();
    let mut seventeen = sixteen.clone();
    seventeen.push(3);
    let lists: [(&[u8], u8); 8] = [(&[], 0), (&[15], 0), (&[16], 6), (&[255, 255], 6), (&[1, 2, 1], 7), (&[2, 2, 16], 7), (&sixteen, 0), (&seventeen, 7)];
    for (list, refusal) in lists {
        row.cases += 1;
        let mut events = Events::default();
        events.push(ours::PRESS, 1, 440.0);
        events.ready();
        let answer = events.play(list, false, 0, 0);
        if (answer, events.answers.kinds[0]) != (refusal, first_answer(refusal, list)) {
            row.differs(Kind::Unexpected, list.len(), || format!("{list:?}: {answer}, not {refusal}"));
        } else if refusal != 0 {
            row.differs(Kind::Refusal, list.len(), || format!("{list:?}: refusal {refusal}"));
        }
    }
    rows.push(row);
}
