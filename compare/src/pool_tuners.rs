//! Pool tuners: the bytes of every call.

use tune::pitch::Pitch;
use tune::tuner::AccessKeyResult;
use tune::tuner::JitTuner;
use tune::tuner::JitTuningModel;
use tune::tuner::RegisterKeyResult;
use tune::tuner::TunableMidi;

use crate::bytes::Handler;
use crate::bytes::Written;
use crate::bytes::judge_message;
use crate::bytes::rust_message;
use crate::bytes::sender;
use crate::inputs::Chance;
use crate::inputs::REFERENCES;
use crate::inputs::temperaments;
use crate::nearest;
use crate::ours;
use crate::ours::Calls;
use crate::ours::Event;
use crate::ours::Message;
use crate::pools::first_answer;
use crate::pools::rust_group;
use crate::pools::rust_mode;
use crate::pools::sure;
use crate::report::Kind;
use crate::report::Row;
use crate::report::progress;
use crate::rule;
use crate::tuners::Answer;
use crate::tuners::Told;
use crate::tuners::any_message;
use crate::tuners::channel_list;
use crate::tuners::hold;
use crate::tuners::short_buffers;
use crate::tuners::to_all;

pub struct Sequence {
    channels: Vec<u8>,
    bends: bool,
    mode: u8,
    tuner: JitTuner<u8, TunableMidi<Handler>>,
    written: Written,
    /// The pool inside the rules' tuner: the Rust's, given the rules' notes.
    pool: JitTuningModel<u8>,
    /// Whether a pitch was pressed whose note differs.
    beside: bool,
    calls: Vec<Told>,
}

impl Sequence {
    pub fn new(channels: &[u8], bends: bool, mode: u8) -> Sequence {
        let (sender, written) = sender(bends, channels);
        Sequence {
            channels: channels.to_vec(),
            bends,
            mode,
            tuner: JitTuner::start(sender, rust_mode(mode)),
            written,
            pool: JitTuningModel::new(channels.len(), rust_group(false), rust_mode(mode)),
            beside: false,
            calls: Vec::new(),
        }
    }

    pub fn held(&self) -> Vec<u8> {
        let mut keys: Vec<u8> = self.pool.active_keys().collect();
        keys.sort();
        keys
    }

    /// The rules' refusal, 0 where there is none: the Rust has none, and is not called then.
    fn judge(&self, event: Event) -> u8 {
        let no_pitch = |hz: f64| !((-20f64).exp2()..=40f64.exp2()).contains(&hz);
        match event {
            Event::Press(_, _, value) | Event::Release(_, value) | Event::Pressure(_, value) if value > 127 => 8,
            Event::Press(_, hz, _) | Event::Repitch(_, hz) if no_pitch(hz) => 1,
            Event::Press(key, ..) if matches!(self.pool.access_key(key), AccessKeyResult::Found { .. }) => 11,
            Event::All(message) => judge_message(message),
            _ => 0,
        }
    }

    /// What SPEC 9.2 answers to a press.
    fn press(&mut self, key: u8, hz: f64, velocity: u8) -> Answer {
        let (note, detuning) = rule::nearest(hz);
        match self.pool.register_key(key, Pitch::from_hz(rule::note_pitch(note))) {
            RegisterKeyResult::Accepted { channel, stopped_note, .. } => {
                let channel = self.channels[channel];
                let stopped = stopped_note.map(|note| rule::note_message(0x8, channel, note.midi_number(), velocity));
                let tuning = rule::tuning(self.bends, channel, detuning);
                let bytes = [stopped.unwrap_or_default(), tuning, rule::note_message(0x9, channel, note, velocity)].concat();
                Answer { bytes, ..Answer::default() }
            }
            RegisterKeyResult::Rejected => Answer { kind: ours::NOTHING, ..Answer::default() },
        }
    }

    /// The bytes of what is found of a key, by its MIDI channel and note.
    fn found(&self, result: AccessKeyResult, bytes: impl Fn(u8, i32) -> Vec<u8>) -> Vec<u8> {
        match result {
            AccessKeyResult::Found { channel, found_note } => bytes(self.channels[channel], found_note.midi_number()),
            AccessKeyResult::NotFound => Vec::new(),
        }
    }

    fn released(&mut self, key: u8, velocity: u8) -> Vec<u8> {
        let result = self.pool.deregister_key(key);
        self.found(result, |channel, note| rule::note_message(0x8, channel, note, velocity))
    }

    /// What the rules answer.
    fn rule(&mut self, event: Event) -> Answer {
        let bytes = match event {
            Event::Press(key, hz, velocity) => return self.press(key, hz, velocity),
            Event::Release(key, velocity) => self.released(key, velocity),
            Event::Repitch(key, hz) => {
                self.found(self.pool.access_key(key), |channel, note| rule::tuning(self.bends, channel, hz / rule::note_pitch(note)))
            }
            Event::Pressure(key, pressure) => self.found(self.pool.access_key(key), |channel, note| rule::note_message(0xa, channel, note, pressure)),
            Event::Stop => self.held().into_iter().flat_map(|key| self.released(key, 0)).collect(),
            Event::All(message) => to_all(message, self.bends, &self.channels),
            Event::TuneByPitches | Event::TuneByNotes => unreachable!("of a plan tuner"),
        };
        Answer { bytes, ..Answer::default() }
    }

    fn rust(&mut self, event: Event) {
        match event {
            Event::Press(key, hz, velocity) => self.tuner.note_on(key, Pitch::from_hz(hz), velocity),
            Event::Release(key, velocity) => self.tuner.note_off(key, velocity),
            Event::Repitch(key, hz) => self.tuner.note_pitch(key, Pitch::from_hz(hz)),
            Event::Pressure(key, pressure) => self.tuner.note_attr(key, pressure),
            // The Rust's `stop` ends its tuner. Before the end of a sequence it is told as releases, by rising key.
            Event::Stop => self.held().into_iter().for_each(|key| self.tuner.note_off(key, 0)),
            Event::All(message) => self.tuner.global_attr(rust_message(message)),
            Event::TuneByPitches | Event::TuneByNotes => unreachable!("of a plan tuner"),
        }
    }

    pub fn call(&mut self, event: Event) {
        let mut rule = Answer { kind: self.judge(event), ..Answer::default() };
        if rule.kind == 0 {
            self.rust(event);
            rule = self.rule(event);
            if let Event::Press(_, hz, _) = event {
                self.beside |= nearest::excused(hz);
            }
        }
        // The Rust does not tell whether a press was rejected.
        let rust = Answer { kind: rule.kind, bytes: self.written.take(), ..Answer::default() };
        self.calls.push(Told { event, rule, rust, excuse: self.beside.then_some(Kind::NoteAtBoundary) });
    }

    pub fn calls(self) -> Vec<Told> {
        self.calls
    }

    /// Plays the port's tuner, and compares every call; at the end `stop`, whose releases may stand in another order.
    fn compare(mut self, row: &mut Row) {
        let rule = self.rule(Event::Stop);
        self.tuner.stop();
        let rust = Answer { bytes: self.written.take(), ..Answer::default() };
        let excuse = same_releases(&rule.bytes, &rust.bytes).then_some(Kind::StopOrder);
        self.calls.push(Told { event: Event::Stop, rule, rust, excuse });
        let setting = format!("channels {:?}, bends {}, mode {}", self.channels, self.bends, self.mode);
        hold(row, &setting, 0, &self.calls, |calls| {
            calls.play_pool(&self.channels, self.bends, self.mode, 0);
        });
        // With retrigger too, without the presses of held keys, which the rules refuse and the Rust was not told of.
        self.calls.retain(|call| call.rule.kind != 11);
        hold(row, &format!("{setting}, retrigger"), 0, &self.calls, |calls| {
            calls.play_pool(&self.channels, self.bends, self.mode, 1);
        });
    }
}

fn same_releases(ours: &[u8], rust: &[u8]) -> bool {
    let sorted = |bytes: &[u8]| {
        let mut messages: Vec<[u8; 3]> = bytes.chunks_exact(3).map(|m| [m[0], m[1], m[2]]).collect();
        messages.sort();
        messages
    };
    sorted(ours) == sorted(rust) && ours.iter().step_by(3).all(|status| status >> 4 == 0x8)
}

/// Pitches of three keys, the last of which has note 131: no note message is sent for it.
const PITCHES: [f64; 3] = [440.0, 494.5, 16000.0];

/// The events of the exhaustive sequences: of three keys a press, a release, a repitch and a pressure; a stop.
fn short_event(number: u32) -> Event {
    let key = (number / 4) as u8;
    match number {
        12 => Event::Stop,
        _ => match number % 4 {
            0 => Event::Press(key, PITCHES[key as usize], 100 + key),
            1 => Event::Release(key, 64 + key),
            2 => Event::Repitch(key, PITCHES[key as usize] * 1.02),
            _ => Event::Pressure(key, 1 + key),
        },
    }
}

fn exhaustive(row: &mut Row, length: u32, channels: &[u8], bends: bool, mode: u8) {
    for code in 0..13u32.pow(length) {
        let mut sequence = Sequence::new(channels, bends, mode);
        let mut rest = code;
        for _ in 0..length {
            sequence.call(short_event(rest % 13));
            rest /= 13;
        }
        row.meets("sequences");
        sequence.compare(row);
    }
}

fn damaged(chance: &mut Chance, key: u8) -> Event {
    let over = 128 + chance.below(128) as u8;
    let hz = chance.pick(&[0.0, -1.0, f64::NAN, f64::INFINITY, 1e300, 1e-7]);
    match chance.below(8) {
        0 => Event::Press(key, 440.0, over),
        1 => Event::Press(key, hz, 64),
        2 => Event::Press(key, hz, over),
        3 => Event::Release(key, over),
        4 => Event::Repitch(key, hz),
        5 => Event::Pressure(key, over),
        6 => Event::All(Message { first: over, ..any_message(chance) }),
        _ => Event::All(Message { kind: 0xe, first: over, second: over, bend: chance.pick(&[-8193, 8192, i16::MIN, i16::MAX]) }),
    }
}

/// A call of a pool tuner by chance.
fn any_call(chance: &mut Chance, keys: usize) -> Event {
    let key = chance.below(keys) as u8;
    let value = chance.below(128) as u8;
    match chance.below(20) {
        0..=6 => Event::Press(key, sure(chance, Chance::pitch), value),
        7 => Event::Press(key, sure(chance, Chance::any_pitch), value),
        8..=13 => Event::Release(key, value),
        14 => {
            let hz = chance.pitch();
            Event::Repitch(key, hz)
        }
        15 => Event::Repitch(key, chance.any_pitch()),
        16 => Event::Pressure(key, value),
        17 => Event::All(any_message(chance)),
        18 if chance.below(40) == 0 => Event::Stop,
        18 if chance.below(4) == 0 => damaged(chance, key),
        _ => Event::Release(key, value),
    }
}

pub fn run(chance: &mut Chance, rows: &mut Vec<Row>) {
    let mut row = Row::new("pool tuners: all short sequences");
    for bends in [false, true] {
        for mode in 0..3 {
            for channels in [&[][..], &[9], &[15, 0]] {
                progress(&format!("pool tuners: all sequences of 4 calls, bends {bends}, mode {mode}, channels {channels:?}"));
                exhaustive(&mut row, 4, channels, bends, mode);
            }
        }
    }
    rows.push(row);

    let mut row = Row::new("pool tuners: chance");
    for bends in [false, true] {
        for mode in 0..3 {
            for n in [0, 1, 2, 3, 5, 8, 15, 16] {
                progress(&format!("pool tuners: chance, bends {bends}, mode {mode}, {n} channels"));
                for keys in [n * 2 + 3, 256] {
                    let channels = channel_list(chance, n);
                    let mut sequence = Sequence::new(&channels, bends, mode);
                    for _ in 0..10_000 {
                        sequence.call(any_call(chance, keys));
                    }
                    sequence.compare(&mut row);
                }
            }
        }
    }
    rows.push(row);

    let mut row = Row::new("pool tuners: chords in temperaments");
    for temperament in temperaments() {
        progress(&format!("pool tuners: chords in {}", temperament.name));
        for bends in [false, true] {
            for mode in 0..3 {
                let n = chance.pick(&[1, 2, 4, 12, 15, 16]);
                let reference = chance.pick(&REFERENCES);
                let mut sequence = Sequence::new(&channel_list(chance, n), bends, mode);
                for _ in 0..40 {
                    let root = chance.below(48) as i32 - 24;
                    let chord: Vec<i32> = (0..1 + chance.below(6)).map(|i| root + 3 * i as i32 + chance.below(3) as i32).collect();
                    for &degree in &chord {
                        let hz = temperament.pitch(reference, degree);
                        if nearest::from_boundary(hz) > nearest::NEAR {
                            sequence.call(Event::Press((degree + 100) as u8, hz, chance.below(128) as u8));
                        }
                    }
                    for &degree in &chord {
                        let key = (degree + 100) as u8;
                        sequence.call(Event::Repitch(key, temperament.pitch(reference, degree) * 1.003));
                        if chance.below(4) != 0 {
                            sequence.call(Event::Release(key, chance.below(128) as u8));
                        }
                    }
                }
                sequence.compare(&mut row);
            }
        }
    }
    rows.push(row);

    let mut row = Row::new("pool tuners: messages to all channels");
    for bends in [false, true] {
        progress(&format!("pool tuners: messages to all channels, bends {bends}"));
        for n in [0, 1, 15, 16] {
            let mut sequence = Sequence::new(&channel_list(chance, n), bends, 1);
            for kind in 0x8..=0xe {
                for _ in 0..1000 {
                    sequence.call(Event::All(Message { kind, ..any_message(chance) }));
                }
            }
            sequence.compare(&mut row);
        }
    }
    rows.push(row);

    let mut row = Row::new("pool tuners: buffers too short");
    for bends in [false, true] {
        for mode in 0..3 {
            progress(&format!("pool tuners: buffers too short, bends {bends}, mode {mode}"));
            for _ in 0..2000 {
                let n = chance.below(4);
                let channels = channel_list(chance, n);
                let before: Vec<Event> = (0..chance.below(12)).map(|_| any_call(chance, 6)).collect();
                let setting = format!("channels {channels:?}, bends {bends}, mode {mode}");
                let rules = |events: &[Event]| {
                    let mut sequence = Sequence::new(&channels, bends, mode);
                    events.iter().for_each(|&event| sequence.call(event));
                    sequence.calls()
                };
                short_buffers(&mut row, &setting, &before, any_call(chance, 6), 0..=5, rules, |calls| {
                    calls.play_pool(&channels, bends, mode, 0);
                });
            }
        }
    }
    rows.push(row);

    let mut row = Row::new("pool tuners: channel lists");
    let sixteen: Vec<u8> = (0..16).rev().collect();
    let seventeen: Vec<u8> = (0..17).collect();
    let lists: [(&[u8], u8); 8] = [(&[], 0), (&[15], 0), (&[16], 6), (&[255, 255], 6), (&[1, 2, 1], 7), (&[2, 2, 16], 7), (&sixteen, 0), (&seventeen, 6)];
    for (list, refusal) in lists {
        row.cases += 1;
        let mut calls = Calls::new(&[Event::Press(1, 440.0, 64)], 20);
        let answer = calls.play_pool(list, false, 0, 0);
        if (answer, calls.answers[0]) != (refusal, first_answer(refusal, list)) {
            row.differs(Kind::Unexpected, list.len(), || format!("{list:?}: {answer}, not {refusal}"));
        } else if refusal != 0 {
            row.differs(Kind::Refusal, list.len(), || format!("{list:?}: refusal {refusal}"));
        }
    }
    rows.push(row);
}
