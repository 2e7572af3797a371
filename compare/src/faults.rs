//! Faults of the Rust, each by the smallest input that shows it, as docs/DIFFERENCES.md tells them; and the refusal that stands in their place.

use std::panic::AssertUnwindSafe;
use std::panic::catch_unwind;
use std::panic::set_hook;
use std::panic::take_hook;

use tune::math;
use tune::note::Note;
use tune::pitch::Pitch;
use tune::tuner::AccessKeyResult;
use tune::tuner::AotTuner;
use tune::tuner::GroupBy;
use tune::tuner::JitTuner;
use tune::tuner::JitTuningModel;
use tune::tuner::PoolingMode;
use tune::tuner::RegisterKeyResult;
use tune::tuner::TunableSynth;

use crate::bytes::hex;
use crate::bytes::rust_bytes;
use crate::bytes::rust_message;
use crate::bytes::sender;
use crate::nearest;
use crate::ours;
use crate::ours::Calls;
use crate::ours::Event;
use crate::ours::Events;
use crate::ours::Lists;
use crate::ours::Message;
use crate::ours::Nearest;
use crate::plans::mapping;
use crate::report::Kind;
use crate::report::Row;

/// Holds the Rust to what is told of it, and the port to its refusal where it can be asked.
fn one(row: &mut Row, input: &str, (rust, told): (String, &str), port: Option<(u8, u8)>) {
    row.cases += 1;
    let kind = match port {
        _ if rust != told => Kind::Unexpected,
        Some((number, refusal)) if number != refusal => Kind::Unexpected,
        Some(_) => Kind::Refusal,
        None => return,
    };
    row.differs(kind, input.len(), || format!("{input}: {port:?}; the Rust: {rust}"));
}

/// What a call of the Rust writes, or that it panics.
fn written(bends: bool, channels: &[u8], plan: bool, presses: &[(u8, f64)]) -> String {
    let (sender, written) = sender(bends, channels);
    let ended = catch_unwind(AssertUnwindSafe(|| {
        if plan {
            let (keys, pitches): (Vec<u8>, Vec<f64>) = presses.iter().copied().unzip();
            let _ = AotTuner::start(sender).set_tuning(&mapping(&keys, &pitches), keys);
        } else {
            let mut tuner = JitTuner::start(sender, PoolingMode::Block);
            presses.iter().for_each(|&(key, hz)| tuner.note_on(key, Pitch::from_hz(hz), 64));
        }
    }));
    if ended.is_err() { "panics".to_string() } else { hex(&written.take()) }
}

fn channels(row: &mut Row) {
    for bends in [false, true] {
        let mut calls = Calls::new(&[Event::Press(1, 440.0, 64)], 20);
        one(row, "a press on channel 16", (written(bends, &[16], false, &[(1, 440.0)]), "panics"), Some((calls.play_pool(&[16], bends, 0, 0), 6)));
        let (mut unheard, bytes) = sender(bends, &[16]);
        unheard.global_attr(rust_message(Message { kind: 0x9, first: 60, second: 64, bend: 0 }));
        one(row, "a note-on to all channels, which are 16", (hex(&bytes.take()), "-"), Some((calls.play_pool(&[16], bends, 0, 0), 6)));
        let mut calls = Calls::new(&[Event::TuneByPitches], 20);
        let lists = Lists { pitch_keys: vec![1], pitches: vec![440.0], ..Lists::default() };
        one(row, "a plan on channel 16", (written(bends, &[16], true, &[(1, 440.0)]), "panics"), Some((calls.play_plan(&[16], bends, &lists), 6)));
    }
    // The first key's channel is tuned anew under it.
    let presses = [(1, 440.0), (2, 450.0)];
    let mut calls = Calls::new(&presses.map(|(key, hz)| Event::Press(key, hz, 64)), 20);
    let both = (written(true, &[0, 0], false, &presses), "E0 00 40 90 45 40 E0 39 4C 90 45 40");
    one(row, "two presses on channels 0 and 0", both, Some((calls.play_pool(&[0, 0], true, 0, 0), 7)));
}

fn numbers(row: &mut Row) {
    for (hz, told) in [(0.0, "-2147483579 NaN"), (f64::NAN, "69 NaN"), (-1.0, "69 NaN"), (f64::INFINITY, "-2147483580 NaN")] {
        let mut ours = Nearest::room(1);
        ours.find(&[hz]);
        let (note, detuning) = nearest::found(hz);
        one(row, &format!("{hz:?} Hz"), (format!("{note} {detuning:?}"), told), Some((ours.refusals[0], 1)));
    }
    // The functions for C do not reach these.
    let sum = Note::from_midi_number(i32::MAX).plus_semitones(1).midi_number();
    one(row, "the note 2147483647 and a semitone more", (sum.to_string(), "-2147483648"), None);
    let difference = Note::from_midi_number(i32::MIN).num_semitones_before(Note::from_midi_number(0));
    one(row, "from the note -2147483648 to 0", (difference.to_string(), "-2147483648"), None);
    let quotient = catch_unwind(|| math::i32_div_u(0, 0u32));
    one(row, "0 divided by 0", (quotient.map_or("panics".to_string(), |n| n.to_string()), "panics"), None);
}

fn messages(row: &mut Row) {
    let note_on = Message { kind: 0x9, first: 0, second: 128, bend: 0 };
    let bend = |bend| Message { kind: 0xe, first: 0, second: 0, bend };
    for (message, told, refusal) in [
        (note_on, "90 00 80", 8),
        (bend(8192), "E0 00 80", 9),
        (bend(-8193), "E0 7F FF", 9),
        (bend(i16::MIN), "E0 00 40", 9),
    ] {
        let answer = ours::message(message, 0, &mut [0; 3]).0;
        one(row, &format!("{message:?}"), (hex(&rust_bytes(message, 0)), told), Some((answer, refusal)));
    }
}

/// Presses of a key that is held. A letter is an event: `p` a press, `r` a release, `l` a lookup, with the key behind it.
fn held(row: &mut Row) {
    for (channels, mode, events, told) in [
        (1, 1, "p1 p1 l1 r1", "0, 0, not found, not found"),
        (2, 0, "p1 p1 r1 p2 p3", "0, 1, 1, 1, rejected"),
        (2, 1, "p1 p1 r1 p2 p3", "0, 1, 1, 1, rejected"),
        (2, 2, "p1 p1 r1 p2 p3", "0, 1, 1, 1, rejected"),
    ] {
        let modes = [PoolingMode::Block, PoolingMode::Stop, PoolingMode::Ignore];
        let mut rust = JitTuningModel::new(channels, GroupBy::Channel, modes[mode]);
        let mut port = Events::default();
        let mut answers = Vec::new();
        for event in events.split(' ') {
            let key = event.as_bytes()[1] - b'0';
            let accessed = |result| match result {
                AccessKeyResult::Found { channel, .. } => channel.to_string(),
                AccessKeyResult::NotFound => "not found".to_string(),
            };
            let (kind, answer) = match event.as_bytes()[0] {
                b'p' => match rust.register_key(key, Pitch::from_hz(440.0)) {
                    RegisterKeyResult::Accepted { channel, .. } => (ours::PRESS, channel.to_string()),
                    RegisterKeyResult::Rejected => (ours::PRESS, "rejected".to_string()),
                },
                b'r' => (ours::RELEASE, accessed(rust.deregister_key(key))),
                _ => (ours::LOOKUP, accessed(rust.access_key(key))),
            };
            port.push(kind, key, 440.0);
            answers.push(answer);
        }
        port.ready();
        port.play(&(0..channels as u8).collect::<Vec<u8>>(), false, mode as u8, 0);
        one(row, &format!("{channels} channels, {:?}, {events}", modes[mode]), (answers.join(", "), told), Some((port.answers.kinds[1], 11)));
    }
}

pub fn run(rows: &mut Vec<Row>) {
    let mut row = Row::new("faults of the Rust");
    // The panics are expected, and say nothing.
    let hook = take_hook();
    set_hook(Box::new(|_| {}));
    channels(&mut row);
    numbers(&mut row);
    set_hook(hook);
    messages(&mut row);
    held(&mut row);
    rows.push(row);
}
