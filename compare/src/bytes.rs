//! Bytes: what the Rust's senders write, how two answers of bytes differ, and messages and channel tunings alone.

use std::cell::RefCell;
use std::rc::Rc;

use tune::midi::ChannelMessageType;
use tune::mts;
use tune::note::Note;
use tune::pitch::Ratio;
use tune::tuner::MidiTarget;
use tune::tuner::MidiTunerMessage;
use tune::tuner::TunableMidi;
use tune::tuner::TunableSynth;

use crate::inputs::Chance;
use crate::ours;
use crate::ours::FILL;
use crate::ours::Message;
use crate::report::Kind;
use crate::report::Row;
use crate::report::progress;
use crate::rule;
use crate::steps;

pub type Handler = Box<dyn FnMut(MidiTunerMessage)>;
pub type Written = Rc<RefCell<Vec<u8>>>;

/// A sender of the Rust, whose bytes are collected.
pub fn sender(bends: bool, channels: &[u8]) -> (TunableMidi<Handler>, Written) {
    let written = Written::default();
    let bytes = written.clone();
    let handler: Handler = Box::new(move |message| message.send_to(|raw| bytes.borrow_mut().extend_from_slice(raw)));
    let target = MidiTarget { handler, channels: channels.to_vec() };
    let sender = if bends { TunableMidi::pitch_bend(target) } else { TunableMidi::channel_fine_tuning(target) };
    (sender, written)
}

pub fn rust_message(message: Message) -> ChannelMessageType {
    let Message { kind, first, second, bend } = message;
    match kind {
        0x8 => ChannelMessageType::NoteOff { key: first, velocity: second },
        0x9 => ChannelMessageType::NoteOn { key: first, velocity: second },
        0xa => ChannelMessageType::PolyphonicKeyPressure { key: first, pressure: second },
        0xb => ChannelMessageType::ControlChange { controller: first, value: second },
        0xc => ChannelMessageType::ProgramChange { program: first },
        0xd => ChannelMessageType::ChannelPressure { pressure: first },
        _ => ChannelMessageType::PitchBendChange { value: bend },
    }
}

/// The refusal of a message's data by SPEC 8.4: 8 from the left, 9; 0 where there is none.
pub fn judge_message(message: Message) -> u8 {
    let Message { kind, first, second, bend } = message;
    match kind {
        0x8..=0xb if first > 127 || second > 127 => 8,
        0xc | 0xd if first > 127 => 8,
        0x8..=0xd => 0,
        _ if !(-8192..=8191).contains(&bend) => 9,
        _ => 0,
    }
}

/// How the rules' bytes for a pitch differ from the Rust's: not at all, by one step of a tuning or its clamp, or otherwise. A step more comes of detunings
/// that differ in their last bits, where the Rust's lies below a whole number of steps and the rules' does not.
pub fn difference(rule: &[u8], rust: &[u8]) -> Option<Kind> {
    if rule == rust {
        return None;
    }
    if rule.len() != rust.len() || rule.len() % 3 != 0 {
        return Some(Kind::Unexpected);
    }
    let mut found = None;
    let mut i = 0;
    while i < rule.len() {
        let (a, b) = (&rule[i..], &rust[i..]);
        // A tuning is a bend, or the two controllers that carry a fine value.
        let (value, length): (fn(&[u8]) -> i32, usize) = match a[0] >> 4 {
            0xe => (|m| i32::from(m[1]) + i32::from(m[2]) * 128 - 8192, 3),
            0xb if a[1] == 0x06 && a.len() >= 6 && a[3] == a[0] && a[4] == 0x26 => (|m| i32::from(m[2]) * 128 + i32::from(m[5]), 6),
            _ => (|_| 0, 3),
        };
        i += length;
        if a[..length] == b[..length] {
            continue;
        }
        let same_shape = a[0] == b[0] && (length == 3 || (b[1], b[3], b[4]) == (a[1], a[3], a[4]));
        let kind = match (value(a), value(b)) {
            _ if !same_shape => Kind::Unexpected,
            (8191, 8192) if length == 3 => Kind::BendClamp,
            (rule, rust) if rule == rust - 1 => Kind::OneStep,
            (rule, rust) if rule == rust + 1 => Kind::OneStepMore,
            _ => Kind::Unexpected,
        };
        found = found.max(Some(kind));
    }
    found
}

pub fn hex(bytes: &[u8]) -> String {
    if bytes.is_empty() {
        return "-".to_string();
    }
    bytes.iter().map(|b| format!("{b:02X}")).collect::<Vec<_>>().join(" ")
}

/// A message of the Rust on a channel.
pub fn rust_bytes(message: Message, channel: u8) -> [u8; 3] {
    rust_message(message).in_channel(channel).unwrap().to_raw_message()
}

fn messages(rows: &mut Vec<Row>) {
    let mut row = Row::new("messages: every one there is");
    let mut one = |message: Message, channel: u8| {
        row.cases += 1;
        let mut out = [FILL; 4];
        let answer = ours::message(message, channel, &mut out);
        let rust = rust_bytes(message, channel);
        if answer != (0, 3) || out[..3] != rust || out[3] != FILL {
            row.differs(Kind::Unexpected, 0, || format!("{message:?} on {channel}: {answer:?} {}; the Rust: {}", hex(&out), hex(&rust)));
        }
    };
    for channel in 0..16 {
        progress(&format!("messages: channel {channel}"));
        for kind in 0x8..=0xb {
            for first in 0..128 {
                for second in 0..128 {
                    one(Message { kind, first, second, bend: 0 }, channel);
                }
            }
        }
        for kind in 0xc..=0xd {
            for first in 0..128 {
                one(Message { kind, first, second: 99, bend: 0 }, channel);
            }
        }
        for bend in -8192..=8191 {
            one(Message { kind: 0xe, first: 99, second: 99, bend }, channel);
        }
    }
    rows.push(row);

    // The Rust writes these as they are, or answers `None`: SPEC 8.4 is the judge. 6, 8 from the left, 9, 10.
    let mut row = Row::new("messages: damaged ones");
    for kind in 0x8..=0xe {
        for channel in [0, 15, 16, 255] {
            for first in [0, 127, 128, 255] {
                for second in [0, 127, 128, 255] {
                    for bend in [0, -8192, 8191, -8193, 8192, i16::MIN, i16::MAX] {
                        for room in 0..=3 {
                            let message = Message { kind, first, second, bend };
                            let refusal = if channel > 15 { 6 } else { judge_message(message) };
                            let refusal = if refusal == 0 && room < 3 { 10 } else { refusal };
                            row.cases += 1;
                            let mut out = [FILL; 3];
                            let answer = ours::message(message, channel, &mut out[..room]);
                            let expected = if refusal == 0 { ((0, 3), rust_bytes(message, channel)) } else { ((refusal, 0), [FILL; 3]) };
                            let told = || format!("{message:?} on channel {channel} in {room} bytes: {answer:?} {}", hex(&out));
                            if (answer, out) != expected {
                                row.differs(Kind::Unexpected, 0, told);
                            } else if refusal != 0 {
                                row.differs(Kind::Refusal, 0, told);
                            }
                        }
                    }
                }
            }
        }
    }
    rows.push(row);
}

fn channel_tunings(chance: &mut Chance, rows: &mut Vec<Row>) {
    for (bends, name) in [(false, "fine tunings of a channel"), (true, "bends of a channel")] {
        progress(name);
        let mut row = Row::new(name);
        let length = if bends { 3 } else { 12 };
        for turn in 0..200_000u32 {
            let detuning = match turn % 3 {
                0 => f64::from(50_000 + turn * 3 / 4) / 100_000.0,
                1 => (-1.0 + 2.0 * chance.unit()).exp2(),
                _ => ((-0.5 + chance.unit()) / 12.0).exp2(),
            };
            let channel = (turn % 16) as u8;
            let rust = if bends {
                let (mut sender, written) = sender(true, &[channel]);
                sender.notes_detune(0, &[(Note::from_midi_number(69), Ratio::from_float(detuning))]);
                written.take()
            } else {
                let messages = mts::channel_fine_tuning(channel, Ratio::from_float(detuning)).unwrap();
                messages.iter().flat_map(|m| m.to_raw_message()).collect()
            };
            row.cases += 1;
            let mut out = [FILL; 13];
            let answer = ours::channel_tuning(bends, channel, detuning, &mut out);
            let rule = rule::tuning(bends, channel, detuning);
            let told = || format!("{detuning:?} on channel {channel}: {answer:?} {}; the Rust: {}", hex(&out[..length]), hex(&rust));
            if answer != (0, length) || out[..length] != rule || out[length..].iter().any(|&b| b != FILL) {
                row.differs(Kind::Unexpected, 0, || format!("{}; docs/SPEC.md: {}", told(), hex(&rule)));
            } else if rule != rust {
                let values = if bends { (rule::bend(detuning), steps::bend(detuning)) } else { (rule::fine(detuning), steps::fine(detuning)) };
                let kind = steps::excused(bends, detuning, values.0, values.1).unwrap_or(Kind::Unexpected);
                row.differs(kind, format!("{detuning:?}").len(), told);
            }
        }
        rows.push(row);
    }

    // 6, 2, 10.
    let mut row = Row::new("tunings of a channel: damaged calls");
    for bends in [false, true] {
        let length = if bends { 3 } else { 12 };
        for channel in [0, 15, 16, 255] {
            for detuning in [1.0, 0.0, -1.0, f64::NAN, f64::INFINITY] {
                for room in 0..=length {
                    let refusal = match () {
                        () if channel > 15 => 6,
                        () if detuning != 1.0 => 2,
                        () if room < length => 10,
                        () => 0,
                    };
                    row.cases += 1;
                    let mut out = [FILL; 12];
                    let answer = ours::channel_tuning(bends, channel, detuning, &mut out[..room]);
                    let told = || format!("bends {bends}, {detuning:?} on channel {channel} in {room} bytes: {answer:?} {}", hex(&out));
                    let expected = if refusal == 0 { (0, length) } else { (refusal, 0) };
                    if answer != expected || (refusal != 0 && out != [FILL; 12]) {
                        row.differs(Kind::Unexpected, 0, told);
                    } else if refusal != 0 {
                        row.differs(Kind::Refusal, 0, told);
                    }
                }
            }
        }
    }
    rows.push(row);
}

pub fn run(chance: &mut Chance, rows: &mut Vec<Row>) {
    messages(rows);
    channel_tunings(chance, rows);
}
