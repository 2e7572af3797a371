//! What the comparisons of pool tuners and plan tuners share.

use crate::bytes::difference;
use crate::bytes::hex;
use crate::bytes::rust_bytes;
use crate::inputs::Chance;
use crate::ours;
use crate::ours::Calls;
use crate::ours::Event;
use crate::ours::FILL;
use crate::ours::Message;
use crate::report::Kind;
use crate::report::Row;

/// What a call answers: its kind in the port's numbers, its bytes, and the channels that a tuning needs.
#[derive(Debug, Default, PartialEq)]
pub struct Answer {
    pub kind: u8,
    pub bytes: Vec<u8>,
    pub channels: u16,
}

/// What the rules say of a call, what the Rust answers, and why the two may differ.
pub struct Told {
    pub event: Event,
    pub rule: Answer,
    pub rust: Answer,
    /// Of the notes and plans that the call goes by; steps of a tuning's value are seen in the bytes.
    pub excuse: Option<Kind>,
}

impl Told {
    /// How the rules' answer differs from the Rust's.
    pub fn difference(&self) -> Option<Kind> {
        if self.rule == self.rust {
            return None;
        }
        let same = (self.rule.kind, self.rule.channels) == (self.rust.kind, self.rust.channels);
        // A step less needs no other reason.
        match difference(&self.rule.bytes, &self.rust.bytes).filter(|_| same) {
            Some(Kind::OneStep) => Some(Kind::OneStep),
            steps => self.excuse.or(steps).or(Some(Kind::Unexpected)),
        }
    }
}

fn name(event: Event) -> &'static str {
    match event {
        Event::Press(..) => "presses",
        Event::Release(..) => "releases",
        Event::Repitch(..) => "repitches",
        Event::Pressure(..) => "pressures",
        Event::Stop => "stops",
        Event::All(_) => "messages to all channels",
        Event::TuneByPitches => "tunings by pitches",
        Event::TuneByNotes => "tunings by notes and detunings",
    }
}

/// Holds every call of the port to the rules, and the rules to the Rust. `lines` is how many lines the tuner's lists have.
pub fn hold(row: &mut Row, setting: &str, lines: usize, calls: &[Told], play: impl Fn(&mut Calls)) {
    let events: Vec<Event> = calls.iter().map(|call| call.event).collect();
    let room = calls.iter().map(|call| call.rule.bytes.len()).sum::<usize>() + 200;
    let mut ours = Calls::new(&events, room);
    play(&mut ours);
    let mut at = 0;
    for (i, call) in calls.iter().enumerate() {
        row.cases += 1;
        row.meets(name(call.event));
        let bytes = ours.out[at.min(room)..at.saturating_add(ours.counts[i]).min(room)].to_vec();
        at = at.saturating_add(ours.counts[i]);
        let answer = Answer { kind: ours.answers[i], bytes, channels: ours.channels[i] };
        let size = lines + i;
        let told = || {
            let first = i.saturating_sub(20);
            let upto = &events[first..=i];
            let from = if first > 0 { format!("{first} calls and then ") } else { String::new() };
            let text = if (1..=13).contains(&answer.kind) { format!("refusal {}", answer.kind) } else { format!("{} {}", answer.kind, hex(&answer.bytes)) };
            format!("{setting}, {from}{upto:?}: {text}; the Rust: {}", hex(&call.rust.bytes))
        };
        if answer != call.rule {
            row.differs(Kind::Unexpected, size, || format!("{}; docs/SPEC.md: {:?}", told(), call.rule));
            return;
        }
        match answer.kind {
            1..=13 => row.differs(Kind::Refusal, size, told),
            ours::NOTHING => row.meets("answers rejected or untuned"),
            _ => {}
        }
        if let Some(kind) = call.difference() {
            row.differs(kind, size, told);
        }
    }
    if ours.out[at..].iter().any(|&b| b != FILL) {
        row.differs(Kind::Unexpected, events.len(), || format!("{setting}, {events:?}: written past the last byte"));
    }
}

/// Plays calls in buffers that end within the last one: it is refused by 10, as SPEC 9.1b says, and leaves the tuner as it was, which pressures of
/// these keys show. In a buffer that just holds it, it is not refused. What the calls answer in a long buffer is the rules', by `rules`.
pub fn short_buffers(
    row: &mut Row,
    setting: &str,
    before: &[Event],
    last: Event,
    keys: std::ops::RangeInclusive<u8>,
    rules: impl Fn(&[Event]) -> Vec<Told>,
    play: impl Fn(&mut Calls),
) {
    let bytes = |calls: &[Told]| calls.iter().flat_map(|call| call.rule.bytes.iter().copied()).collect::<Vec<u8>>();
    let pressures: Vec<Event> = keys.map(|key| Event::Pressure(key, 100)).collect();
    let full = rules(&[before, &[last]].concat());
    let shown = bytes(&rules(&[before, &pressures].concat()));
    let start = bytes(&full[..before.len()]).len();
    let accepted = &full[before.len()].rule;
    let need = accepted.bytes.len();
    for room in 0..=need {
        row.cases += 1;
        let mut calls = Calls::new(&[before, &[last], &pressures].concat(), start + room);
        play(&mut calls);
        let answer = (calls.answers[before.len()], calls.counts[before.len()], calls.channels[before.len()]);
        let (written, expected) = if room == need {
            (bytes(&full), (accepted.kind, need, accepted.channels))
        } else {
            (shown[..shown.len().min(start + room / 3 * 3)].to_vec(), (10, 0, 0))
        };
        let same = answer == expected && calls.out.starts_with(&written) && calls.out[written.len()..].iter().all(|&b| b == FILL);
        let told = || format!("{setting}, {before:?} and then {last:?} in {room} bytes: {answer:?}");
        if !same {
            row.differs(Kind::Unexpected, before.len(), told);
        } else if room < need {
            row.differs(Kind::Refusal, before.len(), told);
        }
    }
}

/// What SPEC 9.4 sends for a message to all channels.
pub fn to_all(message: Message, bends: bool, channels: &[u8]) -> Vec<u8> {
    if bends && message.kind == 0xe {
        return Vec::new();
    }
    channels.iter().flat_map(|&channel| rust_bytes(message, channel)).collect()
}

pub fn any_message(chance: &mut Chance) -> Message {
    Message {
        kind: 0x8 + chance.below(7) as u8,
        first: chance.below(128) as u8,
        second: chance.below(128) as u8,
        bend: chance.below(16384) as i16 - 8192,
    }
}

/// A list of so many channels, in an order of chance.
pub fn channel_list(chance: &mut Chance, n: usize) -> Vec<u8> {
    chance.keys().into_iter().filter(|&c| c < 16).take(n).collect()
}
