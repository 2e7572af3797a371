//! The console program in Rust: the same lines in and out, over the Rust that the port replaces (its own files, unchanged, from the `shared` folder
//! beside the repository). It has no refusal 11: the Rust does not tell that a key is held. With the word `rule` it answers by SPEC 10, as the comparison's
//! driver tells it, to the last bit.
#![allow(dead_code, clippy::all)]

#[path = "../../../../shared/docs/src/key.rs"]
pub mod key;
#[path = "../../../../shared/docs/src/math.rs"]
pub mod math;
#[path = "../../../../shared/docs/src/midi.rs"]
pub mod midi;
#[path = "../../../../shared/docs/src/mts.rs"]
pub mod mts;
#[path = "../../../../shared/docs/src/note.rs"]
pub mod note;
mod parse;
#[path = "../../../../shared/docs/src/pitch.rs"]
pub mod pitch;
#[path = "../../src/rule.rs"]
mod rule;
#[path = "../../../../shared/docs/src/tuner/mod.rs"]
pub mod tuner;
#[path = "../../../../shared/docs/src/tuning.rs"]
pub mod tuning;

use std::cell::RefCell;
use std::io::{BufRead, BufReader, BufWriter, Write, stdin, stdout};
use std::rc::Rc;

use pitch::Pitch;
use tuner::{AccessKeyResult, GroupBy, JitTuner, JitTuningModel, MidiTarget, MidiTunerMessage, PoolingMode, RegisterKeyResult, TunableMidi};

const BUFFER: usize = 65536;

enum Event {
    On(u8, u32, u8),
    Off(u8, u8),
    Bend(u8, u32),
}

fn number(field: &[u8], places: usize) -> Option<u32> {
    if field.is_empty() || field.len() > places {
        return None;
    }
    field.iter().try_fold(0, |n, b| b.is_ascii_digit().then(|| n * 10 + u32::from(b - b'0')))
}

fn parse_line(line: &[u8]) -> Option<Event> {
    if line.len() > 64 {
        return None;
    }
    let mut fields = line.split(|b| *b == b',');
    let kind = fields.next()?;
    let key = u8::try_from(number(fields.next()?, 3)?).ok()?;
    let millihertz = number(fields.next()?, 9)?;
    let velocity = u8::try_from(number(fields.next()?, 3)?).ok()?;
    if fields.next().is_some() {
        return None;
    }
    match kind {
        b"on" => Some(Event::On(key, millihertz, velocity)),
        b"off" if millihertz == 0 => Some(Event::Off(key, velocity)),
        b"bend" if velocity == 0 => Some(Event::Bend(key, millihertz)),
        _ => None,
    }
}

fn pitch_of(millihertz: u32) -> Option<Pitch> {
    (millihertz > 0).then(|| Pitch::from_hz(f64::from(millihertz) / 1000.0))
}

/// Lines to play: at most four keys are down, and no key is pressed that is down.
fn write_lines(count: usize) {
    let mut output = BufWriter::with_capacity(BUFFER, stdout().lock());
    let mut seed = 20261115_u64;
    let mut draw = |below: u64| {
        seed = seed.wrapping_mul(6364136223846793005).wrapping_add(1442695040888963407);
        (seed >> 33) % below
    };
    let mut down: Vec<u64> = Vec::new();
    for _ in 0..count {
        let choice = draw(10);
        let millihertz = 20_000 + draw(4_000_000);
        let velocity = 1 + draw(127);
        if down.is_empty() || (choice < 5 && down.len() < 4) {
            let mut key = draw(256);
            while down.contains(&key) {
                key = (key + 1) % 256;
            }
            down.push(key);
            writeln!(output, "on,{key},{millihertz},{velocity}").unwrap();
        } else if choice < 9 {
            let key = down.remove(0);
            writeln!(output, "off,{key},0,{velocity}").unwrap();
        } else {
            let key = down[draw(down.len() as u64) as usize];
            writeln!(output, "bend,{key},{millihertz},0").unwrap();
        }
    }
}

/// The refusal or bytes of SPEC 10, by the Rust's pool given the rules' notes.
fn by_rule(pool: &mut JitTuningModel<u8>, event: Option<Event>) -> (u8, Vec<u8>) {
    let found = |result, bytes: &dyn Fn(u8, i32) -> Vec<u8>| match result {
        AccessKeyResult::Found { channel, found_note } => bytes(channel as u8, found_note.midi_number()),
        AccessKeyResult::NotFound => Vec::new(),
    };
    match event {
        None => (13, Vec::new()),
        Some(Event::On(_, _, velocity) | Event::Off(_, velocity)) if velocity > 127 => (8, Vec::new()),
        Some(Event::On(_, 0, _) | Event::Bend(_, 0)) => (1, Vec::new()),
        Some(Event::On(key, ..)) if matches!(pool.access_key(key), AccessKeyResult::Found { .. }) => (11, Vec::new()),
        Some(Event::On(key, millihertz, velocity)) => {
            let (note, detuning) = rule::nearest(f64::from(millihertz) / 1000.0);
            let RegisterKeyResult::Accepted { channel, stopped_note, .. } = pool.register_key(key, Pitch::from_hz(rule::note_pitch(note))) else {
                return (0, Vec::new());
            };
            let channel = channel as u8;
            let stopped = stopped_note.map_or(Vec::new(), |note| rule::note_message(0x8, channel, note.midi_number(), velocity));
            (0, [stopped, rule::tuning(false, channel, detuning), rule::note_message(0x9, channel, note, velocity)].concat())
        }
        Some(Event::Off(key, velocity)) => (0, found(pool.deregister_key(key), &|channel, note| rule::note_message(0x8, channel, note, velocity))),
        Some(Event::Bend(key, millihertz)) => {
            let hz = f64::from(millihertz) / 1000.0;
            (0, found(pool.access_key(key), &|channel, note| rule::tuning(false, channel, hz / rule::note_pitch(note))))
        }
    }
}

fn answer_by_rule() {
    let mut pool = JitTuningModel::new(2, GroupBy::Channel, PoolingMode::Stop);
    let mut output = BufWriter::new(stdout().lock());
    for line in stdin().lock().split(b'\n') {
        let (refusal, bytes) = by_rule(&mut pool, parse_line(&line.unwrap()));
        answer(&mut output, refusal, &bytes);
    }
}

fn main() {
    match std::env::args().nth(1).as_deref() {
        Some("rule") => return answer_by_rule(),
        Some(count) => return write_lines(count.parse().unwrap()),
        None => {}
    }
    let sent = Rc::new(RefCell::new(Vec::with_capacity(64)));
    let bytes = sent.clone();
    let handler = move |message: MidiTunerMessage| message.send_to(|raw| bytes.borrow_mut().extend_from_slice(raw));
    let target = MidiTarget { handler, channels: vec![0, 1] };
    let mut tuner = JitTuner::start(TunableMidi::channel_fine_tuning(target), PoolingMode::Stop);
    let mut input = BufReader::with_capacity(BUFFER, stdin().lock());
    let mut output = BufWriter::with_capacity(BUFFER, stdout().lock());
    let mut line = Vec::new();
    loop {
        line.clear();
        if input.read_until(b'\n', &mut line).unwrap() == 0 {
            break;
        }
        if line.last() == Some(&b'\n') {
            line.pop();
        }
        sent.borrow_mut().clear();
        let refusal = match parse_line(&line) {
            None => 13,
            Some(Event::On(_, _, velocity) | Event::Off(_, velocity)) if velocity > 127 => 8,
            Some(Event::On(key, millihertz, velocity)) => match pitch_of(millihertz) {
                Some(pitch) => {
                    tuner.note_on(key, pitch, velocity);
                    0
                }
                None => 1,
            },
            Some(Event::Off(key, velocity)) => {
                tuner.note_off(key, velocity);
                0
            }
            Some(Event::Bend(key, millihertz)) => match pitch_of(millihertz) {
                Some(pitch) => {
                    tuner.note_pitch(key, pitch);
                    0
                }
                None => 1,
            },
        };
        answer(&mut output, refusal, &sent.borrow());
    }
}

fn answer(output: &mut impl Write, refusal: u8, bytes: &[u8]) {
    const DIGITS: &[u8; 16] = b"0123456789ABCDEF";
    if refusal > 0 {
        writeln!(output, "R{refusal}").unwrap();
        return;
    }
    if bytes.is_empty() {
        output.write_all(b"-\n").unwrap();
        return;
    }
    let mut text = [0; 96];
    let mut n = 0;
    for byte in bytes {
        text[n] = DIGITS[usize::from(byte / 16)];
        text[n + 1] = DIGITS[usize::from(byte % 16)];
        text[n + 2] = b' ';
        n += 3;
    }
    text[n - 1] = b'\n';
    output.write_all(&text[..n]).unwrap();
}
