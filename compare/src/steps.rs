//! Fine and bend values. The Rust makes them inside its senders, so they are read from the messages sent.

use tune::midi::ChannelMessageType;
use tune::mts;
use tune::note::Note;
use tune::pitch::Pitched;
use tune::pitch::Ratio;
use tune::tuner::MidiTarget;
use tune::tuner::MidiTunerMessage;
use tune::tuner::TunableMidi;
use tune::tuner::TunableSynth;

use crate::inputs::Chance;
use crate::inputs::step;
use crate::nearest;
use crate::ours;
use crate::ours::Values;
use crate::report::Kind;
use crate::report::Row;
use crate::report::progress;
use crate::rule;

/// The fine value in the messages of a channel's fine tuning.
pub fn fine(detuning: f64) -> i32 {
    let messages = mts::channel_fine_tuning(0, Ratio::from_float(detuning)).unwrap();
    let data = |i: usize| match messages[i].message_type() {
        ChannelMessageType::ControlChange { value, .. } => i32::from(value),
        _ => panic!("a fine tuning is sent by controllers"),
    };
    data(2) * 128 + data(3)
}

/// The bend in the bytes that a bend sender sends.
pub fn bend(detuning: f64) -> i32 {
    let mut bytes = Vec::new();
    let mut sender = TunableMidi::pitch_bend(MidiTarget {
        handler: |message: MidiTunerMessage| message.send_to(|raw| bytes.extend_from_slice(raw)),
        channels: vec![0],
    });
    sender.notes_detune(0, &[(Note::from_midi_number(69), Ratio::from_float(detuning))]);
    drop(sender);
    assert_eq!((bytes.len(), bytes[0]), (3, 0xe0));
    i32::from(bytes[1]) + i32::from(bytes[2]) * 128 - 8192
}

/// Why a value by SPEC 5 may differ from the Rust's, if it may: the clamp of a bend at 8191, or one step less where the exact value lies within
/// the bound of SPEC 5.1a, 1/64 of a step above a whole number.
pub fn excused(is_bend: bool, detuning: f64, value: i32, rust: i32) -> Option<Kind> {
    let exact = detuning.log2() * if is_bend { 49152.0 } else { 98304.0 };
    match () {
        () if is_bend && (value, rust) == (8191, 8192) && exact > 8191.9 => Some(Kind::BendClamp),
        () if value == rust - 1 && (exact + 1e-9).rem_euclid(1.0) < 1.0 / 64.0 => Some(Kind::OneStep),
        () => None,
    }
}

/// The port is held to the rules, and the rules to the Rust.
fn compare(row: &mut Row, is_bend: bool, detunings: &[f64]) {
    let mut ours = Values::room(detunings.len());
    ours.find(detunings);
    for (i, &detuning) in detunings.iter().enumerate() {
        row.cases += 1;
        let value = if is_bend { ours.bends[i] } else { ours.fines[i] } as i32;
        let rule = if is_bend { rule::bend(detuning) } else { rule::fine(detuning) };
        let rust: i32 = if is_bend { bend(detuning) } else { fine(detuning) };
        let told = || format!("{detuning:?}: {value}; the Rust: {rust}");
        if (ours.refusals[i], value) != (0, rule) {
            let refusal = ours.refusals[i];
            row.differs(Kind::Unexpected, 0, || format!("{}; docs/SPEC.md: {rule}, refusal {refusal}", told()));
        } else if rule != rust {
            let kind = excused(is_bend, detuning, rule, rust);
            row.differs(kind.unwrap_or(Kind::Unexpected), format!("{detuning:?}").len(), told);
        }
    }
}

pub fn run(chance: &mut Chance, rows: &mut Vec<Row>) {
    for (is_bend, name) in [(false, "fine values"), (true, "bend values")] {
        progress(&format!("{name}: limits and steps"));
        let mut row = Row::new(&format!("{name}: limits and every step"));
        let mut detunings = vec![1.0, 2.0, 0.5, 33.0 / 32.0, 31.0 / 32.0, 5e-324, f64::MIN_POSITIVE, f64::MAX, 1e-300, 1e300, 4.0, 0.25];
        // Each step's own detuning, and those beside it.
        for value in -8200..=8200 {
            let at = if is_bend { f64::from(value) / 49152.0 } else { f64::from(value) / 98304.0 };
            let detuning = at.exp2();
            for k in [-100_000, -1000, -2, -1, 0, 1, 2, 1000, 100_000] {
                detunings.push(step(detuning, k));
            }
        }
        for k in -1074..1024 {
            detunings.push(f64::from(k).exp2());
        }
        // All of five decimals.
        for k in 50_000..=200_000 {
            detunings.push(f64::from(k) / 100_000.0);
        }
        compare(&mut row, is_bend, &detunings);
        rows.push(row);

        let mut row = Row::new(&format!("{name}: chance"));
        for turn in 0..20 {
            progress(&format!("{name}: chance, {turn} of 20"));
            let detunings: Vec<f64> = (0..50_000)
                .map(|i| match i % 4 {
                    0 => f64::from_bits(chance.next() >> 1).min(f64::MAX).max(5e-324),
                    1 => (-1.0 + 2.0 * chance.unit()).exp2(),
                    2 => ((-2.0 + 4.0 * chance.unit()) / 12.0).exp2(),
                    _ => ((-0.5 + chance.unit()) / 12.0).exp2(),
                })
                .filter(|d| d.is_finite())
                .collect();
            compare(&mut row, is_bend, &detunings);
        }
        rows.push(row);
    }

    let mut row = Row::new("values: detunings that have no logarithm");
    let bad = [0.0, -0.0, -1.0, f64::NAN, f64::INFINITY, f64::NEG_INFINITY, -5e-324];
    let mut ours = Values::room(bad.len());
    ours.find(&bad);
    for (&detuning, refusal) in bad.iter().zip(ours.refusals) {
        row.cases += 1;
        let kind = if refusal == 2 { Kind::Refusal } else { Kind::Unexpected };
        row.differs(kind, 0, || format!("{detuning:?}: refusal {refusal}; the Rust sends {} and {}", fine(detuning), bend(detuning)));
    }
    rows.push(row);

    // The Rust has the pitches of notes in other last bits, and no measure.
    let mut row = Row::new("note pitches and measures");
    for note in -310..=510 {
        row.cases += 1;
        let ours = ours::note_pitch(note);
        let rust = Note::from_midi_number(note).pitch().as_hz();
        if !(-300..=500).contains(&note) {
            let kind = if (ours.outcome, ours.refusal) == (4, 4) { Kind::Refusal } else { Kind::Unexpected };
            row.differs(kind, 0, || format!("note {note}: refusal {}; the Rust: {rust:?} Hz", ours.refusal));
        } else if (ours.outcome, ours.refusal, ours.hz) != (0, 0, rule::note_pitch(note)) || !nearest::close(ours.hz, rust) {
            row.differs(Kind::Unexpected, 0, || format!("note {note}: {ours:?}; the Rust: {rust:?} Hz"));
        }
    }
    // Numbers of its own, so that the rows behind this one keep theirs.
    let mut chance = Chance(chance.0 ^ 1);
    for turn in 0..1_000_000 {
        row.cases += 1;
        let detuning = if turn % 2 == 0 { f64::from_bits(chance.next() >> 1) } else { (-1.0 + 2.0 * chance.unit()).exp2() };
        let ours = ours::measure(detuning);
        let expected = if 0.0 < detuning && detuning.is_finite() { (0, 0, rule::measure(detuning)) } else { (4, 2, 0) };
        if (ours.outcome, ours.refusal, ours.number) != expected {
            row.differs(Kind::Unexpected, 0, || format!("{detuning:?}: {ours:?}; docs/SPEC.md: {expected:?}"));
        }
    }
    rows.push(row);
}
