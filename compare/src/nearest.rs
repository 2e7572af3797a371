//! Nearest notes and their detunings.

use tune::pitch::Pitch;
use tune::pitch::Pitched;
use tune::pitch::Ratio;

use crate::inputs::Chance;
use crate::inputs::REFERENCES;
use crate::inputs::step;
use crate::inputs::temperaments;
use crate::ours::Nearest;
use crate::report::Kind;
use crate::report::Row;
use crate::report::progress;
use crate::rule;

/// The note and the detuning that the Rust finds.
pub fn found(hz: f64) -> (i32, f64) {
    let found = Pitch::from_hz(hz).find_in_tuning(());
    (found.approx_value.midi_number(), found.deviation.as_float())
}

/// How far a pitch is, in semitones, from the nearest boundary of two notes as the Rust has it.
pub fn from_boundary(hz: f64) -> f64 {
    let shifted = Ratio::from_float(hz / 440.0).as_semitones() - Ratio::from_float(1.000001).as_semitones();
    (shifted - shifted.floor() - 0.5).abs()
}

pub const NEAR: f64 = 2e-6;
pub const GAP: f64 = 1e-12;

/// Whether a detuning by SPEC 4.4 is the Rust's but for its last bits.
pub fn close(rule: f64, rust: f64) -> bool {
    (rule / rust - 1.0).abs() < GAP
}

/// Whether the nearest note by SPEC 4.2 may differ from the Rust's: the other note beside a boundary, with the detuning that belongs to it.
pub fn excused(hz: f64) -> bool {
    let ((note, detuning), (rust_note, rust_detuning)) = (rule::nearest(hz), found(hz));
    let semitone = (f64::from(rust_note - note) / 12.0).exp2();
    (note - rust_note).abs() == 1 && from_boundary(hz) <= NEAR && close(detuning / semitone, rust_detuning)
}

/// The port is held to the rules, and the rules to the Rust.
fn compare(row: &mut Row, pitches: &[f64]) {
    let mut ours = Nearest::room(pitches.len());
    ours.find(pitches);
    for (i, &hz) in pitches.iter().enumerate() {
        row.cases += 1;
        let (note, detuning) = rule::nearest(hz);
        let (rust_note, rust_detuning) = found(hz);
        if from_boundary(hz) <= NEAR {
            row.meets("pitches within 2 millionths of a semitone of a boundary");
        }
        let (our_note, our_detuning) = (ours.notes[i], ours.detunings[i]);
        let told = || format!("{hz:?} Hz: note {our_note}, detuning {our_detuning:?}; the Rust: {rust_note}, {rust_detuning:?}");
        if (ours.refusals[i], our_note, our_detuning) != (0, note, detuning) {
            row.differs(Kind::Unexpected, 0, || format!("{}; docs/SPEC.md: {note}, {detuning:?}", told()));
        } else if note == rust_note && close(detuning, rust_detuning) {
            continue;
        } else if excused(hz) {
            row.meets(if note < rust_note { "of these the lower note" } else { "of these the higher note" });
            row.differs(Kind::NoteAtBoundary, format!("{hz:?}").len(), told);
        } else {
            row.differs(Kind::Unexpected, 0, told);
        }
    }
}

/// Pitches that no note can have.
fn refused(row: &mut Row) {
    let low = (-20f64).exp2();
    let high = 40f64.exp2();
    let outside = [
        0.0, -0.0, -440.0, f64::NAN, f64::INFINITY, f64::NEG_INFINITY, f64::MIN_POSITIVE, 5e-324, f64::MAX,
        step(low, -1), step(high, 1),
    ];
    let mut ours = Nearest::room(outside.len());
    ours.find(&outside);
    for (hz, refusal) in outside.iter().zip(ours.refusals) {
        row.cases += 1;
        let kind = if refusal == 1 { Kind::Refusal } else { Kind::Unexpected };
        row.differs(kind, 0, || format!("{hz:?} Hz: refusal {refusal}"));
    }
}

pub fn run(chance: &mut Chance, rows: &mut Vec<Row>) {
    progress("nearest notes: range ends and boundaries");
    let mut row = Row::new("nearest notes: limits and boundaries");
    let low = (-20f64).exp2();
    let high = 40f64.exp2();
    let mut pitches: Vec<f64> = (0..2000).flat_map(|k| [step(low, k), step(high, -k)]).collect();
    for note in -277..=445 {
        // The boundary above the note as the Rust has it, and as the whole-number rule has it.
        let above = |shift: f64| 440.0 * ((f64::from(note) - 69.0 + 0.5 + shift) / 12.0).exp2();
        for shift in [0.0, 290.0 / 16777216.0, 1.7312336e-5] {
            let boundary = above(shift);
            for k in [-1000, -100, -20, -5, -3, -2, -1, 0, 1, 2, 3, 5, 20, 100, 1000] {
                pitches.push(step(boundary, k));
            }
            for k in -40..=40 {
                pitches.push(boundary * (f64::from(k) * 1e-7 / 12.0).exp2());
            }
        }
        let pitch = 440.0 * ((f64::from(note) - 69.0) / 12.0).exp2();
        pitches.extend((-8..=8).map(|k| step(pitch, k)));
    }
    pitches.retain(|&hz| low <= hz && hz <= high);
    compare(&mut row, &pitches);
    rows.push(row);

    progress("nearest notes: temperaments");
    let mut row = Row::new("nearest notes: temperaments");
    for temperament in temperaments() {
        for reference in REFERENCES {
            let pitches: Vec<f64> = (-60..196).map(|d| temperament.pitch(reference, d)).filter(|&hz| low <= hz && hz <= high).collect();
            compare(&mut row, &pitches);
        }
    }
    rows.push(row);

    let mut row = Row::new("nearest notes: all millihertz up to 5 kHz");
    for hertz in 0..5000 {
        if hertz % 100 == 0 {
            progress(&format!("nearest notes: millihertz, {hertz} of 5000 Hz"));
        }
        let pitches: Vec<f64> = (0..1000).map(|k| f64::from(hertz * 1000 + k + 1) / 1000.0).collect();
        compare(&mut row, &pitches);
    }
    rows.push(row);

    let mut row = Row::new("nearest notes: chance");
    for turn in 0..60 {
        progress(&format!("nearest notes: chance, {turn} of 60"));
        let pitches: Vec<f64> = (0..50_000).map(|i| if i % 2 == 0 { chance.any_pitch() } else { chance.pitch() }).collect();
        compare(&mut row, &pitches);
    }
    rows.push(row);

    let mut row = Row::new("nearest notes: pitches out of range");
    refused(&mut row);
    rows.push(row);
}
