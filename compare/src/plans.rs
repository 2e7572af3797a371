//! Plans: the count, every key's channel and note, every channel's detunings.

use tune::note::Note;
use tune::pitch::Pitch;
use tune::pitch::Ratio;
use tune::tuner::AotTuner;
use tune::tuner::AotTuningModel;
use tune::tuner::GroupBy;
use tune::tuner::TunableSynth;
use tune::tuning::KeyboardMapping;

use crate::inputs::Chance;
use crate::inputs::REFERENCES;
use crate::inputs::step;
use crate::inputs::temperaments;
use crate::nearest;
use crate::ours;
use crate::ours::Tuning;
use crate::report::Kind;
use crate::report::Row;
use crate::report::progress;
use crate::rule;

/// All keys.
pub const ALL: [u8; 256] = {
    let mut all = [0; 256];
    let mut i = 0;
    while i < 256 {
        all[i] = i as u8;
        i += 1;
    }
    all
};

pub const GROUPS: [(u8, GroupBy, &str); 3] = [(0, GroupBy::Note, "note"), (1, GroupBy::NoteLetter, "letter"), (2, GroupBy::Channel, "channel")];

/// The pitch of every key.
pub struct Mapping(pub [f64; 256]);

impl KeyboardMapping<u8> for &Mapping {
    fn maybe_pitch_of(&self, key: u8) -> Option<Pitch> {
        Some(Pitch::from_hz(self.0[key as usize]))
    }
}

pub fn mapping(keys: &[u8], pitches: &[f64]) -> Mapping {
    let mut all = [440.0; 256];
    for (&key, &hz) in keys.iter().zip(pitches) {
        all[key as usize] = hz;
    }
    Mapping(all)
}

/// A synthesizer that writes down what it is told.
struct Recorder {
    channels: usize,
    group_by: GroupBy,
    detuned: Vec<Vec<(i32, f64)>>,
    started: Vec<(usize, i32)>,
}

impl TunableSynth for &mut Recorder {
    type Result = ();
    type NoteAttr = ();
    type GlobalAttr = ();

    fn num_channels(&self) -> usize {
        self.channels
    }

    fn group_by(&self) -> GroupBy {
        self.group_by
    }

    fn notes_detune(&mut self, channel: usize, detuned_notes: &[(Note, Ratio)]) {
        assert_eq!(channel, self.detuned.len());
        let mut entries: Vec<(i32, f64)> = detuned_notes.iter().map(|(note, ratio)| (note.midi_number(), ratio.as_float())).collect();
        if self.group_by == GroupBy::NoteLetter {
            for entry in &mut entries {
                entry.0 = entry.0.rem_euclid(12);
            }
        }
        entries.sort_by_key(|e| e.0);
        self.detuned.push(entries);
    }

    fn note_on(&mut self, channel: usize, note: Note, (): ()) {
        self.started.push((channel, note.midi_number()));
    }

    fn note_off(&mut self, _: usize, _: Note, (): ()) {}

    fn note_attr(&mut self, _: usize, _: Note, (): ()) {}

    fn global_attr(&mut self, (): ()) {}
}

struct Plan {
    count: usize,
    tuned: bool,
    places: Vec<Option<(usize, i32)>>,
    entries: Vec<Vec<(i32, f64)>>,
}

/// The Rust's plan by `apply_tuning`, and by `set_tuning` above it on so many channels.
fn rust_plan(keys: &[u8], pitches: &[f64], group_by: GroupBy, present: usize) -> Plan {
    let mapping = mapping(keys, pitches);
    let (model, channel_detunings) = AotTuningModel::apply_tuning(group_by, &mapping, keys.iter().copied());
    let mut recorder = Recorder { channels: present, group_by, detuned: Vec::new(), started: Vec::new() };
    let mut tuner = AotTuner::start(&mut recorder);
    let count = tuner.set_tuning(&mapping, keys.iter().copied()).unwrap();
    let tuned = tuner.tuned();
    for key in 0..=255u8 {
        tuner.note_on(key, ());
    }
    drop(tuner);
    assert_eq!((count, count), (model.num_channels(), channel_detunings.len()));
    let places: Vec<_> = (0..=255u8)
        .map(|key| model.get_channel_and_note_for_key(key).filter(|_| tuned).map(|(channel, note)| (channel, note.midi_number())))
        .collect();
    assert!(places.iter().flatten().copied().eq(recorder.started.iter().copied()));
    Plan { count, tuned, places, entries: recorder.detuned }
}

fn expected(plan: &Plan) -> Tuning {
    if plan.tuned { Tuning::Tuned(plan.count) } else { Tuning::Untuned(plan.count) }
}

/// What SPEC 6.4 answers to a plan that needs so many channels, where so many are present.
fn answer_of(plan: &rule::Plan, present: usize) -> Tuning {
    if plan.count <= present { Tuning::Tuned(plan.count) } else { Tuning::Untuned(plan.count) }
}

/// Whether an answer, with the channel and the note of every key, is the one expected, with these places where it is tuned.
fn is_plan(expected: Tuning, places: &[Option<(usize, i32)>], answer: Tuning, at: &[u8], sounds: &[i32]) -> bool {
    let tuned = matches!(expected, Tuning::Tuned(_));
    answer == expected
        && places.iter().zip(at).zip(sounds).all(|((place, &channel), &note)| match place {
            Some(place) if tuned => *place == (usize::from(channel), note),
            _ => channel == ours::NO_CHANNEL,
        })
}

/// Whether a key's group has a pair of neighbours, by rising detuning, whose quotient is so near to the joining limit that last bits decide.
fn at_limit(group: u8, notes: &[i32], detunings: &[f64]) -> bool {
    let mut order: Vec<(i32, f64)> = notes
        .iter()
        .zip(detunings)
        .map(|(&note, &d)| (match group { 0 => note, 1 => note.rem_euclid(12), _ => 0 }, d))
        .collect();
    order.sort_by(|a, b| a.0.cmp(&b.0).then(a.1.total_cmp(&b.1)));
    order.windows(2).any(|w| w[0].0 == w[1].0 && (w[1].1 / w[0].1 - 1.000001).abs() < 1e-11)
}

fn compare(fed: &mut Row, by_pitch: &mut Row, keys: &[u8], pitches: &[f64], present: usize) {
    let list: Vec<u8> = (0..present as u8).collect();
    let (notes, detunings): (Vec<i32>, Vec<f64>) = pitches.iter().map(|&hz| nearest::found(hz)).unzip();
    for (group, group_by, name) in GROUPS {
        let rust = rust_plan(keys, pitches, group_by, present);
        let told = |what: String| {
            let lines: Vec<_> = keys.iter().zip(pitches).collect();
            format!("{name} groups, {present} channels, keys and pitches {lines:?}: {what}; the Rust: {:?}", expected(&rust))
        };

        fed.cases += 1;
        let mut at = [99; 256];
        let mut sounds = [9999; 256];
        let answer = ours::plan(&list, group, keys, &notes, &detunings, &ALL, &mut at, &mut sounds);
        let mut same = is_plan(expected(&rust), &rust.places, answer, &at, &sounds);
        if rust.tuned {
            // Each entry is asked for from behind the one before it; behind the last there is none, and none on the channel behind the last.
            let mut asked = vec![(rust.count as u8, i32::MIN)];
            let mut entries = vec![None];
            for (channel, listed) in rust.entries.iter().enumerate() {
                let mut from = -300;
                for &(of, detuning) in listed {
                    asked.push((channel as u8, from));
                    entries.push(Some((of, detuning)));
                    fed.meets("detunings of a group on a channel");
                    from = of + 1;
                }
                asked.push((channel as u8, from));
                entries.push(None);
            }
            same &= ours::entries(&list, group, keys, &notes, &detunings, &asked) == (ours::FOUND, entries);
        } else {
            same &= ours::entries(&list, group, keys, &notes, &detunings, &[(0, i32::MIN)]) == (ours::NOTHING, vec![None]);
            fed.meets("untuned");
        }
        for pair in notes.iter().zip(&detunings).collect::<Vec<_>>().windows(2) {
            let quotient = pair[1].1 / pair[0].1;
            match quotient.to_bits() as i64 - 1.000001f64.to_bits() as i64 {
                0 => fed.meets("neighbours whose quotient is 1.000001 itself"),
                -1 => fed.meets("neighbours whose quotient is the f64 below 1.000001"),
                _ => {}
            }
        }
        if !same {
            fed.differs(Kind::Unexpected, keys.len(), || told(format!("{answer:?}")));
        }

        by_pitch.cases += 1;
        let planned = plan_of_pitches(group, keys, pitches);
        let answer = ours::plan_of_pitches(&list, group, keys, pitches, &ALL, &mut at, &mut sounds);
        if !is_plan(answer_of(&planned, present), &planned.places, answer, &at, &sounds) {
            by_pitch.differs(Kind::Unexpected, keys.len(), || told(format!("{answer:?}; docs/SPEC.md: {} channels", planned.count)));
        } else if answer_of(&planned, present) != expected(&rust) || (rust.tuned && planned.places != rust.places) {
            let kind = excused(group, pitches).unwrap_or(Kind::Unexpected);
            by_pitch.differs(kind, keys.len(), || told(format!("{answer:?}")));
        }
    }
}

/// Why a plan of pitches may differ from the Rust's, if it may: a note beside a boundary, or last bits at the joining limit.
pub fn excused(group: u8, pitches: &[f64]) -> Option<Kind> {
    let (notes, detunings): (Vec<i32>, Vec<f64>) = pitches.iter().map(|&hz| nearest::found(hz)).unzip();
    match () {
        () if pitches.iter().any(|&hz| nearest::excused(hz)) => Some(Kind::NoteAtBoundary),
        () if at_limit(group, &notes, &detunings) => Some(Kind::JoinAtLimit),
        () => None,
    }
}

/// The plan of keys with pitches by SPEC 6.3.
pub fn plan_of_pitches(group: u8, keys: &[u8], pitches: &[f64]) -> rule::Plan {
    let (notes, detunings): (Vec<i32>, Vec<f64>) = pitches.iter().map(|&hz| rule::nearest(hz)).unzip();
    rule::plan(group, keys, &notes, &detunings)
}

/// All lists of so many lines over a palette of pitches.
fn exhaustive(fed: &mut Row, by_pitch: &mut Row, length: u32, palette: &[f64]) {
    for code in 0..palette.len().pow(length) {
        let mut rest = code;
        let pitches: Vec<f64> = (0..length)
            .map(|_| {
                let hz = palette[rest % palette.len()];
                rest /= palette.len();
                hz
            })
            .collect();
        let keys: Vec<u8> = (0..length as u8).rev().collect();
        for present in [1, 3] {
            compare(fed, by_pitch, &keys, &pitches, present);
        }
    }
}

fn palette(notes: &[f64], detunings: &[f64]) -> Vec<f64> {
    notes.iter().flat_map(|n| detunings.iter().map(move |d| n * d)).collect()
}

/// What SPEC 2.2 answers to lists with a fault: 12; then line by line 4, 3, 5.
pub fn judge_notes(keys: &[u8], notes: &[i32], detunings: &[f64]) -> Option<u8> {
    if keys.len() != notes.len() || keys.len() != detunings.len() {
        return Some(12);
    }
    (0..keys.len()).find_map(|i| {
        if !(-300..=500).contains(&notes[i]) {
            Some(4)
        } else if !(0.5..=2.0).contains(&detunings[i]) {
            Some(3)
        } else if keys[..i].contains(&keys[i]) {
            Some(5)
        } else {
            None
        }
    })
}

/// The same where pitches are given: 12; then line by line 1, 5.
pub fn judge_pitches(keys: &[u8], pitches: &[f64]) -> Option<u8> {
    if keys.len() != pitches.len() {
        return Some(12);
    }
    (0..keys.len()).find_map(|i| {
        if !((-20f64).exp2()..=40f64.exp2()).contains(&pitches[i]) {
            Some(1)
        } else if keys[..i].contains(&keys[i]) {
            Some(5)
        } else {
            None
        }
    })
}

fn damaged(row: &mut Row, chance: &mut Chance) {
    let bad_pitches = [0.0, -440.0, f64::NAN, f64::INFINITY, step((-20f64).exp2(), -1), step(40f64.exp2(), 1)];
    let bad_detunings = [0.0, f64::NAN, step(0.5, -1), step(2.0, 1), f64::INFINITY, -1.0];
    let bad_notes = [-301, 501, i32::MIN, i32::MAX];
    for turn in 0..6000 {
        let n = chance.pick(&[0, 1, 2, 3, 12, 255, 256, 257, 300]);
        let mut keys: Vec<u8> = chance.keys();
        keys.extend(0..=99);
        keys.truncate(n);
        let mut notes: Vec<i32> = (0..n).map(|_| chance.below(801) as i32 - 300).collect();
        let mut detunings: Vec<f64> = (0..n).map(|_| (-1.0 + 2.0 * chance.unit()).exp2()).collect();
        let mut pitches: Vec<f64> = (0..n).map(|_| chance.any_pitch()).collect();
        for _ in 0..chance.below(3) {
            if n > 0 {
                let line = chance.below(n);
                match chance.below(5) {
                    0 => notes[line] = chance.pick(&bad_notes),
                    1 => detunings[line] = chance.pick(&bad_detunings),
                    2 => keys[line] = keys[chance.below(n)],
                    3 => pitches[line] = chance.pick(&bad_pitches),
                    _ => {
                        notes[line] = chance.pick(&bad_notes);
                        detunings[line] = chance.pick(&bad_detunings);
                    }
                }
            }
        }
        match chance.below(12) {
            0 => notes.push(1),
            1 => detunings.push(1.0),
            2 => pitches.push(1.0),
            3 => keys.push(1),
            _ => {}
        }
        let group = (turn % 3) as u8;
        for by_pitch in [false, true] {
            let mut at = [99; 256];
            let mut sounds = [9999; 256];
            let (answer, judged) = if by_pitch {
                (ours::plan_of_pitches(&[0, 1, 2], group, &keys, &pitches, &ALL, &mut at, &mut sounds), judge_pitches(&keys, &pitches))
            } else {
                (ours::plan(&[0, 1, 2], group, &keys, &notes, &detunings, &ALL, &mut at, &mut sounds), judge_notes(&keys, &notes, &detunings))
            };
            row.cases += 1;
            let right = match judged {
                Some(number) => answer == Tuning::Refused(number) && at == [99; 256] && sounds == [9999; 256],
                None => {
                    let planned = if by_pitch { plan_of_pitches(group, &keys, &pitches) } else { rule::plan(group, &keys, &notes, &detunings) };
                    is_plan(answer_of(&planned, 3), &planned.places, answer, &at, &sounds)
                }
            };
            if !right {
                row.differs(Kind::Unexpected, n, || format!("{keys:?}, {notes:?}, {detunings:?}, {pitches:?}: {answer:?}, not {judged:?}"));
            } else if let Some(number) = judged {
                row.differs(Kind::Refusal, n, || format!("{n} lines: refusal {number}"));
            }
        }
    }
}

/// Detunings of the whole of 0.5 to 2, which no pitch has, against the walk of SPEC 6.3.
fn walked(row: &mut Row, chance: &mut Chance) {
    for turn in 0..6000 {
        let n = chance.pick(&[1, 2, 3, 5, 16, 17, 40, 256]);
        let keys: Vec<u8> = chance.keys().into_iter().take(n).collect();
        let span = chance.pick(&[1, 3, 12, 801]);
        let notes: Vec<i32> = (0..n).map(|_| chance.below(span) as i32 - 300).collect();
        let some: Vec<f64> = (0..1 + chance.below(6)).map(|_| (-1.0 + 2.0 * chance.unit()).exp2()).collect();
        let detunings: Vec<f64> = (0..n)
            .map(|_| {
                let base = chance.pick(&some);
                let near = chance.pick(&[1.0, 1.0000005, 1.000001, 1.0000015, 0.999999]);
                step(base * near, chance.below(5) as i64 - 2).clamp(0.5, 2.0)
            })
            .collect();
        let group = (turn % 3) as u8;
        let list: Vec<u8> = (0..16).collect();
        let mut at = [99; 256];
        let mut sounds = [9999; 256];
        let answer = ours::plan(&list, group, &keys, &notes, &detunings, &ALL, &mut at, &mut sounds);
        let planned = rule::plan(group, &keys, &notes, &detunings);
        row.cases += 1;
        if !is_plan(answer_of(&planned, 16), &planned.places, answer, &at, &sounds) {
            row.differs(Kind::Unexpected, n, || format!("{keys:?}, {notes:?}, {detunings:?}: {answer:?}, not {}", planned.count));
        }
    }
}

pub fn run(chance: &mut Chance, rows: &mut Vec<Row>) {
    let mut fed = Row::new("plans, fed the Rust's notes: all short lists");
    let mut by_pitch = Row::new("plans of pitches: all short lists");
    let close = [1.0, 1.0000005, 1.000001, 1.0000015, 1.000002];
    for (length, palette) in [
        (0, vec![440.0]),
        (1, palette(&[440.0, 880.0, 493.8833012561241], &close)),
        (2, palette(&[440.0, 880.0, 493.8833012561241], &close)),
        (3, palette(&[440.0, 880.0, 493.8833012561241], &close)),
        (4, palette(&[440.0, 880.0], &close[..4])),
        (5, palette(&[440.0, 880.0], &close[..3])),
    ] {
        progress(&format!("plans: all lists of {length} lines"));
        exhaustive(&mut fed, &mut by_pitch, length, &palette);
    }
    rows.extend([fed, by_pitch]);

    let mut fed = Row::new("plans, fed the Rust's notes: joining limits");
    let mut by_pitch = Row::new("plans of pitches: joining limits");
    for turn in 0..3000 {
        if turn % 200 == 0 {
            progress(&format!("plans: joining limits, {turn} of 3000"));
        }
        let base = 440.0 * ((chance.below(60) as f64 - 30.0) / 12.0).exp2() * (1.0 + 0.02 * (chance.unit() - 0.5));
        let mut pitches = vec![base];
        for _ in 0..1 + chance.below(4) {
            let last = pitches[pitches.len() - 1];
            pitches.push(step(last * 1.000001, chance.below(9) as i64 - 4));
        }
        let keys: Vec<u8> = chance.keys().into_iter().take(pitches.len()).collect();
        compare(&mut fed, &mut by_pitch, &keys, &pitches, 16);
    }
    rows.extend([fed, by_pitch]);

    let mut fed = Row::new("plans, fed the Rust's notes: note boundaries");
    let mut by_pitch = Row::new("plans of pitches: note boundaries");
    progress("plans: note boundaries");
    for note in [-60, 0, 58, 69, 127] {
        let boundary = 440.0 * ((f64::from(note) - 69.0 + 0.5) / 12.0).exp2() * 1.000001;
        for k in -20..=20 {
            let hz = boundary * (1.0 + f64::from(k) * 1e-8);
            compare(&mut fed, &mut by_pitch, &[1], &[hz], 2);
            compare(&mut fed, &mut by_pitch, &[1, 2], &[hz, 440.0], 2);
        }
    }
    rows.extend([fed, by_pitch]);

    let mut fed = Row::new("plans, fed the Rust's notes: temperaments");
    let mut by_pitch = Row::new("plans of pitches: temperaments");
    for temperament in temperaments() {
        progress(&format!("plans: {}", temperament.name));
        for reference in REFERENCES {
            for n in [12, 61, 128, 256] {
                let keys: Vec<u8> = (0..=255).take(n).collect();
                let first = -(n as i32) / 2;
                let pitches: Vec<f64> = (0..keys.len() as i32).map(|i| temperament.pitch(reference, first + i)).collect();
                for present in [2, 16] {
                    compare(&mut fed, &mut by_pitch, &keys, &pitches, present);
                }
            }
        }
    }
    rows.extend([fed, by_pitch]);

    let mut fed = Row::new("plans, fed the Rust's notes: chance");
    let mut by_pitch = Row::new("plans of pitches: chance");
    for turn in 0..4000 {
        if turn % 100 == 0 {
            progress(&format!("plans: chance, {turn} of 4000"));
        }
        let n = chance.pick(&[0, 1, 2, 3, 4, 7, 12, 15, 16, 17, 31, 61, 128, 255, 256]);
        let keys: Vec<u8> = chance.keys().into_iter().take(n).collect();
        // Few different detunings, so that keys share channels.
        let shades: Vec<f64> = (0..1 + chance.below(20)).map(|_| ((chance.unit() - 0.5) / 12.0).exp2()).collect();
        let pitches: Vec<f64> = (0..n)
            .map(|_| {
                let note = chance.below(100) as f64 - 60.0;
                let shade = chance.pick(&shades) * (1.0 + 1e-6 * chance.below(4) as f64 * chance.unit());
                440.0 * (note / 12.0).exp2() * shade
            })
            .collect();
        compare(&mut fed, &mut by_pitch, &keys, &pitches, chance.pick(&[0, 1, 15, 16]));
    }
    rows.extend([fed, by_pitch]);

    progress("plans: detunings that no pitch has, and damaged lists");
    let mut row = Row::new("plans: detunings of 0.5 to 2, by SPEC's walk");
    walked(&mut row, chance);
    rows.push(row);
    let mut row = Row::new("plans: damaged lists, by SPEC's order");
    damaged(&mut row, chance);
    rows.push(row);
}
