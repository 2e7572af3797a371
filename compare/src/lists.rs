//! A sample of questions, as a list that a program of the repository replays with no Rust at hand: its standard input, and what it must write.
//!
//! The head of crates/replay_rust/src/main.rt has the grammar. Every question drawn is stored, and the port is never asked. The answer that is stored is that
//! of the rules of docs/SPEC.md, by `rule`. Where the Rust's is another, the line has it behind `#`, with the reason that lets the two differ; a difference
//! without such a reason ends the making of the list. Pitches are whole millihertz, of at most 32 bits, and detunings whole millionths.

use std::collections::BTreeMap;
use std::fmt::Write as _;
use std::path::Path;

use tune::pitch::Pitch;
use tune::tuner::AccessKeyResult;
use tune::tuner::AotTuningModel;
use tune::tuner::JitTuningModel;
use tune::tuner::RegisterKeyResult;

use crate::inputs::Chance;
use crate::inputs::REFERENCES;
use crate::inputs::temperaments;
use crate::nearest;
use crate::ours;
use crate::ours::Event;
use crate::plan_tuners;
use crate::plans;
use crate::plans::GROUPS;
use crate::pool_tuners;
use crate::pools;
use crate::report::Kind;
use crate::rule;
use crate::steps;
use crate::tuners::Answer;

/// What a reader of the list has to know.
const LEGEND: &str = "\
# What the tuning engine is asked, a line for each question, key or event. In the file stdout the answer stands behind a colon.
# The Rust crate tune answers the same, except where # stands behind the answer: there is the Rust's, and why the two differ.
# A plan gives each key a channel and a note before anything is played; a pool gives a key its channel when it is pressed. A tuner sends the MIDI
# messages of a plan or a pool: a plan tuner those of the tuning, and then a press of each key. A blank line ends each of them.
# Keys and channels are numbered from 0, notes as in MIDI: 69 is the A of 440 Hz, which is 440000 mHz. A detuning is a pitch over that of its note;
# its fine value is 0 to 16383, with 8192 for none, its bend -8192 to 8191. Bytes are in hexadecimal. R1 is refusal 1 of README.md's table.
";

/// A line of the list: what it asks, what the rules and the Rust answer, and why the two may differ. The heading of a pool has no answer.
struct Line {
    asked: String,
    rule: String,
    rust: String,
    reasons: Vec<Kind>,
}

impl Line {
    fn new(asked: String, rule: String, rust: String, reason: Option<Kind>) -> Line {
        Line { asked, rule, rust, reasons: reason.into_iter().collect() }
    }

    fn heading(asked: String) -> Line {
        Line::new(asked, String::new(), String::new(), None)
    }
}

#[derive(Default)]
struct List {
    lines: usize,
    inputs: String,
    answers: String,
    /// In how many lines the two differ, by their reasons.
    differ: BTreeMap<Kind, usize>,
}

impl List {
    fn push_legend(&mut self) {
        for text in [&mut self.inputs, &mut self.answers] {
            text.push_str(LEGEND);
            text.push('\n');
        }
    }

    /// The lines of a question, or of several that have one line each, and a blank one.
    fn push(&mut self, lines: Vec<Line>) {
        for line in lines {
            self.push_line(line);
        }
        self.inputs.push('\n');
        self.answers.push('\n');
    }

    fn push_line(&mut self, line: Line) {
        let Line { asked, rule, rust, reasons } = line;
        self.lines += 1;
        let mut remark = String::new();
        if rule != rust {
            assert!(!reasons.is_empty() && !reasons.contains(&Kind::Unexpected), "{asked}: {rule} and the Rust's {rust} differ without a reason");
            let texts: Vec<&str> = reasons.iter().map(|kind| kind.text()).collect();
            remark = format!(" # the Rust: {rust} ({})", texts.join("; "));
            for kind in reasons {
                *self.differ.entry(kind).or_default() += 1;
            }
        }
        let answer = if rule.is_empty() { String::new() } else { format!(": {rule}") };
        let _ = writeln!(self.inputs, "{asked}{remark}");
        let _ = writeln!(self.answers, "{asked}{answer}{remark}");
    }
}

/// A pitch in whole millihertz, and its Hz.
type Millihertz = (u64, f64);

fn millihertz(hz: f64) -> Millihertz {
    let whole = (hz * 1000.0).round() as u64;
    (whole, whole as f64 / 1000.0)
}

/// A pitch that keyboards have.
fn pitch(chance: &mut Chance) -> Millihertz {
    millihertz(chance.pitch())
}

/// A pitch beside the Rust's boundary above some note from 115 to so much. Farther down the boundaries fall between whole millihertz.
fn beside(chance: &mut Chance, notes: usize) -> Millihertz {
    let note = 115 + chance.below(notes) as i32;
    let boundary = 440.0 * ((f64::from(note) - 69.0 + 0.5) / 12.0).exp2() * 1.000001;
    millihertz(boundary * (1.0 + 2.4e-7 * (chance.unit() - 0.5)))
}

/// The first pitch drawn that is wanted.
fn wanted(chance: &mut Chance, draw: impl Fn(&mut Chance) -> Millihertz, is_wanted: impl Fn(f64) -> bool) -> Millihertz {
    loop {
        let drawn = draw(chance);
        if is_wanted(drawn.1) {
            return drawn;
        }
    }
}

/// Whether the nearest note is the same, and the value that its detuning is sent with is not.
fn step_differs(bends: bool, hz: f64) -> bool {
    let ((note, detuning), (rust_note, rust_detuning)) = (rule::nearest(hz), nearest::found(hz));
    let value = if bends { rule::bend(detuning) } else { rule::fine(detuning) };
    let rust_value = if bends { steps::bend(rust_detuning) } else { steps::fine(rust_detuning) };
    note == rust_note && value != rust_value
}

const TUNING_KINDS: [&str; 2] = ["FineTuning", "Bend"];

fn place(channel: usize, note: i32) -> String {
    format!("channel {channel}, note {note}")
}

fn accessed(result: AccessKeyResult) -> String {
    match result {
        AccessKeyResult::Found { channel, found_note } => place(channel, found_note.midi_number()),
        AccessKeyResult::NotFound => "not found".to_string(),
    }
}

fn pressed(result: RegisterKeyResult) -> String {
    match result {
        RegisterKeyResult::Accepted { channel, stopped_note, started_note, .. } => {
            let stopped = stopped_note.map_or(String::new(), |note| format!(", stopped note {}", note.midi_number()));
            place(channel, started_note.midi_number()) + &stopped
        }
        RegisterKeyResult::Rejected => "rejected".to_string(),
    }
}

/// What a plan comes to that needs so many channels.
fn planned(is_tuned: bool, channels: usize) -> String {
    if is_tuned { format!("tuned, channels used {channels}") } else { format!("untuned, channels needed {channels}") }
}

/// A key of a plan and its pitch.
fn key((key, (whole, _)): (u8, Millihertz)) -> String {
    format!("  key {key} at {whole} mHz")
}

/// The bytes of a call, or words for none.
fn bytes(answer: &Answer) -> String {
    match answer.kind {
        ours::NOTHING => "rejected".to_string(),
        _ if answer.bytes.is_empty() => "no bytes".to_string(),
        _ => answer.bytes.iter().map(|b| format!("{b:02X}")).collect::<Vec<_>>().join(" "),
    }
}

fn note((whole, hz): Millihertz) -> Line {
    let asked = format!("nearest {whole} mHz");
    let rust = format!("note {}", nearest::found(hz).0);
    if whole == 0 {
        return Line::new(asked, "R1".to_string(), rust, Some(Kind::Refusal));
    }
    Line::new(asked, format!("note {}", rule::nearest(hz).0), rust, nearest::excused(hz).then_some(Kind::NoteAtBoundary))
}

fn detuning(millionths: u64) -> f64 {
    millionths as f64 / 1_000_000.0
}

/// Whether the fine value of a detuning differs.
fn value_differs(millionths: u64) -> bool {
    rule::fine(detuning(millionths)) != steps::fine(detuning(millionths))
}

fn values(millionths: u64) -> Line {
    let asked = format!("values of {millionths} millionths");
    let detuning = detuning(millionths);
    let (fine, bend) = (steps::fine(detuning), steps::bend(detuning));
    let rust = format!("fine {fine}, bend {bend}");
    if millionths == 0 {
        return Line::new(asked, "fine R2, bend R2".to_string(), rust, Some(Kind::Refusal));
    }
    let mut reasons = Vec::new();
    for (is_bend, rule, rust) in [(false, rule::fine(detuning), fine), (true, rule::bend(detuning), bend)] {
        if rule != rust {
            reasons.push(steps::excused(is_bend, detuning, rule, rust).unwrap_or(Kind::Unexpected));
        }
    }
    reasons.dedup();
    Line { asked, rule: format!("fine {}, bend {}", rule::fine(detuning), rule::bend(detuning)), rust, reasons }
}

/// A plan of these pitches with this kind of group: the count of channels, and each key's channel and note.
fn plan(group: usize, present: usize, lines: &[(u8, Millihertz)]) -> Vec<Line> {
    let (number, group_by, _) = GROUPS[group];
    let keys: Vec<u8> = lines.iter().map(|line| line.0).collect();
    let pitches: Vec<f64> = lines.iter().map(|line| line.1.1).collect();
    let reason = plans::excused(number, &pitches);
    let rule = plans::plan_of_pitches(number, &keys, &pitches);
    let (model, detunings) = AotTuningModel::apply_tuning(group_by, &plans::mapping(&keys, &pitches), keys.iter().copied());
    let count = |n: usize| planned(n <= present, n);
    let found = |n: usize, found: Option<(usize, i32)>| match found {
        Some((channel, note)) if n <= present => place(channel, note),
        _ => "not found".to_string(),
    };
    let heading = format!("plan by {group_by:?}, channels {present}");
    let mut asked = vec![Line::new(heading, count(rule.count), count(detunings.len()), reason)];
    for &line in lines {
        let rust = model.get_channel_and_note_for_key(line.0).map(|(channel, note)| (channel, note.midi_number()));
        asked.push(Line::new(key(line), found(rule.count, rule.places[usize::from(line.0)]), found(detunings.len(), rust), reason));
    }
    asked
}

/// Two pools of the Rust, one told the rules' notes.
fn pool(chance: &mut Chance, letters: bool, mode: u8, channels: usize) -> Vec<Line> {
    let opened = || JitTuningModel::new(channels, pools::rust_group(letters), pools::rust_mode(mode));
    let (mut rule, mut rust) = (opened(), opened());
    let heading = format!("pool by {:?}, mode {:?}, channels {channels}", pools::rust_group(letters), pools::rust_mode(mode));
    let mut lines = vec![Line::heading(heading)];
    let mut reason = None;
    for _ in 0..50 {
        let key = chance.below(channels * 2 + 3) as u8;
        let held = [&rule, &rust].iter().any(|model| matches!(model.access_key(key), AccessKeyResult::Found { .. }));
        let (event, answers) = match chance.below(5) {
            0..=2 if !held => {
                let (whole, hz) = if chance.below(8) == 0 { beside(chance, 110) } else { pitch(chance) };
                if nearest::excused(hz) {
                    reason = Some(Kind::NoteAtBoundary);
                }
                let told = Pitch::from_hz(rule::note_pitch(rule::nearest(hz).0));
                let answers = (pressed(rule.register_key(key, told)), pressed(rust.register_key(key, Pitch::from_hz(hz))));
                (format!("press key {key} at {whole} mHz"), answers)
            }
            0 | 1 | 3 => (format!("release key {key}"), (accessed(rule.deregister_key(key)), accessed(rust.deregister_key(key)))),
            _ => (format!("lookup key {key}"), (accessed(rule.access_key(key)), accessed(rust.access_key(key)))),
        };
        lines.push(Line::new(format!("  {event}"), answers.0, answers.1, reason));
    }
    lines
}

fn pool_tuner(chance: &mut Chance, bends: bool, mode: u8, channels: u8) -> Vec<Line> {
    let mut sequence = pool_tuners::Sequence::new(&(0..channels).collect::<Vec<u8>>(), bends, mode);
    let mut asked = Vec::new();
    for _ in 0..30 {
        let key = chance.below(usize::from(channels) * 2 + 2) as u8;
        let value = chance.below(128) as u8;
        let (whole, hz) = match chance.below(16) {
            0 | 1 => wanted(chance, pitch, |hz| step_differs(bends, hz)),
            2 => wanted(chance, |chance| beside(chance, 12), nearest::excused),
            _ => pitch(chance),
        };
        let (text, event) = match chance.below(12) {
            0..=5 if !sequence.held().contains(&key) => (format!("press key {key} at {whole} mHz, velocity {value}"), Event::Press(key, hz, value)),
            0..=7 => (format!("release key {key}, velocity {value}"), Event::Release(key, value)),
            8 | 9 => (format!("repitch key {key} at {whole} mHz"), Event::Repitch(key, hz)),
            10 => (format!("pressure key {key}, value {value}"), Event::Pressure(key, value)),
            _ => ("stop".to_string(), Event::Stop),
        };
        sequence.call(event);
        asked.push(format!("  {text}"));
    }
    let heading = format!("pool tuner by {}, mode {:?}, channels {channels}", TUNING_KINDS[usize::from(bends)], pools::rust_mode(mode));
    let mut lines = vec![Line::heading(heading)];
    for (asked, call) in asked.into_iter().zip(sequence.calls()) {
        lines.push(Line::new(asked, bytes(&call.rule), bytes(&call.rust), call.difference()));
    }
    lines
}

/// A tuning, and a press of each of its keys.
fn plan_tuner(bends: bool, channels: u8, keys: &[(u8, Millihertz)]) -> Vec<Line> {
    const VELOCITY: u8 = 64;
    let by_pitches = keys.iter().map(|&(key, (_, hz))| (key, hz)).collect();
    let mut sequence = plan_tuners::Sequence::new(&(0..channels).collect::<Vec<u8>>(), bends, by_pitches, plan_tuners::Lines::new());
    sequence.call(Event::TuneByPitches);
    for key in keys {
        sequence.call(Event::Press(key.0, 0.0, VELOCITY));
    }
    let tuned = |answer: &Answer| match answer.kind {
        ours::NOTHING => planned(false, answer.channels.into()),
        _ => format!("{}: {}", planned(true, answer.channels.into()), bytes(answer)),
    };
    let calls = sequence.calls();
    let (tuning, presses) = calls.split_first().unwrap();
    let heading = format!("plan tuner by {}, channels {channels}", TUNING_KINDS[usize::from(bends)]);
    let mut lines = vec![Line::new(heading, tuned(&tuning.rule), tuned(&tuning.rust), tuning.difference())];
    for (&pressed, call) in keys.iter().zip(presses) {
        let asked = format!("{}, velocity {VELOCITY}", key(pressed));
        lines.push(Line::new(asked, bytes(&call.rule), bytes(&call.rust), call.difference()));
    }
    lines
}

/// Two keys whose pitches' quotient is 1.000001 but for the last bits, and a third; such that they join on both sides or on neither, or on one alone.
fn at_limit(chance: &mut Chance, differ: bool) -> Vec<(u8, Millihertz)> {
    loop {
        let thousands = 1 + chance.below(20) as u64;
        let [low, high] = [1_000_000, 1_000_001].map(|part| (thousands * part, (thousands * part) as f64 / 1000.0));
        let join = |detuning: fn(f64) -> (i32, f64)| detuning(high.1).1 / detuning(low.1).1 < 1.000001;
        if differ == (join(rule::nearest) != join(nearest::found)) {
            return vec![(1, low), (2, high), (3, pitch(chance))];
        }
    }
}

fn notes(chance: &mut Chance) -> Vec<Line> {
    let mut lines = vec![note((0, 0.0))];
    for _ in 0..350 {
        let any = (32.0 * chance.unit()).exp2().floor() as u64;
        let drawn = if chance.below(2) == 0 { pitch(chance) } else { (any, any as f64 / 1000.0) };
        lines.push(note(drawn));
    }
    for turn in 0..50 {
        lines.push(note(wanted(chance, |chance| beside(chance, 110), |hz| turn % 2 == 0 || nearest::excused(hz))));
    }
    lines
}

fn all_values(chance: &mut Chance) -> Vec<Line> {
    let mut lines = vec![values(0)];
    for turn in 0..400 {
        let (from, count) = match turn % 8 {
            0 => (500_000, 1_000_000),
            1..=5 => (870_000, 260_000),
            _ => (990_000, 20_000),
        };
        let mut draw = || from + chance.below(count) as u64;
        let mut millionths = draw();
        while turn % 16 == 1 && !value_differs(millionths) {
            millionths = draw();
        }
        lines.push(values(millionths));
    }
    lines
}

pub fn write(folder: &Path) {
    let mut chance = Chance(20261103);
    let mut list = List::default();
    list.push_legend();
    list.push(notes(&mut chance));
    list.push(all_values(&mut chance));
    for temperament in temperaments().iter().step_by(4) {
        for group in 0..3 {
            let reference = chance.pick(&REFERENCES);
            let n = chance.pick(&[5, 12, 25]);
            let present = chance.pick(&[1, 4, 16]);
            let order = chance.keys();
            let lines: Vec<_> = (0..n).map(|i| (order[i as usize], millihertz(temperament.pitch(reference, i - n / 2)))).collect();
            list.push(plan(group, present, &lines));
        }
    }
    for turn in 0..12 {
        let lines = at_limit(&mut chance, turn % 2 == 0);
        list.push(plan(turn % 3, 4, &lines));
        let lines: Vec<_> = (0..3).map(|key| (key, beside(&mut chance, 110))).collect();
        list.push(plan(turn % 3, 4, &lines));
    }
    for letters in [false, true] {
        for mode in 0..3 {
            for channels in [0, 1, 2, 5, 16] {
                list.push(pool(&mut chance, letters, mode, channels));
            }
        }
    }
    for bends in [false, true] {
        for mode in 0..3 {
            for channels in [0, 2, 16] {
                list.push(pool_tuner(&mut chance, bends, mode, channels));
            }
        }
        for temperament in temperaments().iter().step_by(8) {
            let reference = chance.pick(&REFERENCES);
            let present = chance.pick(&[1, 4, 16]);
            let order = chance.keys();
            let lines: Vec<_> = (0..12).map(|i| (order[i as usize], millihertz(temperament.pitch(reference, i - 6)))).collect();
            list.push(plan_tuner(bends, present, &lines));
        }
        for turn in 0..4 {
            let lines = at_limit(&mut chance, turn % 2 == 0);
            list.push(plan_tuner(bends, 4, &lines));
            let differing = wanted(&mut chance, pitch, |hz| step_differs(bends, hz));
            let keys = [(1, differing), (2, pitch(&mut chance)), (3, beside(&mut chance, 12))];
            list.push(plan_tuner(bends, 4, &keys));
        }
    }
    std::fs::write(folder.join("stdin"), &list.inputs).unwrap();
    std::fs::write(folder.join("stdout"), &list.answers).unwrap();
    println!("{} lines stored, {} bytes; in these the rules and the Rust differ:", list.lines, list.inputs.len());
    for (kind, count) in list.differ {
        println!("{count:>4} {}", kind.text());
    }
}
