//! Counts of cases and of differences by kind, with the smallest input of each kind.

use std::collections::BTreeMap;
use std::io::Write;

/// The kinds of difference. Any that is not listed here is unexpected and fails the run.
#[derive(Clone, Copy, Debug, Eq, Ord, PartialEq, PartialOrd)]
pub enum Kind {
    NoteAtBoundary,
    OneStep,
    OneStepMore,
    BendClamp,
    JoinAtLimit,
    StopOrder,
    Refusal,
    Unexpected,
}

impl Kind {
    pub fn text(self) -> &'static str {
        match self {
            Kind::NoteAtBoundary => "the other note, within 2 millionths of a semitone of the boundary",
            Kind::OneStep => "one step less",
            Kind::OneStepMore => "one step more, by the last bits of the detuning",
            Kind::BendClamp => "8191 where the Rust clamps at 8192",
            Kind::JoinAtLimit => "detunings that differ in their last bits meet the joining limit",
            Kind::StopOrder => "the same releases by rising key, where the Rust's order is a HashMap's",
            Kind::Refusal => "refused, where the Rust answers or panics",
            Kind::Unexpected => "UNEXPECTED",
        }
    }
}

#[derive(Default)]
pub struct Row {
    pub name: String,
    pub cases: u64,
    /// The count of each kind, and the size and text of its smallest input.
    pub kinds: BTreeMap<Kind, (u64, usize, String)>,
    /// What was counted besides, such as how often a limit was met.
    pub met: BTreeMap<&'static str, u64>,
}

impl Row {
    pub fn new(name: &str) -> Row {
        Row { name: name.to_string(), ..Row::default() }
    }

    pub fn differs(&mut self, kind: Kind, size: usize, input: impl FnOnce() -> String) {
        let entry = self.kinds.entry(kind).or_insert((0, usize::MAX, String::new()));
        entry.0 += 1;
        if size < entry.1 {
            entry.1 = size;
            entry.2 = input();
        }
    }

    pub fn meets(&mut self, what: &'static str) {
        *self.met.entry(what).or_default() += 1;
    }

    pub fn unexpected(&self) -> u64 {
        self.kinds.get(&Kind::Unexpected).map_or(0, |k| k.0)
    }
}

pub fn progress(text: &str) {
    eprint!("\r{text:<90}");
    let _ = std::io::stderr().flush();
}

/// The summary; answers how many differences were not expected.
pub fn summary(rows: &[Row]) -> u64 {
    progress("");
    eprint!("\r");
    println!("{:<46} {:>12} {:>12}  differences", "compared", "cases", "equal");
    for row in rows {
        let different: u64 = row.kinds.values().map(|k| k.0).sum();
        println!("{:<46} {:>12} {:>12}", row.name, row.cases, row.cases - different.min(row.cases));
        for (kind, (count, _, input)) in &row.kinds {
            println!("{:<46} {:>12} {:>12}  {count} {}", "", "", "", kind.text());
            println!("{:<46} {:>12} {:>12}    smallest: {input}", "", "", "");
        }
        for (what, count) in &row.met {
            println!("{:<46} {:>12} {:>12}  ({count} {what})", "", "", "");
        }
    }
    let total: u64 = rows.iter().map(|r| r.cases).sum();
    let unexpected: u64 = rows.iter().map(Row::unexpected).sum();
    println!("{:<46} {:>12}   {} unexpected", "all", total, unexpected);
    unexpected
}
