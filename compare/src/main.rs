//! Runs the port and the Rust that it replaces on the same inputs, and says where they differ.
//!
//! `compare/run` builds and runs it.

mod bytes;
mod faults;
mod inputs;
mod lists;
mod nearest;
mod ours;
mod plan_tuners;
mod plans;
mod pool_tuners;
mod pools;
mod refused;
mod report;
mod rule;
mod speed;
mod steps;
mod tuners;

use inputs::Chance;
use report::Row;

fn compare(seed: u64) -> u64 {
    println!("seed {seed}");
    let mut chance = Chance(seed);
    let mut rows: Vec<Row> = Vec::new();
    nearest::run(&mut chance, &mut rows);
    steps::run(&mut chance, &mut rows);
    plans::run(&mut chance, &mut rows);
    pools::run(&mut chance, &mut rows);
    bytes::run(&mut chance, &mut rows);
    pool_tuners::run(&mut chance, &mut rows);
    plan_tuners::run(&mut chance, &mut rows);
    refused::run(&mut chance, &mut rows);
    faults::run(&mut rows);
    report::summary(&rows)
}

fn main() {
    let words: Vec<String> = std::env::args().skip(1).collect();
    let word = |i: usize| words.get(i).map(String::as_str);
    match word(0) {
        Some("all") => {
            let seed = word(1).and_then(|s| s.parse().ok()).unwrap_or(20261103);
            if compare(seed) > 0 {
                println!("compare: FAILED");
                std::process::exit(1);
            }
            println!("compare: ok");
        }
        // One run of each side, for a profiler: `compare once plan|pool|nearest port|rust`.
        Some("once") => speed::once(word(1).unwrap_or(""), word(2) == Some("port")),
        Some("lists") => lists::write(word(1).unwrap_or("crates/replay_rust").as_ref()),
        Some("speed") => speed::run(word(1).unwrap_or("target/speed").as_ref()),
        _ => {
            eprintln!("usage: compare all [SEED] | speed [FOLDER] | lists FOLDER | once plan|pool|nearest port|rust");
            std::process::exit(2);
        }
    }
}
