//! Speed of the port and of the Rust, on the same inputs and from the same program.
//!
//! Every figure is the median of many repeats, in turn one of the port and one of the Rust, so that what else the machine does falls on both. Its
//! spread is half the distance between the first and the third quarter, in percent of the median.

use std::fmt::Write as _;
use std::hint::black_box;
use std::path::Path;
use std::time::Instant;

use tune::mts;
use tune::pitch::Pitch;
use tune::pitch::Ratio;
use tune::tuner::AotTuningModel;
use tune::tuner::JitTuner;
use tune::tuner::JitTuningModel;

use crate::bytes::sender;
use crate::inputs::Chance;
use crate::inputs::temperaments;
use crate::nearest;
use crate::ours;
use crate::ours::Event;
use crate::ours::Events;
use crate::ours::Plan;
use crate::ours::Pool;
use crate::ours::Tuning;
use crate::plans;
use crate::plans::GROUPS;
use crate::pools;
use crate::report::progress;

const REPEATS: usize = 101;

#[derive(Clone, Copy)]
pub struct Figure {
    /// Nanoseconds for one.
    median: f64,
    /// Percent.
    spread: f64,
}

impl Figure {
    fn of(mut times: Vec<f64>, each: usize) -> Figure {
        times.sort_by(f64::total_cmp);
        let at = |part: f64| times[((times.len() - 1) as f64 * part) as usize];
        Figure { median: at(0.5) / each as f64, spread: 50.0 * (at(0.75) - at(0.25)) / at(0.5) }
    }

    fn text(self) -> String {
        if self.median < 10_000.0 {
            format!("{:.1} ns ±{:.0}%", self.median, self.spread)
        } else {
            format!("{:.1} µs ±{:.0}%", self.median / 1000.0, self.spread)
        }
    }
}

/// Nanoseconds for one of `each` that a run does, of the port's run and of the Rust's.
fn measure(each: usize, mut port: impl FnMut(), mut rust: impl FnMut()) -> (Figure, Figure) {
    // Runs of at least 200 microseconds.
    let start = Instant::now();
    port();
    rust();
    let loops = (400_000 / start.elapsed().as_nanos().max(1) as usize).clamp(1, 10_000);
    let mut times = (Vec::new(), Vec::new());
    for _ in 0..REPEATS {
        let start = Instant::now();
        for _ in 0..loops {
            port();
        }
        times.0.push(start.elapsed().as_nanos() as f64);
        let start = Instant::now();
        for _ in 0..loops {
            rust();
        }
        times.1.push(start.elapsed().as_nanos() as f64);
    }
    (Figure::of(times.0, each * loops), Figure::of(times.1, each * loops))
}

struct Table {
    text: String,
    slower: Vec<String>,
}

impl Table {
    fn line(&mut self, name: &str, (port, rust): (Figure, Figure)) {
        let times = rust.median / port.median;
        let _ = writeln!(self.text, "| {name} | {} | {} | {times:.2} |", port.text(), rust.text());
        if times < 1.0 {
            self.slower.push(name.to_string());
        }
    }
}

pub fn keys_and_pitches(n: usize, steps: usize) -> (Vec<u8>, Vec<f64>) {
    let temperament = &temperaments()[steps - 5];
    let keys: Vec<u8> = (0..=255).take(n).collect();
    let pitches = (0..n as i32).map(|i| temperament.pitch(440.0, i - n as i32 / 2)).collect();
    (keys, pitches)
}

/// A plan of pitches, with every key of the list looked up, on sixteen channels.
fn plan(keys: &[u8], pitches: &[f64], group: usize) -> (Figure, Figure) {
    let (number, group_by, _) = GROUPS[group];
    let list: Vec<u8> = (0..16).collect();
    let mapping = plans::mapping(keys, pitches);
    let mut model = Plan::of(|_| 0);
    measure(
        1,
        || {
            model.open_model(&list, number);
            black_box(model.set_tuning_of_pitches(black_box(keys), black_box(pitches)));
            for &key in keys {
                black_box(model.lookup(key));
            }
        },
        || {
            let (model, detunings) = AotTuningModel::apply_tuning(group_by, black_box(&mapping), keys.iter().copied());
            for &key in keys {
                black_box(model.get_channel_and_note_for_key(key));
            }
            black_box(detunings);
        },
    )
}

/// How many channels a plan of pitches needs, in words.
fn needs(keys: &[u8], pitches: &[f64], group: usize) -> String {
    let list: Vec<u8> = (0..16).collect();
    match ours::plan_of_pitches(&list, GROUPS[group].0, keys, pitches, &[], &mut [], &mut []) {
        Tuning::Tuned(count) => format!("{count} channels"),
        Tuning::Untuned(count) => format!("{count} channels, so untuned"),
        Tuning::Refused(number) => format!("refused {number}"),
    }
}

/// So many keys held, then a release of the oldest and a press of another, again and again.
fn presses(channels: usize, count: usize, chance: &mut Chance) -> Events {
    let mut events = Events::default();
    for i in 0..count {
        if i >= channels {
            events.push(ours::RELEASE, ((i - channels) % 256) as u8, 0.0);
        }
        events.push(ours::PRESS, (i % 256) as u8, chance.pitch());
    }
    events
}

/// The events on a pool model of the port.
fn play_port(events: &Events, block: &mut Pool, list: &[u8], letters: bool, mode: u8) {
    block.open_model(list, letters, mode, 0);
    for i in 0..events.kinds.len() {
        if events.kinds[i] == ours::PRESS {
            black_box(block.register_key(events.keys[i], events.pitches[i]));
        } else {
            black_box(block.deregister_key(events.keys[i]));
        }
    }
}

/// The same on one of the Rust.
fn play_rust(events: &Events, channels: usize, letters: bool, mode: u8) {
    let mut model = JitTuningModel::new(channels, pools::rust_group(letters), pools::rust_mode(mode));
    for i in 0..events.kinds.len() {
        if events.kinds[i] == ours::PRESS {
            black_box(model.register_key(events.keys[i], Pitch::from_hz(events.pitches[i])));
        } else {
            black_box(model.deregister_key(events.keys[i]));
        }
    }
}

fn pool(channels: usize, letters: bool, mode: u8, chance: &mut Chance) -> (Figure, Figure) {
    let list: Vec<u8> = (0..channels as u8).collect();
    let events = presses(channels, 2000, chance);
    let mut block = Pool::of(|_| 0);
    measure(events.kinds.len(), || play_port(&events, &mut block, &list, letters, mode), || play_rust(&events, channels, letters, mode))
}

/// The same on pool tuners that tune by bends, with the bytes of every event.
fn tuner(channels: usize, chance: &mut Chance) -> (Figure, Figure) {
    let list: Vec<u8> = (0..channels as u8).collect();
    let events = presses(channels, 2000, chance);
    let n = events.kinds.len();
    let calls: Vec<Event> = (0..n)
        .map(|i| match events.kinds[i] {
            ours::PRESS => Event::Press(events.keys[i], events.pitches[i], 64),
            _ => Event::Release(events.keys[i], 64),
        })
        .collect();
    let mut block = Pool::of(|_| 0);
    let mut out = [0; 64];
    measure(
        n,
        || {
            block.open(&list, true, 1, 0);
            for &call in &calls {
                black_box(block.play(call, &mut out));
            }
        },
        || {
            let (sender, written) = sender(true, &list);
            let mut tuner = JitTuner::start(sender, pools::rust_mode(1));
            for &call in &calls {
                match call {
                    Event::Press(key, hz, velocity) => tuner.note_on(key, Pitch::from_hz(hz), velocity),
                    Event::Release(key, velocity) => tuner.note_off(key, velocity),
                    _ => {}
                }
                written.borrow_mut().clear();
            }
        },
    )
}

/// A plot of two lines over the number of keys.
fn plot(title: &str, sizes: &[usize], lines: &[(&str, &str, Vec<f64>)]) -> String {
    let top = lines.iter().flat_map(|l| l.2.iter().copied()).fold(1.0, f64::max);
    let x = |n: usize| 60.0 + 500.0 * n as f64 / 256.0;
    let y = |v: f64| 280.0 - 240.0 * v / top;
    let mut svg = String::from("<svg xmlns=\"http://www.w3.org/2000/svg\" width=\"640\" height=\"330\" font-family=\"sans-serif\" font-size=\"12\">\n<rect width=\"640\" height=\"330\" fill=\"white\"/>\n");
    let _ = writeln!(svg, "<text x=\"60\" y=\"22\" font-size=\"14\">{title}</text>");
    for i in 0..=4 {
        let v = top * f64::from(i) / 4.0;
        let _ = writeln!(svg, "<line x1=\"60\" x2=\"560\" y1=\"{0:.1}\" y2=\"{0:.1}\" stroke=\"#ddd\"/><text x=\"54\" y=\"{1:.1}\" text-anchor=\"end\">{2:.0} µs</text>", y(v), y(v) + 4.0, v / 1000.0);
    }
    for &n in sizes {
        let _ = writeln!(svg, "<text x=\"{:.1}\" y=\"298\" text-anchor=\"middle\">{n}</text>", x(n));
    }
    let _ = writeln!(svg, "<text x=\"310\" y=\"318\" text-anchor=\"middle\">keys</text>");
    for (name, colour, values) in lines {
        let points: Vec<String> = sizes.iter().zip(values).map(|(&n, &v)| format!("{:.1},{:.1}", x(n), y(v))).collect();
        let _ = writeln!(svg, "<polyline points=\"{}\" fill=\"none\" stroke=\"{colour}\" stroke-width=\"2\"/>", points.join(" "));
        let last = values[values.len() - 1];
        let _ = writeln!(svg, "<text x=\"566\" y=\"{:.1}\" fill=\"{colour}\">{name}</text>", y(last) + 4.0);
    }
    svg + "</svg>\n"
}

/// One side alone, a thousand times, for a profiler.
pub fn once(what: &str, port: bool) {
    let mut chance = Chance(20261103);
    let (keys, pitches) = keys_and_pitches(256, 31);
    let list: Vec<u8> = (0..16).collect();
    let mapping = plans::mapping(&keys, &pitches);
    let events = presses(16, 1000, &mut chance);
    let mut model = Plan::of(|_| 0);
    let mut block = Pool::of(|_| 0);
    match (what, port) {
        ("plan", true) => (0..1000).for_each(|_| {
            model.open_model(&list, 0);
            black_box(model.set_tuning_of_pitches(&keys, &pitches));
        }),
        ("plan", false) => (0..1000).for_each(|_| {
            black_box(AotTuningModel::apply_tuning(GROUPS[0].1, &mapping, keys.iter().copied()));
        }),
        ("nearest", true) => (0..1000).for_each(|_| {
            for &hz in black_box(&pitches) {
                black_box(ours::nearest_note(hz));
            }
        }),
        ("nearest", false) => (0..1000).for_each(|_| {
            for &hz in black_box(&pitches) {
                black_box(nearest::found(hz));
            }
        }),
        ("pool", true) => (0..100).for_each(|_| play_port(&events, &mut block, &list, false, 1)),
        _ => (0..100).for_each(|_| play_rust(&events, 16, false, 1)),
    }
}

pub fn run(folder: &Path) {
    let mut chance = Chance(20261103);
    let mut table = Table { text: String::from("| what | port | Rust | the Rust's time over the port's |\n|---|---|---|---|\n"), slower: Vec::new() };

    progress("speed: nearest notes and values");
    let pitches: Vec<f64> = (0..4096).map(|_| chance.pitch()).collect();
    table.line("nearest note and detuning", measure(
        pitches.len(),
        || {
            for &hz in black_box(&pitches) {
                black_box(ours::nearest_note(hz));
            }
        },
        || {
            for &hz in black_box(&pitches) {
                black_box(nearest::found(hz));
            }
        },
    ));
    let detunings: Vec<f64> = (0..4096).map(|_| ((chance.unit() - 0.5) / 12.0).exp2()).collect();
    for (bends, name) in [(false, "fine value (the Rust: fine tuning)"), (true, "bend value (the Rust: semitones)")] {
        table.line(name, measure(
            detunings.len(),
            || {
                for &detuning in black_box(&detunings) {
                    black_box(ours::tuning_value(bends, detuning));
                }
            },
            || {
                for &detuning in black_box(&detunings) {
                    let ratio = Ratio::from_float(detuning);
                    if bends {
                        black_box(ratio.as_semitones());
                    } else {
                        black_box(mts::channel_fine_tuning(0, ratio));
                    }
                }
            },
        ));
    }

    for steps in [12, 22, 31] {
        for n in [12, 61, 128, 256] {
            for (group, (_, _, kind)) in GROUPS.iter().enumerate() {
                progress(&format!("speed: plans of {n} keys, {steps} equal, {kind} groups"));
                let (keys, pitches) = keys_and_pitches(n, steps);
                let needs = needs(&keys, &pitches, group);
                table.line(&format!("plan of {n} keys, {kind} groups, {steps} equal ({needs})"), plan(&keys, &pitches, group));
            }
        }
    }

    // Keys of one note that share a channel, and such that each need their own, from below and from above.
    for (order, cents) in [("one pitch", 0.0), ("rising pitches", 0.3), ("falling pitches", -0.3)] {
        progress("speed: plans of 256 keys of one note");
        let keys: Vec<u8> = (0..=255).collect();
        let pitches: Vec<f64> = (0..256).map(|i| 440.0 * ((i as f64 - 127.5) * cents / 1200.0).exp2()).collect();
        table.line(&format!("plan of 256 keys, channel groups, {order} of one note ({})", needs(&keys, &pitches, 2)), plan(&keys, &pitches, 2));
    }

    for channels in [2, 16] {
        for letters in [false, true] {
            for (mode, name) in [(0, "Block"), (1, "Stop"), (2, "Ignore")] {
                progress(&format!("speed: pool of {channels}"));
                let groups = if letters { "letter" } else { "channel" };
                table.line(&format!("press or release, pool of {channels}, {groups} groups, {name}"), pool(channels, letters, mode, &mut chance));
            }
        }
    }

    for channels in [2, 16] {
        progress(&format!("speed: pool tuner of {channels}"));
        table.line(&format!("press or release with its bytes, pool tuner of {channels}, bends, Stop"), tuner(channels, &mut chance));
    }

    let sizes = [4, 8, 12, 16, 24, 32, 48, 64, 96, 128, 160, 192, 224, 256];
    let mut growth = String::from("| keys | port, 12 equal | Rust, 12 equal | port, 31 equal | Rust, 31 equal |\n|---|---|---|---|---|\n");
    let mut lines: [Vec<f64>; 4] = Default::default();
    for n in sizes {
        progress(&format!("speed: growth, {n} keys"));
        let _ = write!(growth, "| {n} |");
        for (k, steps) in [12, 31].into_iter().enumerate() {
            let (keys, pitches) = keys_and_pitches(n, steps);
            let (port, rust) = plan(&keys, &pitches, 0);
            let _ = write!(growth, " {:.1} µs | {:.1} µs |", port.median / 1000.0, rust.median / 1000.0);
            lines[2 * k].push(port.median);
            lines[2 * k + 1].push(rust.median);
        }
        growth.push('\n');
    }
    progress("");
    eprint!("\r");
    println!("{}", table.text);
    println!("slower than the Rust: {}\n", if table.slower.is_empty() { "none".to_string() } else { table.slower.join("; ") });
    println!("{growth}");

    std::fs::create_dir_all(folder).unwrap();
    std::fs::write(folder.join("figures.md"), format!("{}\n{growth}", table.text)).unwrap();
    let [a, b, c, d] = lines;
    for (file, title, port, rust) in [
        ("plan-12-equal.svg", "Planning 12 equal steps, note groups: time against keys", a, b),
        ("plan-31-equal.svg", "Planning 31 equal steps, note groups: time against keys", c, d),
    ] {
        std::fs::write(folder.join(file), plot(title, &sizes, &[("port", "#0060c0", port), ("Rust", "#c05000", rust)])).unwrap();
    }
}
