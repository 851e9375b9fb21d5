//! The same scripts and calls through the proved libraries and through the other implementation, in one process: median ratios.
//! REPEATS may be given: how often each is run.

use compare::calls::{self, Row};
use compare::setting::setting;
use compare::Proved;
use reference::generate::draft::Draft;
use reference::generate::prng::Prng;
use reference::generate::walker::{walk, Temper};
use std::hint::black_box;
use std::time::{Duration, Instant};

fn main() {
    let repeats = setting("REPEATS", 1, 101);
    scripts(repeats);
    println!();
    single_calls(repeats);
}

fn single_calls(repeats: u64) {
    println!("{:<28} {:>12} {:>12} {:>6}", "call", "proved", "plain Rust", "ratio");
    let look_ups = calls::look_ups().map(|rows| rows.map(|row| Timed::print(row, repeats)));
    for row in calls::others().into_iter().chain(calls::turns::rows()).chain(calls::warm::rows()) {
        Timed::print(row, repeats);
    }
    println!();
    println!("A look-up in a full map takes so many times as long as that of its first entry:");
    println!("{:<28} {:>12} {:>12}", "", "proved", "plain Rust");
    for [first, last, absent] in look_ups {
        for other in [last, absent] {
            println!("{:<28} {:>12.1} {:>12.1}", other.name, other.proved / first.proved, other.plain / first.plain);
        }
    }
}

/// The median times of a call, in nanoseconds.
struct Timed {
    name: &'static str,
    proved: f64,
    plain: f64,
}

impl Timed {
    /// Times a call and prints its line.
    fn print(mut row: Row, repeats: u64) -> Timed {
        let name = row.name;
        let (proved, plain) = measure_calls(&mut row, repeats);
        println!("{name:<28} {proved:>9.2} ns {plain:>9.2} ns {:>6.2}", proved / plain);
        Timed { name, proved, plain }
    }
}

fn scripts(repeats: u64) {
    let rows: [(&str, Vec<u8>); 4] = [
        ("ticks, 24 idle nodes", idle_ticks(60_000)),
        ("breaker start of 24", breaker_start(40)),
        ("full inboxes", full_inboxes(400)),
        ("hostile traffic", hostile(1, 40_000)),
    ];
    println!("{:<22} {:>10} {:>10} {:>12} {:>12} {:>6}", "script", "bytes", "commands", "proved", "plain Rust", "ratio");
    for (name, script) in &rows {
        let (proved, plain) = measure(script, repeats);
        let commands = count_lines(script);
        let ratio = proved.as_secs_f64() / plain.as_secs_f64();
        println!("{name:<22} {:>10} {commands:>10} {:>12} {:>12} {ratio:>6.2}", script.len(), millis(proved), millis(plain));
    }
    println!();
    println!("{:<22} {:>12} {:>12} {:>12}", "hostile, by length", "bytes", "proved", "ns a byte");
    for commands in [10_000, 20_000, 40_000, 80_000, 160_000] {
        let script = hostile(2, commands);
        let (proved, _) = measure(&script, repeats);
        let each = proved.as_nanos() as f64 / script.len() as f64;
        println!("{:<22} {:>12} {:>12} {each:>12.1}", "", script.len(), millis(proved));
    }
}

/// The median time of each side, taken in turn.
fn measure(script: &[u8], repeats: u64) -> (Duration, Duration) {
    let mut proved = Proved::default();
    let mut plain = Vec::new();
    reference::run(script, &mut plain);
    assert_eq!(proved.run(script), plain, "both sides must agree");
    let (mut first, mut second) = (Vec::new(), Vec::new());
    for _ in 0..repeats {
        let start = Instant::now();
        black_box(proved.run(black_box(script)));
        first.push(start.elapsed());
        plain.clear();
        let start = Instant::now();
        reference::run(black_box(script), &mut plain);
        black_box(&plain);
        second.push(start.elapsed());
    }
    (median(first), median(second))
}

/// The median time of a call of each side in nanoseconds, taken in turn.
fn measure_calls(row: &mut Row, repeats: u64) -> (f64, f64) {
    const CALLS: u64 = 6_400;
    let time = |call: &mut dyn FnMut(u64)| {
        let start = Instant::now();
        (0..CALLS).for_each(|turn| call(turn));
        start.elapsed()
    };
    let (mut first, mut second) = (Vec::new(), Vec::new());
    for _ in 0..repeats {
        first.push(time(&mut row.proved));
        second.push(time(&mut row.plain));
    }
    let each = |times| median(times).as_nanos() as f64 / CALLS as f64;
    (each(first), each(second))
}

fn median(mut times: Vec<Duration>) -> Duration {
    times.sort();
    times[times.len() / 2]
}

fn millis(time: Duration) -> String {
    format!("{:.3} ms", time.as_secs_f64() * 1e3)
}

fn count_lines(script: &[u8]) -> usize {
    let mut out = Vec::new();
    reference::run(script, &mut out);
    out.iter().filter(|&&byte| byte == b'\n').count() - 1
}

fn ids(first: u64) -> Vec<u64> {
    (0..24).map(|k| first + k).collect()
}

fn idle_ticks(ticks: usize) -> Vec<u8> {
    let mut draft = Draft::permitted(&ids(0x0501_0101_0100));
    draft.ticks(ticks);
    draft.bytes
}

/// All 24 switched on together, again and again, each time to Permitted.
fn breaker_start(times: u64) -> Vec<u8> {
    let mut bytes = Vec::new();
    for time in 0..times {
        bytes.extend(Draft::permitted(&ids(0x0501_0101_0100 + 97 * time)).bytes);
    }
    bytes
}

/// Inboxes of 32 frames that age, then all are delivered.
fn full_inboxes(times: usize) -> Vec<u8> {
    let mut draft = Draft::permitted(&ids(0x0501_0101_0100));
    for _ in 0..times {
        for _ in 0..32 {
            draft.idle_frame();
        }
        draft.ticks(3).drain_all();
    }
    draft.bytes
}

/// Foreign frames aimed at the nodes, with everything else in between.
fn hostile(seed: u64, commands: usize) -> Vec<u8> {
    let mut rng = Prng::new(seed);
    let mut temper = Temper::random(&mut rng, commands);
    temper.nodes = 24;
    temper.node_ids = ids(0x0501_0101_0100);
    temper.limits = None;
    temper.tick_run = 5;
    temper.weights = [3, 30, 3, 40, 20, 30, 10, 3];
    walk(&mut rng, temper)
}
