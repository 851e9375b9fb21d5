//! Compares both implementations on fresh random scripts: long and short, valid and damaged, some at random corners of A.3. SEED
//! and SCRIPTS may be given.

use compare::setting::{fresh_seed, setting};
use compare::shrink::{hex, shrink};
use compare::{watched, Proved, ROUND};
use reference::generate::contests;
use reference::generate::prng::Prng;
use reference::generate::walker::{walk, Temper};
use reference::Command;
use std::process::exit;

/// Of so many scripts some are at corners of A.3's region, and some late by 40 and 40 and yet within it.
const ENOUGH: u64 = 1_000;

fn main() {
    let seed = setting("SEED", 0, fresh_seed());
    let scripts = setting("SCRIPTS", 1, 20_000);
    let mut proved = Proved::default();
    let (mut bytes, mut damaged, mut kept, mut at_corners, mut allowed) = (0, 0, 0, 0, 0);
    for number in 0..scripts {
        let seed = seed.wrapping_add(number);
        let Made { script, at_corner, harmed } = Made::by_chance(&mut Prng::new(seed));
        if !agree(&mut proved, &script) {
            report(seed, "the outputs differ", &script, |less| !agree(&mut proved, less));
        }
        let watch = watched(&script);
        if !watch.claim_held() {
            report(seed, "the claim fails: of Node IDs, or of aliases with ages that A.3 allows", &script, |less| {
                !watched(less).claim_held()
            });
        }
        bytes += script.len();
        damaged += usize::from(harmed);
        kept += usize::from(proved.run(&script).ends_with(b"kept\n"));
        at_corners += usize::from(at_corner);
        allowed += usize::from(watch.is_late_but_allowed());
    }
    if scripts >= ENOUGH && at_corners.min(allowed) == 0 {
        println!(
            "compare: of {scripts} scripts none is at a corner of A.3's region, or none is late by 40 and 40 and yet within it"
        );
        exit(1);
    }
    println!("compare: {scripts} scripts agree, SEED={seed}: {bytes} bytes, {damaged} damaged, {kept} kept");
    println!(
        "compare: {at_corners} of them made at random corners of A.3's region; {allowed} late by 40 and 40 and yet within it"
    );
}

struct Made {
    script: Vec<u8>,
    /// Whether it was made to keep the limits of a corner.
    at_corner: bool,
    /// Whether it was damaged after it was made.
    harmed: bool,
}

impl Made {
    fn by_chance(rng: &mut Prng) -> Made {
        let commands = match rng.below(40) {
            0 => 6_000,
            1..=9 => 10,
            _ => 250,
        };
        let at_corner = rng.percent(5);
        let temper = if at_corner { contests::at_corner(rng).1 } else { Temper::random(rng, commands) };
        let warm = rng.pick(&[0, 10, 60]);
        let mut script = walk(rng, Temper { warm, ..temper });
        if rng.below(40) == 0 {
            let ticks = rng.between(ROUND - 250, ROUND);
            script.splice(..0, std::iter::repeat_n(Command::Tick.byte(), ticks).flatten());
        }
        let harmed = rng.percent(35);
        if harmed {
            damage(rng, &mut script);
        }
        Made { script, at_corner, harmed }
    }
}

/// Bytes changed, put in, taken out, or the end cut off.
fn damage(rng: &mut Prng, script: &mut Vec<u8>) {
    for _ in 0..rng.between(1, 4) {
        let at = rng.below(script.len().max(1));
        match rng.below(4) {
            0 if at < script.len() => script[at] = rng.byte(),
            1 => script.insert(at, rng.byte()),
            2 if at < script.len() => {
                script.remove(at);
            }
            _ => script.truncate(at),
        }
    }
}

fn agree(proved: &mut Proved, script: &[u8]) -> bool {
    let mut expected = Vec::new();
    reference::run(script, &mut expected);
    proved.run(script) == expected
}

/// Prints the smallest script found that still fails, all else as comments, so that `./run` takes it; and ends the run.
fn report(seed: u64, what: &str, script: &[u8], fails: impl FnMut(&[u8]) -> bool) -> ! {
    eprintln!("compare: {what}; leaving out commands ..");
    let script = shrink(script, fails);
    println!("# compare: {what}. SEED={seed} SCRIPTS=1 makes the whole script; this part of it is enough, and ./run takes it:");
    print!("{}", hex(&script));
    let mut plain = Vec::new();
    reference::run(&script, &mut plain);
    print_first_difference(&plain, Proved::default().run(&script));
    exit(1);
}

/// The first line in which two outputs differ, if they do.
fn print_first_difference(plain: &[u8], proved: &[u8]) {
    let (plain, proved) = (String::from_utf8_lossy(plain), String::from_utf8_lossy(proved));
    let (plain, proved): (Vec<_>, Vec<_>) = (plain.lines().collect(), proved.lines().collect());
    let lines = plain.len().max(proved.len());
    if let Some(at) = (0..lines).find(|&at| plain.get(at) != proved.get(at)) {
        println!("# plain Rust: {}", plain.get(at).unwrap_or(&"no line"));
        println!("# proved:     {}", proved.get(at).unwrap_or(&"no line"));
    }
}
