//! The stored corpus of scripts: scenarios, scripts that fill the coverage, random walks.

use crate::generate::coverage::Coverage;
use crate::generate::filler;
use crate::generate::prng::Prng;
use crate::generate::scenarios;
use crate::generate::walker::{walk, Temper};
use crate::limits::Limits;
use crate::script;

/// The corpus is always made from this seed.
pub const SEED: u64 = 0x0501_0101_0101;

const WALKS: usize = 72;
/// So many walks more have power-ons by 0A too.
const WARM_WALKS: usize = 12;

/// All scripts of the corpus, in order.
pub fn scripts(seed: u64) -> Vec<Vec<u8>> {
    let mut scripts = scenarios::all();
    let mut cover = Coverage::new();
    for script in &scripts {
        cover.count_script(script);
    }
    let mut rng = Prng::new(seed);
    for walks in 0..WALKS {
        let commands = if walks % 6 == 0 { 1_500 } else { 350 };
        let mut temper = Temper::random(&mut rng, commands);
        temper.limits = (walks % 2 == 0).then_some(Limits::KEPT);
        if temper.limits.is_none() {
            temper.tick_run = temper.tick_run.max(41);
        }
        let script = walk(&mut rng, temper);
        cover.count_script(&script);
        scripts.push(script);
    }
    for _ in 0..WARM_WALKS {
        let temper = Temper { warm: 60, ..Temper::random(&mut rng, 350) };
        let script = walk(&mut rng, temper);
        cover.count_script(&script);
        scripts.push(script);
    }
    scripts.extend(filler::scripts(&mut cover, &mut rng));
    scripts
}

/// The corpus as two files: each script after its length, and all outputs in one.
pub fn files(scripts: &[Vec<u8>]) -> (Vec<u8>, Vec<u8>) {
    let (mut input, mut output) = (Vec::new(), Vec::new());
    for script in scripts {
        input.extend_from_slice(&(script.len() as u32).to_be_bytes());
        input.extend_from_slice(script);
        script::run(script, &mut output);
    }
    (input, output)
}
