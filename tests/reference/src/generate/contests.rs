//! Lists that keep given limits and mostly go up to them: nodes test aliases that others use,
//! while frames stand and replies wait as long as they may.

use crate::generate::prng::Prng;
use crate::generate::walker::Temper;
use crate::limits::Limits;

/// About so many commands, most of them ticks: time for the first nodes to come up, and then for
/// several contests.
const COMMANDS: usize = 1_400;

/// A temper by chance for a list within these limits.
pub fn temper(rng: &mut Prng, limits: Limits) -> Temper {
    let temper = Temper { limits: Some(limits), ..Temper::random(rng, COMMANDS) };
    if rng.percent(20) {
        return temper;
    }
    Temper {
        to_the_limits: true,
        nodes: rng.pick(&[2, 2, 3, 3, 4, 6]),
        tick_run: rng.pick(&[10, 20, 40]),
        weights: rng.pick(&[
            [10, 0, 0, 0, 80, 0, 2, 0],
            [10, 1, 0, 1, 80, 2, 2, 0],
            [10, 2, 1, 2, 80, 10, 4, 1],
        ]),
        ..temper
    }
}

/// A temper by chance for a list within limits by chance that are a corner.
pub fn at_corner(rng: &mut Prng) -> (Limits, Temper) {
    let corner = rng.pick(&Limits::corners());
    (corner, temper(rng, corner))
}
