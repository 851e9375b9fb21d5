//! Lists at random corners of A.3: they keep limits of which neither can be raised. What they come to is counted.

use super::list::first_ticks;
use super::operation::Operation;
use reference::generate::contests;
use reference::generate::prng::Prng;
use reference::generate::walker::{walk_list, Temper};
use reference::Limits;

/// So many lists at corners are compared in every run.
pub const LISTS: u64 = 300;

/// A corner by chance, and a list that keeps its limits; with link orders often, seldom or not at all, and with turns, power-ons by 0A
/// and read-outs likewise.
pub fn random(rng: &mut Prng) -> (Limits, Vec<Operation>) {
    let (corner, temper) = contests::at_corner(rng);
    let (warm, reads) = rng.pick(&[(0, 0), (50, 2)]);
    let temper = Temper { links: rng.pick(&[0, 2, 10]), turns: rng.pick(&[0, 2, 10]), warm, reads, ..temper };
    let commands = walk_list(rng, temper);
    let mut list = first_ticks(rng);
    list.extend(commands.into_iter().map(Operation::from));
    (corner, list)
}

#[derive(Default)]
pub struct Counts {
    lists: usize,
    corners: Vec<Limits>,
    /// Lists that are late by 40 and 40 and yet allowed by A.3.
    late: usize,
    /// Lists whose greatest ages are the two limits.
    at_both: usize,
}

impl Counts {
    /// Adds a list by its greatest ages. A list beyond its corner was made wrongly.
    pub fn add(&mut self, corner: Limits, greatest: Limits) -> Result<(), String> {
        if !greatest.are_within(corner) {
            return Err(format!("a list that should keep {corner:?} has the ages {greatest:?}"));
        }
        self.lists += 1;
        if !self.corners.contains(&corner) {
            self.corners.push(corner);
        }
        self.late += usize::from(!greatest.are_kept());
        self.at_both += usize::from(greatest == corner);
        Ok(())
    }

    /// What was counted, or what was never met.
    pub fn line(&self) -> Result<String, String> {
        let Counts { lists, corners, late, at_both } = self;
        for (count, what) in [(lists, "made"), (late, "late by 40 and 40 and yet within it"), (at_both, "at both limits")] {
            if *count == 0 {
                return Err(format!("no list at a corner of A.3's region was {what}"));
            }
        }
        let corners = corners.len();
        Ok(format!(
            "{lists} lists at {corners} random corners of A.3's region have single aliases: {late} of them late by 40 and 40 \
             and yet within it, {at_both} at both limits of their corner"
        ))
    }
}

#[cfg(test)]
mod tests {
    use super::*;

    #[test]
    fn what_was_never_met_is_named() {
        let mut counts = Counts::default();
        let corner = Limits::new(100, 0);
        let missing = |counts: &Counts| counts.line().expect_err("something is missing");
        assert!(missing(&counts).ends_with("was made"));
        counts.add(corner, Limits::new(40, 0)).expect("within its corner");
        assert!(missing(&counts).ends_with("was late by 40 and 40 and yet within it"));
        counts.add(corner, Limits::new(41, 0)).expect("within its corner");
        assert!(missing(&counts).ends_with("was at both limits"));
        counts.add(corner, corner).expect("within its corner");
        let line = counts.line().expect("all were met");
        assert!(
            line.starts_with("3 lists at 1 random corners") && line.contains(" 2 of them late") && line.contains(", 1 at both")
        );
    }

    #[test]
    fn a_list_beyond_its_corner_is_an_error() {
        let mut counts = Counts::default();
        assert!(counts.add(Limits::new(100, 0), Limits::new(100, 1)).is_err());
        assert!(counts.add(Limits::new(100, 0), Limits::new(101, 0)).is_err());
    }
}
