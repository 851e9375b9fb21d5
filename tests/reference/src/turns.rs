//! Turns under watch: at how many choices in a row a node was due and not named, which A.8 bounds.

use crate::segment::Segment;

#[derive(Clone, Copy, Debug, Default, PartialEq, Eq)]
pub struct Turns {
    /// For each place: at how many choices, the last included, it was due and not named.
    passed: [usize; Segment::PLACES],
    /// The most of these so far.
    pub most: usize,
}

impl Turns {
    /// Sees a choice: which places were due, and which one it named. To be called for every choice.
    pub fn see(&mut self, due: [bool; Segment::PLACES], named: Option<usize>) {
        for (place, passed) in self.passed.iter_mut().enumerate() {
            *passed = if due[place] && named != Some(place) { *passed + 1 } else { 0 };
            self.most = self.most.max(*passed);
        }
    }

    /// At how many choices in a row this place has now been due and not named.
    pub fn passed(&self, place: usize) -> usize {
        self.passed[place]
    }

    /// Whether A.8 held: of any 24 choices at which a place was due, one named it.
    pub fn were_fair(&self) -> bool {
        self.most < Segment::PLACES
    }
}
