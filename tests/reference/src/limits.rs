//! How long frames may stand and wait: the two limits of A.3, and for which of them aliases must
//! stay single.

use crate::segment::Segment;

/// The most ticks that an inbox frame may stand, and that a reply RID or an AMR may wait.
#[derive(Clone, Copy, Debug, Default, PartialEq, Eq)]
pub struct Limits {
    pub inbox: u64,
    pub waiting: u64,
}

impl Limits {
    /// In A.3, the most of 2 × i + o and of i + 2 × o.
    const MOST: u64 = 200;

    /// Those of a kept list.
    pub const KEPT: Limits = Limits::new(Segment::LATENESS, Segment::LATENESS);

    pub const fn new(inbox: u64, waiting: u64) -> Limits {
        Limits { inbox, waiting }
    }

    /// Whether A.3 demands single aliases of the lists that keep these limits.
    pub fn are_allowed(self) -> bool {
        let Limits { inbox, waiting } = self;
        2 * inbox + waiting <= Self::MOST && inbox + 2 * waiting <= Self::MOST
    }

    /// Whether a list with these ages is kept.
    pub fn are_kept(self) -> bool {
        self.are_within(Limits::KEPT)
    }

    /// Whether what keeps these limits keeps the others too.
    pub fn are_within(self, others: Limits) -> bool {
        self.inbox <= others.inbox && self.waiting <= others.waiting
    }

    /// The same with one of the two a tick more.
    pub fn raised(self) -> [Limits; 2] {
        let Limits { inbox, waiting } = self;
        [Limits::new(inbox + 1, waiting), Limits::new(inbox, waiting + 1)]
    }

    /// Whether these are allowed, and no longer if either is a tick more.
    pub fn are_a_corner(self) -> bool {
        self.are_allowed() && !self.raised().into_iter().any(Limits::are_allowed)
    }

    /// Every corner: whatever is allowed is within one of them.
    pub fn corners() -> Vec<Limits> {
        let all = (0..=Self::MOST).flat_map(|i| (0..=Self::MOST).map(move |o| Limits::new(i, o)));
        all.filter(|limits| limits.are_a_corner()).collect()
    }
}
