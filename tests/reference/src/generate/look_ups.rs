//! What look-ups in the map come to: where they hit, in which maps they find nothing, and what has
//! moved the entry that they hit.

use std::collections::BTreeSet;

use crate::map::{AliasMap, Entry};

/// Which way a look-up goes.
#[derive(Clone, Copy, Debug, PartialEq, Eq, PartialOrd, Ord)]
pub enum Way {
    ByAlias,
    ByNodeId,
}

impl Way {
    pub const ALL: [Way; 2] = [Way::ByAlias, Way::ByNodeId];
}

/// What became of an older entry, so that the ones after it stand nearer to the oldest's place.
#[derive(Clone, Copy, Debug, PartialEq, Eq, PartialOrd, Ord)]
pub enum Gone {
    /// An AMR removed it.
    Removed,
    /// Its own AMD came again and moved it last.
    MovedLast,
    /// An AMD of another pair, with its alias or its Node ID, removed it.
    Replaced,
}

/// What a look-up comes to; a hit may be several of these.
#[derive(Clone, Copy, Debug, PartialEq, Eq, PartialOrd, Ord)]
pub enum Outcome {
    Absent {
        empty: bool,
        full: bool,
    },
    /// The only entry of a map is both.
    Hit {
        oldest: bool,
        newest: bool,
    },
    /// A hit at this place of a full map, from the oldest, which is 1.
    HitInFull(usize),
    /// A hit at an entry that stood later once: by this alone it has come nearer.
    Nearer(Gone),
}

impl Outcome {
    pub fn all() -> Vec<Outcome> {
        let mut all = Vec::new();
        for (empty, full) in [(true, false), (false, false), (false, true)] {
            all.push(Outcome::Absent { empty, full });
        }
        for oldest in [true, false] {
            all.extend([true, false].map(|newest| Outcome::Hit { oldest, newest }));
        }
        all.extend((1..=AliasMap::ROOM).map(Outcome::HitInFull));
        all.extend([Gone::Removed, Gone::MovedLast, Gone::Replaced].map(Outcome::Nearer));
        all
    }
}

/// The entries of a map, oldest first, each with what became of older ones since it was put last.
#[derive(Default)]
pub struct Followed {
    entries: Vec<(Entry, BTreeSet<Gone>)>,
}

impl Followed {
    /// What a look-up comes to that hits where this holds.
    pub fn outcomes(&self, is_hit: impl Fn(&Entry) -> bool) -> Vec<Outcome> {
        let count = self.entries.len();
        let full = count == AliasMap::ROOM;
        let Some(older) = self.entries.iter().position(|(entry, _)| is_hit(entry)) else {
            return vec![Outcome::Absent { empty: count == 0, full }];
        };
        let place = older + 1;
        let mut outcomes = vec![Outcome::Hit { oldest: place == 1, newest: place == count }];
        if full {
            outcomes.push(Outcome::HitInFull(place));
        }
        let gone = &self.entries[older].1;
        if gone.len() == 1 {
            outcomes.extend(gone.iter().copied().map(Outcome::Nearer));
        }
        outcomes
    }

    /// Takes over the map's entries as an operation left them.
    pub fn follow(&mut self, map: &AliasMap) {
        let gone = self.gone(map.entries());
        let place_by_place = map.entries().iter().enumerate();
        let followed = place_by_place.map(|(place, entry)| match self.place_of(entry) {
            Some(was) if was >= place => {
                let mut older_ones = self.entries[was].1.clone();
                older_ones.extend((was > place).then_some(gone));
                (*entry, older_ones)
            }
            _ => (*entry, BTreeSet::new()),
        });
        self.entries = followed.collect();
    }

    /// What became of the entries that are no longer where they were, if there are any.
    fn gone(&self, now: &[Entry]) -> Gone {
        match now.last() {
            Some(newest) if self.place_of(newest).is_none() => Gone::Replaced,
            _ if now.len() < self.entries.len() => Gone::Removed,
            _ => Gone::MovedLast,
        }
    }

    fn place_of(&self, entry: &Entry) -> Option<usize> {
        self.entries.iter().position(|(known, _)| known == entry)
    }
}
