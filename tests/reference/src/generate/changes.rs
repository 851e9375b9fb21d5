//! What a noted frame changes in the map, told by its entries before and after.

use crate::map::Entry;

#[derive(Clone, Copy, Debug, PartialEq, Eq, PartialOrd, Ord)]
pub enum Change {
    /// An AMD enters beside all that stood there.
    Enters,
    /// An AMD takes the place of what had its alias or its Node ID, and stands last.
    Replaces,
    /// An AMR removes its alias.
    Removes,
}

impl Change {
    pub const ALL: [Change; 3] = [Change::Enters, Change::Replaces, Change::Removes];

    pub fn of(before: &[Entry], after: &[Entry]) -> Option<Change> {
        let known = after.iter().all(|entry| before.contains(entry));
        match after.len() {
            _ if after == before => None,
            len if len > before.len() => Some(Change::Enters),
            len if len < before.len() && known => Some(Change::Removes),
            _ => Some(Change::Replaces),
        }
    }
}
