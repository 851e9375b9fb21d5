//! A list under watch: its greatest ages, whether the claim held while A.3 demanded it, and whether
//! Node IDs differed, which A.6 demands of every list.

use crate::command::Command;
use crate::limits::Limits;
use crate::segment::{claim_holds, node_ids_differ, Segment};

#[derive(Clone, Copy, Debug, Default, PartialEq, Eq)]
pub struct Watch {
    /// The greatest ages so far: the least limits that the list keeps.
    pub greatest: Limits,
    /// The greatest ages at the first command after which the claim did not hold.
    pub broken: Option<Limits>,
    /// Whether two nodes that are not Off ever had one Node ID.
    pub equal_ids: bool,
}

impl Watch {
    /// What a whole list comes to.
    pub fn of(list: impl IntoIterator<Item = Command>) -> Watch {
        let (mut watch, mut segment) = (Watch::default(), Segment::new());
        for command in list {
            let _ = segment.carry_out(&command);
            watch.see(&segment);
        }
        watch
    }

    /// Sees what the segment has come to. To be called after every command.
    pub fn see(&mut self, segment: &Segment) {
        for place in 0..Segment::PLACES {
            let inbox = segment.inbox_age(place).unwrap_or(0);
            let waiting = segment.owed_age(place).unwrap_or(0);
            self.greatest.inbox = self.greatest.inbox.max(inbox);
            self.greatest.waiting = self.greatest.waiting.max(waiting);
        }
        if self.broken.is_none() && !claim_holds(segment) {
            self.broken = Some(self.greatest);
        }
        self.equal_ids |= !node_ids_differ(segment);
    }

    /// Whether the claim held: Node IDs after every command, and the rest of it after every command
    /// up to which A.3 allows the ages.
    pub fn claim_held(&self) -> bool {
        !self.equal_ids && !self.broken.is_some_and(Limits::are_allowed)
    }

    /// Whether the list is late, and has single aliases by A.3 all the same.
    pub fn is_late_but_allowed(&self) -> bool {
        !self.greatest.are_kept() && self.greatest.are_allowed()
    }
}
