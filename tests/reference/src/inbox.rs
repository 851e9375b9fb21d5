//! An inbox: a ring of 32 frames, first in first out, each with the tick of its arrival.

use crate::frame::Frame;

#[derive(Clone)]
pub struct Inbox {
    slots: [(Frame, u64); Inbox::ROOM],
    head: u8,
    len: u8,
}

impl Inbox {
    pub const ROOM: usize = 32;

    pub const EMPTY: Inbox = Inbox { slots: [(Frame::EMPTY, 0); Inbox::ROOM], head: 0, len: 0 };

    pub fn len(&self) -> usize {
        usize::from(self.len)
    }

    pub fn is_empty(&self) -> bool {
        self.len == 0
    }

    pub fn is_full(&self) -> bool {
        self.len() == Self::ROOM
    }

    pub(crate) fn clear(&mut self) {
        self.len = 0;
    }

    /// Adds a frame last. The caller knows that there is room.
    #[inline]
    pub(crate) fn push(&mut self, frame: &Frame, now: u64) {
        let slot = (usize::from(self.head) + self.len()) % Self::ROOM;
        self.slots[slot] = (*frame, now);
        self.len += 1;
    }

    /// Takes the first frame out.
    #[inline]
    pub(crate) fn pop(&mut self) -> Option<Frame> {
        if self.is_empty() {
            return None;
        }
        let slot = usize::from(self.head);
        self.head = ((slot + 1) % Self::ROOM) as u8;
        self.len -= 1;
        Some(self.slots[slot].0)
    }

    /// The tick at which the first and oldest frame came.
    #[inline]
    pub fn oldest(&self) -> Option<u64> {
        (!self.is_empty()).then(|| self.slots[usize::from(self.head)].1)
    }

    /// The frames in order, each with the tick of its arrival.
    pub fn iter(&self) -> impl Iterator<Item = (&Frame, u64)> {
        (0..self.len()).map(|k| {
            let (frame, since) = &self.slots[(usize::from(self.head) + k) % Self::ROOM];
            (frame, *since)
        })
    }
}
