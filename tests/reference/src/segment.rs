//! The segment: 24 nodes with inboxes, ages, the late latch, the mark and the commands of lists.

use crate::alias::{self, Alias};
use crate::command::{Answer, Command, Given};
use crate::frame::Frame;
use crate::inbox::Inbox;
use crate::node::{Node, Owed, State};
use crate::refusal::Refusal;
use crate::warm::{ReadOut, Start};

/// Ages are kept as the tick since which they run, so that a tick touches no inbox frame.
#[derive(Clone)]
pub struct Segment {
    nodes: [Node; Segment::PLACES],
    /// Since when each node has owed its reply RID or AMR.
    owed_since: [u64; Segment::PLACES],
    /// One bit for each place: not Off, and inbox full.
    on: u32,
    full: u32,
    now: u64,
    late: bool,
    /// The place of the node chosen last.
    mark: usize,
    inboxes: [Inbox; Segment::PLACES],
}

/// What can be seen of a node after a list.
#[derive(Clone, Debug, PartialEq, Eq)]
pub struct View {
    pub state: State,
    pub tested_alias: Option<Alias>,
    pub used_alias: Option<Alias>,
    pub due: Option<Frame>,
    pub inbox: Vec<Frame>,
}

impl Default for Segment {
    fn default() -> Self {
        Self::new()
    }
}

impl Segment {
    pub const PLACES: usize = 24;
    /// The greatest age in a kept list.
    pub const LATENESS: u64 = 40;

    /// All nodes Off, and the mark at the last of them.
    pub const fn new() -> Segment {
        Segment {
            nodes: [Node::OFF; Self::PLACES],
            owed_since: [0; Self::PLACES],
            on: 0,
            full: 0,
            now: 0,
            late: false,
            mark: Self::PLACES - 1,
            inboxes: [Inbox::EMPTY; Self::PLACES],
        }
    }

    /// Carries out one command.
    #[inline]
    pub fn carry_out(&mut self, command: &Command) -> Answer {
        match *command {
            Command::PowerOn { index, id } => self.power_on(index.into(), id)?,
            Command::Send { index } => return self.send(index.into()).map(Given::Sent),
            Command::FailedSend { index } => self.failed_send(index.into())?,
            Command::Deliver { index } => self.deliver(index.into())?,
            Command::Tick => self.tick(),
            Command::Foreign { ref frame } => self.foreign(frame)?,
            Command::Message { index, field, len, data } => {
                self.message(index.into(), field, len, data)?
            }
            Command::Enquiry { index, len, id } => self.enquiry(index.into(), len, id)?,
            Command::Release { index } => self.release(index.into())?,
            Command::Link { index, state } => self.link(index.into(), state)?,
            Command::Choose => return Ok(Given::Chosen(self.choose())),
            Command::WarmOn { index, id, flag, state } => {
                self.warm_on(index.into(), id, flag, state)?
            }
            Command::ReadOut { index } => return self.read_out(index.into()).map(Given::ReadOut),
        }
        Ok(Given::Nothing)
    }

    /// 1, 3, 15.
    pub fn power_on(&mut self, index: usize, id: u64) -> Result<(), Refusal> {
        let place = self.place_for(index, id)?;
        self.start(place, id, Start::First);
        Ok(())
    }

    /// 1, 3, 15, 18.
    pub fn warm_on(&mut self, index: usize, id: u64, flag: u8, state: u64) -> Result<(), Refusal> {
        let place = self.place_for(index, id)?;
        self.start(place, id, Start::of(flag, state)?);
        Ok(())
    }

    /// The place of a node that is switched on with this Node ID; 1, 3, 15.
    fn place_for(&self, index: usize, id: u64) -> Result<usize, Refusal> {
        let place = place(index)?;
        alias::first_alias(id)?;
        if self.holders(id).any(|holder| holder != place) {
            return Err(Refusal::NodeIdInUse);
        }
        Ok(place)
    }

    /// The node there starts so, whatever it did before, with an empty inbox.
    fn start(&mut self, place: usize, id: u64, start: Start) {
        self.nodes[place] = Node::started(id, start);
        self.inboxes[place].clear();
        self.on |= bit(place);
        self.full &= !bit(place);
    }

    /// 1, 2.
    pub fn read_out(&self, index: usize) -> Result<ReadOut, Refusal> {
        self.nodes[place(index)?].read_out()
    }

    /// 1, 2, 4, 5.
    pub fn send(&mut self, index: usize) -> Result<Frame, Refusal> {
        let place = place(index)?;
        let frame = self.nodes[place].due_or_refusal()?;
        if self.full & !bit(place) != 0 {
            return Err(Refusal::InboxFull);
        }
        self.change(place, Node::left);
        self.broadcast(self.on & !bit(place), &frame);
        Ok(frame)
    }

    /// 1, 2, 4.
    pub fn failed_send(&mut self, index: usize) -> Result<(), Refusal> {
        self.nodes[place(index)?].fails()
    }

    /// 1, 2, 6.
    pub fn deliver(&mut self, index: usize) -> Result<(), Refusal> {
        let place = place(index)?;
        if self.nodes[place].is_off() {
            return Err(Refusal::Off);
        }
        let frame = self.inboxes[place].pop().ok_or(Refusal::InboxEmpty)?;
        self.change(place, |node| node.hear(&frame));
        self.full &= !bit(place);
        Ok(())
    }

    /// Never refused.
    pub fn tick(&mut self) {
        self.now += 1;
        for node in &mut self.nodes {
            node.tick();
        }
        if !self.late {
            self.late = (0..Self::PLACES).any(|place| self.oldest_age(place) > Self::LATENESS);
        }
    }

    /// 9, 5.
    pub fn foreign(&mut self, frame: &Frame) -> Result<(), Refusal> {
        let frame = frame.checked()?;
        if self.full != 0 {
            return Err(Refusal::InboxFull);
        }
        self.broadcast(self.on, &frame);
        Ok(())
    }

    /// 1, 2, 9, 7, 8.
    pub fn message(
        &mut self,
        index: usize,
        field: u16,
        len: u8,
        data: [u8; 8],
    ) -> Result<(), Refusal> {
        self.nodes[place(index)?].message(field, len, data)
    }

    /// 1, 2, 9, 7, 8.
    pub fn enquiry(&mut self, index: usize, len: u8, id: [u8; 6]) -> Result<(), Refusal> {
        self.nodes[place(index)?].enquiry(len, id)
    }

    /// 1, 2, 7.
    pub fn release(&mut self, index: usize) -> Result<(), Refusal> {
        let place = place(index)?;
        self.change(place, Node::release)
    }

    /// 1, 2, 14.
    pub fn link(&mut self, index: usize, state: u8) -> Result<(), Refusal> {
        self.nodes[place(index)?].link(state)
    }

    /// Who sends next: the first node with a due frame after the one chosen last, wrapping past the
    /// last place. Where there is none the mark stays. Never refused.
    pub fn choose(&mut self) -> Option<usize> {
        let after = self.mark + 1;
        let mut turn = (after..Self::PLACES).chain(0..after);
        let chosen = turn.find(|&place| self.nodes[place].has_due())?;
        self.mark = chosen;
        Some(chosen)
    }

    /// The places whose nodes are not Off and have this Node ID.
    pub fn holders(&self, id: u64) -> impl Iterator<Item = usize> + '_ {
        let holds = move |node: &Node| node.id() == id && !node.is_off();
        (0..).zip(&self.nodes).filter(move |(_, node)| holds(node)).map(|(place, _)| place)
    }

    /// Lets an event happen at a node, and starts the age of what it owes anew if that changed.
    #[inline]
    fn change<R>(&mut self, place: usize, event: impl FnOnce(&mut Node) -> R) -> R {
        let node = &mut self.nodes[place];
        let owed = node.owed();
        let answer = event(node);
        if node.owed() != owed {
            self.owed_since[place] = self.now;
        }
        answer
    }

    /// Adds a frame to these places' inboxes, all of which have room.
    fn broadcast(&mut self, places: u32, frame: &Frame) {
        let mut rest = places;
        while rest != 0 {
            let place = rest.trailing_zeros() as usize;
            rest &= rest - 1;
            let inbox = &mut self.inboxes[place];
            inbox.push(frame, self.now);
            if inbox.is_full() {
                self.full |= bit(place);
            }
        }
    }

    /// The greatest age at a place, 0 if nothing there has one.
    #[inline]
    fn oldest_age(&self, place: usize) -> u64 {
        let inbox = self.inbox_age(place).unwrap_or(0);
        inbox.max(self.owed_age(place).unwrap_or(0))
    }

    /// The age of the oldest frame in an inbox.
    #[inline]
    pub fn inbox_age(&self, place: usize) -> Option<u64> {
        self.inboxes[place].oldest().map(|since| self.now - since)
    }

    /// The age of the reply RID or AMR that a node owes.
    #[inline]
    pub fn owed_age(&self, place: usize) -> Option<u64> {
        match self.nodes[place].owed() {
            Owed::Nothing => None,
            Owed::Reply | Owed::Amr => Some(self.now - self.owed_since[place]),
        }
    }

    pub fn is_late(&self) -> bool {
        self.late
    }

    /// The node chosen last, at first the last of all.
    pub fn mark(&self) -> usize {
        self.mark
    }

    pub fn node(&self, place: usize) -> &Node {
        &self.nodes[place]
    }

    /// The frames of an inbox in order, each with its age.
    pub fn inbox(&self, place: usize) -> impl Iterator<Item = (&Frame, u64)> {
        self.inboxes[place].iter().map(|(frame, since)| (frame, self.now - since))
    }

    pub fn inbox_len(&self, place: usize) -> usize {
        self.inboxes[place].len()
    }

    /// All that demand 3 compares of one node.
    pub fn view(&self, place: usize) -> View {
        let node = &self.nodes[place];
        View {
            state: node.state(),
            tested_alias: node.tested_alias(),
            used_alias: node.used_alias(),
            due: node.due(),
            inbox: self.inbox(place).map(|(frame, _)| *frame).collect(),
        }
    }
}

/// The place of an index; 1 above 23.
#[inline]
fn place(index: usize) -> Result<usize, Refusal> {
    if index < Segment::PLACES {
        Ok(index)
    } else {
        Err(Refusal::NoSuchIndex)
    }
}

fn bit(place: usize) -> u32 {
    1 << place
}

/// No two nodes that are not Off have one Node ID (A.6).
pub fn node_ids_differ(segment: &Segment) -> bool {
    segment.nodes.iter().all(|node| segment.holders(node.id()).count() <= 1)
}

/// No two places use one alias, and no two have due frames with one header and different data.
pub fn claim_holds(segment: &Segment) -> bool {
    let used = segment.nodes.each_ref().map(Node::used_alias);
    let due = segment.nodes.each_ref().map(Node::due);
    let one_alias = |p: usize, q: usize| used[p].is_some() && used[p] == used[q];
    let clash = |p: usize, q: usize| match (&due[p], &due[q]) {
        (Some(a), Some(b)) => a.header == b.header && a.bytes() != b.bytes(),
        _ => false,
    };
    (0..Segment::PLACES).all(|p| (0..p).all(|q| !one_alias(p, q) && !clash(p, q)))
}

#[cfg(test)]
mod tests {
    use super::*;
    use crate::watch::Watch;

    /// What no list comes to, written into the nodes: one Node ID at two places.
    #[test]
    fn one_node_id_at_two_places_is_found() {
        for (first, second) in [(0, 23), (3, 4)] {
            let mut segment = Segment::new();
            segment.power_on(first, 5).unwrap();
            segment.power_on(second, 6).unwrap();
            assert!(node_ids_differ(&segment));
            assert_eq!(segment.holders(5).collect::<Vec<_>>(), [first]);
            assert_eq!(segment.holders(0).count(), 0, "an Off node holds none");
            segment.nodes[second] = segment.nodes[first];
            assert!(!node_ids_differ(&segment));
            let mut watch = Watch::default();
            watch.see(&segment);
            assert!(watch.equal_ids && !watch.claim_held());
        }
    }
}
