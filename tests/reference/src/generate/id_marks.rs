//! Node IDs at power-on (A.6): what scripts must meet besides the cells. Who holds a Node ID that is
//! refused by 15, frames and ages that such a power-on leaves as they are, and Node IDs that are used
//! again.

use std::collections::{BTreeMap, BTreeSet};

use crate::command::{Answer, Command};
use crate::generate::coverage::power_on_of;
use crate::generate::marks::{full_inboxes, sort_of_kind, sort_owed, Sort, SORTS};
use crate::inbox::Inbox;
use crate::node::{Node, State};
use crate::refusal::Refusal;
use crate::segment::Segment;

#[derive(Clone, Copy, Debug, PartialEq, Eq, PartialOrd, Ord)]
pub enum IdMark {
    /// Refused by 15, the Node ID held by a node in this state.
    HeldIn(State),
    /// Refused by 15, the Node ID held at this place, the first or the last.
    HeldAt(usize),
    /// A node in this state kept its frames where its power-on was refused by 15: one was delivered
    /// before any other joined.
    FramesStayed(State),
    /// An inbox stayed full where a power-on was refused by 15: the next frame was refused by 5.
    StayedFull,
    /// An age ran on through a power-on that was refused by 15, and nothing else made the list late.
    LateBy(Sort),
    /// Accepted beside a node whose Node ID differs in one bit alone, of this one of four parts.
    OneBitApart(u32),
    /// Accepted at a node in this state, under the Node ID that it had.
    OwnAgain(State),
    /// Accepted under a Node ID that another index has had, and has no more.
    GivenUp,
}

impl IdMark {
    pub fn all() -> Vec<IdMark> {
        let mut marks = vec![IdMark::StayedFull, IdMark::GivenUp];
        marks.extend([0, Segment::PLACES - 1].map(IdMark::HeldAt));
        marks.extend(SORTS.map(IdMark::LateBy));
        marks.extend([0, 1, 2, 3].map(IdMark::OneBitApart));
        for by_state in [IdMark::HeldIn, IdMark::FramesStayed, IdMark::OwnAgain] {
            marks.extend(State::ON.map(by_state));
        }
        marks.sort();
        marks
    }
}

/// Counts of marks, with what must be remembered from one command to the next.
#[derive(Clone, Default)]
pub struct IdMarks {
    pub counts: BTreeMap<IdMark, u64>,
    /// Node IDs that gave way to others, with the index that had them.
    given_up: BTreeSet<(u64, usize)>,
    /// In which state, and with how many frames in its inbox, a place was last refused by 15; none
    /// taken from it since.
    refused: [Option<(State, usize)>; Segment::PLACES],
    /// How many ticks ago each place was last refused by 15.
    ticks: [Option<u64>; Segment::PLACES],
    /// The ages above 40: their sort where such a refusal came while they ran, else none.
    late: BTreeSet<Option<Sort>>,
}

impl IdMarks {
    pub fn met(&self, mark: &IdMark) -> bool {
        self.counts.contains_key(mark)
    }

    fn count_one(&mut self, mark: IdMark) {
        *self.counts.entry(mark).or_default() += 1;
    }

    /// A script's end; the next script starts afresh.
    pub fn count_end(&mut self) {
        if let [Some(sort)] = self.late.iter().copied().collect::<Vec<_>>()[..] {
            self.count_one(IdMark::LateBy(sort));
        }
        *self = IdMarks { counts: std::mem::take(&mut self.counts), ..IdMarks::default() };
    }

    /// What a command was, with its node before it and the segment after it. Power-ons with this byte
    /// count; others are followed.
    pub fn count(
        &mut self,
        byte: u8,
        before: Option<&Node>,
        segment: &Segment,
        command: &Command,
        answer: &Answer,
    ) {
        if let Some((index, id)) = power_on_of(command) {
            let counts = command.byte() == Some(byte);
            match (answer, before) {
                (Ok(_), Some(before)) => self.powered(counts, before, segment, (index, id)),
                (Err(Refusal::NodeIdInUse), _) if counts => self.in_use(segment, index, id),
                _ => {}
            }
        }
        match (*command, answer, before) {
            (Command::Deliver { index }, Ok(_), _) => self.delivered(segment, index.into()),
            (_, Err(Refusal::InboxFull), _) => self.jammed(&full_inboxes(segment, command)),
            (Command::Tick, _, _) => self.ticked(segment),
            _ => {}
        }
    }

    /// A frame that joined since would be delivered from an emptied inbox too, and shows nothing.
    fn delivered(&mut self, segment: &Segment, index: usize) {
        let Some((state, frames)) = self.refused[index].take() else { return };
        if segment.inbox_len(index) + 1 == frames {
            self.count_one(IdMark::FramesStayed(state));
        }
    }

    /// These full inboxes stood against a frame.
    fn jammed(&mut self, full: &[usize]) {
        let was_full = |&(_, frames): &(State, usize)| frames == Inbox::ROOM;
        if matches!(full, &[place] if self.refused[place].as_ref().is_some_and(was_full)) {
            self.count_one(IdMark::StayedFull);
        }
    }

    fn ticked(&mut self, segment: &Segment) {
        for place in 0..Segment::PLACES {
            self.ticks[place] = self.ticks[place].map(|ticks| ticks + 1);
            let through = self.ticks[place].is_some_and(|ticks| ticks <= Segment::LATENESS);
            let frames = segment.inbox(place).filter(|&(_, age)| age > Segment::LATENESS);
            let owed = segment.owed_age(place).filter(|&age| age > Segment::LATENESS);
            let sorts = frames.map(|(frame, _)| sort_of_kind(frame.kind));
            let sorts = sorts.chain(owed.and_then(|_| sort_owed(segment, place)));
            self.late.extend(sorts.map(|sort| through.then_some(sort)));
        }
    }

    fn powered(
        &mut self,
        counts: bool,
        before: &Node,
        segment: &Segment,
        (index, id): (usize, u64),
    ) {
        self.refused[index] = None;
        if counts {
            self.count_powered(before, segment, (index, id));
        }
        if !before.is_off() && before.id() != id {
            self.given_up.insert((before.id(), index));
        }
    }

    fn count_powered(&mut self, before: &Node, segment: &Segment, (index, id): (usize, u64)) {
        if self.given_up.iter().any(|&(earlier, at)| earlier == id && at != index) {
            self.count_one(IdMark::GivenUp);
        }
        if !before.is_off() && before.id() == id {
            self.count_one(IdMark::OwnAgain(before.state()));
        }
        self.count_apart(segment, id);
    }

    fn count_apart(&mut self, segment: &Segment, id: u64) {
        for other in (0..Segment::PLACES).map(|place| segment.node(place)) {
            let apart = other.id() ^ id;
            if !other.is_off() && apart.is_power_of_two() {
                self.count_one(IdMark::OneBitApart(apart.trailing_zeros() / 12));
            }
        }
    }

    fn in_use(&mut self, segment: &Segment, index: usize, id: u64) {
        for holder in segment.holders(id) {
            self.count_one(IdMark::HeldIn(segment.node(holder).state()));
            if [0, Segment::PLACES - 1].contains(&holder) {
                self.count_one(IdMark::HeldAt(holder));
            }
        }
        self.refused[index] = Some((segment.node(index).state(), segment.inbox_len(index)));
        self.ticks[index] = Some(0);
    }
}
