//! Marks: refusals, their order, cut commands, ages and other things that scripts must meet.

use std::collections::BTreeMap;

use crate::command::{Answer, Command, OPERANDS};
use crate::frame::{Frame, ELEVEN_BIT, EXTENDED, REMOTE};
use crate::generate::coverage::{index_of, power_on_of};
use crate::header::{self, Header, Kind, FIELD_MAX};
use crate::inbox::Inbox;
use crate::node::{Node, Owed, Phase, State};
use crate::refusal::Refusal;
use crate::segment::Segment;

#[derive(Clone, Copy, Debug, PartialEq, Eq, PartialOrd, Ord)]
pub enum Mark {
    /// A command's byte with its refusal, 0 for accepted.
    Answer(u8, u8),
    /// A command refused by the first number though the second would hold too.
    Order(u8, u8, u8),
    /// A command cut after so many operand bytes, as the first one or after others.
    Cut {
        byte: u8,
        operands: usize,
        first: bool,
    },
    Unknown {
        byte: u8,
        first: bool,
        last: bool,
    },
    ForeignMalformed(Malformed),
    MessageFieldHigh,
    MessageLenHigh,
    EnquiryLen(u8),
    /// Taken away in time at age 40, for each sort of age.
    EndsAt40(Sort),
    /// The only age that reached 41, in a list kept until then.
    LateBy(Sort),
    /// A reply RID reached 41 though a later CID came meanwhile.
    LateInSpiteOfLaterCid,
    /// A failed send of a reply RID or AMR of some age.
    FailedOld(Sort),
    /// A frame reached 41 in the inbox of a node in this state.
    LateInbox(State),
    /// A full inbox of a node in this state gave refusal 5.
    FullInbox(State),
    /// The sender's own inbox was full and the frame left.
    OwnInboxFull,
    /// A duplicate report left, and it joined the inbox of another node, or there was none.
    Report {
        joins: bool,
    },
    EndKept,
    EndLate,
    LateThenStopped,
    /// A send refused one tick before the reserving RID is due.
    OneTickEarly,
    AllOn,
    ForeignWithAllOff,
    EqualFirstAliases,
    EqualTestedAliases,
    /// A foreign frame's kind and length, and its field's edge with type and bit 28.
    Foreign {
        kind: u8,
        len: u8,
    },
    Field {
        field: u16,
        message: bool,
        bit_28: bool,
    },
}

#[derive(Clone, Copy, Debug, PartialEq, Eq, PartialOrd, Ord)]
pub enum Malformed {
    Kind,
    Len,
    RemoteLen,
    Header29,
    RemoteHeader29,
    Header11,
}

impl Malformed {
    pub const ALL: [Malformed; 6] = [
        Malformed::Kind,
        Malformed::Len,
        Malformed::RemoteLen,
        Malformed::Header29,
        Malformed::RemoteHeader29,
        Malformed::Header11,
    ];
}

/// The sorts of ages.
#[derive(Clone, Copy, Debug, PartialEq, Eq, PartialOrd, Ord)]
pub enum Sort {
    Extended,
    Remote,
    ElevenBit,
    Reply,
    Amr,
}

pub(crate) const SORTS: [Sort; 5] =
    [Sort::Extended, Sort::Remote, Sort::ElevenBit, Sort::Reply, Sort::Amr];

/// Every answer that each command can give.
const ANSWERS: [(u8, &[u8]); 10] = [
    (1, &[0, 1, 3, 15]),
    (2, &[0, 1, 2, 4, 5]),
    (3, &[0, 1, 2, 4]),
    (4, &[0, 1, 2, 6]),
    (5, &[0]),
    (6, &[0, 5, 9]),
    (7, &[0, 1, 2, 7, 8, 9]),
    (8, &[0, 1, 2, 7, 8, 9]),
    (9, &[0, 1, 2, 7]),
    (10, &[0, 1, 3, 15, 18]),
];

/// Every pair of refusals of a command whose conditions can hold at once. 7 and 8 cannot:
/// a host frame waits only in Permitted. Nor can 3 and 15: no node has a Node ID that 3 refuses. Nor
/// can 2 and 4 to 8 be told from 2 alone.
const ORDERS: [(u8, u8, u8); 18] = [
    (1, 1, 3),
    (1, 1, 15),
    (2, 2, 5),
    (2, 4, 5),
    (6, 9, 5),
    (7, 1, 9),
    (7, 2, 9),
    (7, 9, 7),
    (7, 9, 8),
    (8, 1, 9),
    (8, 2, 9),
    (8, 9, 7),
    (8, 9, 8),
    (10, 1, 3),
    (10, 1, 15),
    (10, 1, 18),
    (10, 3, 18),
    (10, 15, 18),
];

/// The edges of the field's ranges.
pub const FIELD_EDGES: [u16; 22] = [
    0x0000, 0x0001, 0x06FF, 0x0700, 0x0701, 0x0702, 0x0703, 0x0704, 0x070F, 0x0710, 0x0711, 0x0712,
    0x0713, 0x0714, 0x0FFF, 0x1000, 0x1FFF, 0x2000, 0x3FFF, 0x4000, 0x7000, 0x7FFF,
];

pub const UNKNOWN: [u8; 6] = [0x00, 0x0B, 0x0C, 0x10, 0x81, 0xFF];

impl Mark {
    /// All that a corpus must meet.
    pub fn all() -> Vec<Mark> {
        let mut marks = Mark::single();
        for (byte, refusals) in ANSWERS {
            marks.extend(refusals.iter().map(|&refusal| Mark::Answer(byte, refusal)));
        }
        marks.extend(ORDERS.map(|(byte, first, second)| Mark::Order(byte, first, second)));
        for (byte, count) in (1..).zip(OPERANDS) {
            for first in [true, false] {
                let cut = |operands| Mark::Cut { byte, operands, first };
                marks.extend((0..count).map(cut));
            }
        }
        for (first, last) in [(true, true), (true, false), (false, true), (false, false)] {
            marks.extend(UNKNOWN.map(|byte| Mark::Unknown { byte, first, last }));
        }
        marks
            .extend((0..=9).chain([255]).filter(|len| ![0, 6].contains(len)).map(Mark::EnquiryLen));
        marks.extend(SORTS.map(Mark::EndsAt40));
        marks.extend(SORTS.map(Mark::LateBy));
        marks.extend(State::ON.map(Mark::LateInbox));
        marks.extend(State::ON.map(Mark::FullInbox));
        marks.extend(Mark::foreign());
        marks
    }

    fn single() -> Vec<Mark> {
        vec![
            Mark::MessageFieldHigh,
            Mark::MessageLenHigh,
            Mark::LateInSpiteOfLaterCid,
            Mark::FailedOld(Sort::Reply),
            Mark::FailedOld(Sort::Amr),
            Mark::OwnInboxFull,
            Mark::Report { joins: false },
            Mark::Report { joins: true },
            Mark::EndKept,
            Mark::EndLate,
            Mark::LateThenStopped,
            Mark::OneTickEarly,
            Mark::AllOn,
            Mark::ForeignWithAllOff,
            Mark::EqualFirstAliases,
            Mark::EqualTestedAliases,
        ]
    }

    fn foreign() -> Vec<Mark> {
        let mut marks = vec![Mark::Foreign { kind: REMOTE, len: 0 }];
        for kind in [EXTENDED, ELEVEN_BIT] {
            marks.extend((0..=8).map(|len| Mark::Foreign { kind, len }));
        }
        for message in [false, true] {
            for bit_28 in [false, true] {
                marks.extend(FIELD_EDGES.map(|field| Mark::Field { field, message, bit_28 }));
            }
        }
        marks.extend(Malformed::ALL.map(Mark::ForeignMalformed));
        marks
    }
}

/// Counts of marks, with what must be remembered from one command to the next.
#[derive(Clone, Default)]
pub struct Marks {
    pub counts: BTreeMap<Mark, u64>,
    /// Places whose waiting reply RID a later CID has met.
    met_again: u32,
    was_late: bool,
    /// What counts if the command is accepted.
    if_accepted: Vec<Mark>,
    /// The refusals whose condition held, in order.
    conditions: Vec<u8>,
}

impl Marks {
    pub fn met(&self, mark: &Mark) -> bool {
        self.counts.contains_key(mark)
    }

    fn count(&mut self, mark: Mark) {
        *self.counts.entry(mark).or_default() += 1;
    }

    /// A script's end by refusal 10 or 11; `rest` starts with the command.
    pub fn count_stop(&mut self, rest: &[u8], first: bool, late: bool, refusal: Refusal) {
        let byte = rest[0];
        if refusal == Refusal::UnknownCommand {
            self.count(Mark::Unknown { byte, first, last: rest.len() == 1 });
        } else {
            self.count(Mark::Cut { byte, operands: rest.len() - 1, first });
        }
        if late {
            self.count(Mark::LateThenStopped);
        }
    }

    /// A script's end; the next script starts afresh.
    pub fn count_end(&mut self, segment: &Segment) {
        self.count(if segment.is_late() { Mark::EndLate } else { Mark::EndKept });
        self.met_again = 0;
    }

    /// What the state before a command tells.
    pub fn count_before(&mut self, segment: &Segment, command: &Command) {
        self.if_accepted.clear();
        self.conditions = conditions(segment, command);
        self.was_late = segment.is_late();
        let Some(place) = index_of(command).filter(|&place| place < Segment::PLACES) else {
            return;
        };
        let owed = sort_owed(segment, place);
        let old = segment.owed_age(place) > Some(0);
        match (command, owed) {
            (Command::Deliver { .. }, _) => self.before_delivery(segment, place),
            (Command::Send { .. }, Some(sort)) => {
                self.met_again &= !(1 << place);
                if segment.owed_age(place) == Some(Segment::LATENESS) && !segment.is_late() {
                    self.if_accepted.push(Mark::EndsAt40(sort));
                }
            }
            (Command::FailedSend { .. }, Some(sort)) if old => {
                self.if_accepted.push(Mark::FailedOld(sort));
            }
            _ => {}
        }
        if matches!(command, Command::Send { .. }) && segment.inbox_len(place) == Inbox::ROOM {
            self.if_accepted.push(Mark::OwnInboxFull);
        }
    }

    fn before_delivery(&mut self, segment: &Segment, place: usize) {
        let Some((frame, age)) = segment.inbox(place).next() else { return };
        if age == Segment::LATENESS && !segment.is_late() {
            self.if_accepted.push(Mark::EndsAt40(sort_of_kind(frame.kind)));
        }
        let node = segment.node(place);
        let header = header::split(frame.header);
        let cid = matches!(header.kind(), Kind::Cid(..));
        let own = header.alias == node.alias() && frame.kind == EXTENDED;
        let again = node.owed() == Owed::Reply && segment.owed_age(place) > Some(0);
        if own && cid && again {
            self.met_again |= 1 << place;
        } else if own && !cid {
            self.met_again &= !(1 << place);
        }
    }

    /// What the answer and the state after a command tell.
    pub fn count_after(&mut self, segment: &Segment, command: &Command, answer: &Answer) {
        let Some(byte) = command.byte() else { return };
        match answer {
            Ok(_) => {
                self.count(Mark::Answer(byte, 0));
                for mark in std::mem::take(&mut self.if_accepted) {
                    self.count(mark);
                }
                self.after_accepted(segment, command);
            }
            Err(refusal) => {
                let number = refusal.number();
                self.count(Mark::Answer(byte, number));
                for later in std::mem::take(&mut self.conditions).into_iter().skip(1) {
                    self.count(Mark::Order(byte, number, later));
                }
                self.after_refused(segment, command, *refusal);
            }
        }
    }

    fn after_accepted(&mut self, segment: &Segment, command: &Command) {
        match *command {
            Command::Tick if segment.is_late() && !self.was_late => self.turned_late(segment),
            Command::PowerOn { index, .. } | Command::WarmOn { index, .. } => {
                self.after_power_on(segment, usize::from(index));
            }
            // Only the duplicate report makes its sender Silent.
            Command::Send { index } => {
                let sender = usize::from(index);
                let mut others = (0..Segment::PLACES).filter(|&place| place != sender);
                if segment.node(sender).state() == State::Silent {
                    let joins = others.any(|place| !segment.node(place).is_off());
                    self.count(Mark::Report { joins });
                }
            }
            Command::Deliver { index } => {
                let alias = segment.node(usize::from(index)).tested_alias();
                let same = (0..Segment::PLACES)
                    .filter(|&place| segment.node(place).tested_alias() == alias);
                if alias.is_some() && same.count() > 1 {
                    self.count(Mark::EqualTestedAliases);
                }
            }
            Command::Foreign { frame } => {
                self.count(Mark::Foreign { kind: frame.kind, len: frame.len });
                if frame.kind == EXTENDED {
                    let Header { bit_28, message, field, .. } = header::split(frame.header);
                    self.count(Mark::Field { field, message, bit_28 });
                }
                if (0..Segment::PLACES).all(|place| segment.node(place).is_off()) {
                    self.count(Mark::ForeignWithAllOff);
                }
            }
            _ => {}
        }
    }

    fn after_power_on(&mut self, segment: &Segment, index: usize) {
        self.met_again &= !(1 << index);
        let node = segment.node(index);
        let is_first = node.read_out().is_ok_and(|read| !read.past);
        let mut others = 0;
        for place in (0..Segment::PLACES).filter(|&place| place != index) {
            let other = segment.node(place);
            others += usize::from(!other.is_off());
            if is_first && other.tested_alias() == node.tested_alias() {
                self.count(Mark::EqualFirstAliases);
            }
        }
        if others == Segment::PLACES - 1 {
            self.count(Mark::AllOn);
        }
    }

    /// The tick that made the list late: which ages reached 41.
    fn turned_late(&mut self, segment: &Segment) {
        let limit = Segment::LATENESS + 1;
        let mut sorts = Vec::new();
        for place in 0..Segment::PLACES {
            for (frame, _) in segment.inbox(place).filter(|&(_, age)| age == limit) {
                sorts.push(sort_of_kind(frame.kind));
                self.count(Mark::LateInbox(segment.node(place).state()));
            }
            if segment.owed_age(place) == Some(limit) {
                sorts.extend(sort_owed(segment, place));
                if self.met_again & 1 << place != 0 {
                    self.count(Mark::LateInSpiteOfLaterCid);
                }
            }
        }
        if sorts.iter().all(|&sort| sort == sorts[0]) {
            self.count(Mark::LateBy(sorts[0]));
        }
    }

    fn after_refused(&mut self, segment: &Segment, command: &Command, refusal: Refusal) {
        let malformed = refusal == Refusal::Malformed;
        match *command {
            Command::Foreign { frame } if malformed => {
                self.count(Mark::ForeignMalformed(why_malformed(&frame)));
            }
            Command::Message { field, .. } if malformed && field > FIELD_MAX => {
                self.count(Mark::MessageFieldHigh);
            }
            Command::Message { .. } if malformed => self.count(Mark::MessageLenHigh),
            Command::Send { index } if refusal == Refusal::NothingDue => {
                let phase = segment.node(usize::from(index)).phase();
                if phase == Phase::Wait(Node::WAIT - 1) {
                    self.count(Mark::OneTickEarly);
                }
            }
            Command::Enquiry { len, .. } if malformed => self.count(Mark::EnquiryLen(len)),
            _ if refusal == Refusal::InboxFull => {
                for place in full_inboxes(segment, command) {
                    self.count(Mark::FullInbox(segment.node(place).state()));
                }
            }
            _ => {}
        }
    }
}

/// The places whose full inbox stands against a send or a foreign frame.
pub(crate) fn full_inboxes(segment: &Segment, command: &Command) -> Vec<usize> {
    let sender = index_of(command);
    let full = |&place: &usize| segment.inbox_len(place) == Inbox::ROOM && Some(place) != sender;
    (0..Segment::PLACES).filter(full).collect()
}

/// The refusals of a command whose conditions hold now, in the documents' order.
fn conditions(segment: &Segment, command: &Command) -> Vec<u8> {
    let full = !full_inboxes(segment, command).is_empty();
    let place = index_of(command).filter(|&place| place < Segment::PLACES);
    let node = place.map(|place| segment.node(place));
    let one = index_of(command).is_some() && place.is_none();
    let two = node.is_some_and(|node| node.is_off());
    let seven = node.is_some_and(|node| !node.is_off() && node.state() != State::Permitted);
    let eight = node.is_some_and(|node| node.waiting().host.is_some());
    let four = node.is_some_and(|node| !node.is_off() && node.due().is_none());
    let id = power_on_of(command).map(|(_, id)| id);
    let three = id == Some(0);
    let holds = |id| segment.holders(id).any(|holder| Some(holder) != place);
    let fifteen = id.is_some_and(holds);
    let held: Vec<(u8, bool)> = match *command {
        Command::PowerOn { .. } => vec![(1, one), (3, three), (15, fifteen)],
        Command::WarmOn { flag, .. } => {
            vec![(1, one), (3, three), (15, fifteen), (18, flag > 1)]
        }
        Command::Send { .. } => vec![(1, one), (2, two), (4, four), (5, full)],
        Command::Foreign { frame } => vec![(9, !frame.well_formed()), (5, full)],
        Command::Message { field, len, .. } => {
            let nine = field > FIELD_MAX || len > 8;
            vec![(1, one), (2, two), (9, nine), (7, seven), (8, eight)]
        }
        Command::Enquiry { len, .. } => {
            let nine = len != 0 && len != 6;
            vec![(1, one), (2, two), (9, nine), (7, seven), (8, eight)]
        }
        _ => vec![],
    };
    held.into_iter().filter(|&(_, holds)| holds).map(|(number, _)| number).collect()
}

/// Which of the conditions of 9 a malformed frame meets.
pub fn why_malformed(frame: &Frame) -> Malformed {
    match frame.kind {
        3.. => Malformed::Kind,
        _ if frame.len > 8 => Malformed::Len,
        REMOTE if frame.len > 0 => Malformed::RemoteLen,
        REMOTE => Malformed::RemoteHeader29,
        ELEVEN_BIT => Malformed::Header11,
        _ => Malformed::Header29,
    }
}

pub(crate) fn sort_of_kind(kind: u8) -> Sort {
    match kind {
        EXTENDED => Sort::Extended,
        REMOTE => Sort::Remote,
        _ => Sort::ElevenBit,
    }
}

pub(crate) fn sort_owed(segment: &Segment, place: usize) -> Option<Sort> {
    match segment.node(place).owed() {
        Owed::Nothing => None,
        Owed::Reply => Some(Sort::Reply),
        Owed::Amr => Some(Sort::Amr),
    }
}
