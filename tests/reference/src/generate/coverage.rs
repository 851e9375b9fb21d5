//! Coverage: every state of a node against every event, counted over scripts and lists.
//!
//! A cell counts only when the script's output shows what the event did: the node sends
//! afterwards, and nothing else has changed it in between.

use std::collections::{BTreeMap, BTreeSet};

use crate::command::{Answer, Command, Given};
use crate::frame::Frame;
use crate::generate::cases::Case;
use crate::generate::id_marks::{IdMark, IdMarks};
use crate::generate::link_marks::{LinkMark, LinkMarks};
use crate::generate::marks::{Mark, Marks};
use crate::generate::turn_cells::{TurnCell, TurnCells};
use crate::generate::warm_marks::{WarmMark, WarmMarks};
use crate::header;
use crate::link::Link;
use crate::node::{Node, Phase, State};
use crate::segment::Segment;
use crate::warm::ReadOut;

/// A node's state as far as it decides what an event does.
#[derive(Clone, Copy, Debug, PartialEq, Eq, PartialOrd, Ord)]
pub enum Row {
    Off,
    Check(u8),
    Wait,
    Reserve,
    Reserved { reply: bool },
    Permitted { reply: bool, amd: bool, report: bool, error: bool, host: bool },
    Leaving { released: bool },
    Resting,
    Silent,
}

impl Row {
    pub fn of(node: &Node) -> Row {
        let waiting = node.waiting();
        match node.phase() {
            Phase::Off => Row::Off,
            Phase::Check(number) => Row::Check(number),
            Phase::Wait(_) => Row::Wait,
            Phase::Reserve => Row::Reserve,
            Phase::Reserved => Row::Reserved { reply: waiting.reply },
            Phase::Permitted => Row::Permitted {
                reply: waiting.reply,
                amd: waiting.amd,
                report: waiting.report,
                error: waiting.error.is_some(),
                host: waiting.host.is_some(),
            },
            Phase::Leaving { released } => Row::Leaving { released },
            Phase::Resting => Row::Resting,
            Phase::Silent => Row::Silent,
        }
    }

    pub fn all() -> Vec<Row> {
        let mut rows = vec![Row::Off, Row::Wait, Row::Reserve, Row::Resting, Row::Silent];
        rows.extend((4..=7).map(Row::Check));
        rows.extend([false, true].map(|reply| Row::Reserved { reply }));
        rows.extend([false, true].map(|released| Row::Leaving { released }));
        rows.extend((0..32).map(|bits| Row::Permitted {
            reply: bits & 1 != 0,
            amd: bits & 2 != 0,
            report: bits & 4 != 0,
            error: bits & 8 != 0,
            host: bits & 16 != 0,
        }));
        rows.sort();
        rows
    }

    pub fn has_due(self) -> bool {
        match self {
            Row::Check(_) | Row::Reserve | Row::Reserved { .. } | Row::Leaving { .. } => true,
            Row::Permitted { reply, amd, report, error, host } => {
                reply || amd || report || error || host
            }
            Row::Off | Row::Wait | Row::Resting | Row::Silent => false,
        }
    }
}

/// What happens to a node.
#[derive(Clone, Copy, Debug, PartialEq, Eq, PartialOrd, Ord)]
pub enum Event {
    /// A command at its index, by the command's byte, with its refusal or 0. A tick too.
    Answer(u8, u8),
    /// An enquiry that is accepted, for all or for a Node ID.
    EnquiryTaken {
        all: bool,
    },
    /// A power-on by 0A that is accepted, with flag 1 or 0.
    WarmOnTaken {
        warm: bool,
    },
    /// A frame of this case is delivered.
    Deliver(Case),
    /// The same with this bit 28: own alias and CID, own alias and other, AME or AMD to heed.
    DeliverBit28 {
        heed: Heed,
        bit_28: bool,
    },
    /// An AME or AMD to heed that has alias 0.
    DeliverAliasZero(Heed),
    /// Another node's frame, or a foreign one, joins its inbox, or passes by if it is Off.
    BusFrame,
    ForeignFrame,
    /// The node is told this link state after that one.
    Link {
        was: Link,
        is: Link,
    },
    /// A link order at its index is refused.
    LinkRefused(u8),
    /// A choice is made.
    Choice(Look),
    /// The node is read out, its first alias past or not.
    ReadOut {
        past: bool,
    },
    /// A read-out at its index is refused.
    ReadOutRefused(u8),
}

/// What a choice does at a node: names it, goes on since it has no due frame, or ends before it.
#[derive(Clone, Copy, Debug, PartialEq, Eq, PartialOrd, Ord)]
pub enum Look {
    Named,
    PassedOver,
    NotReached,
}

impl Look {
    pub const ALL: [Look; 3] = [Look::Named, Look::PassedOver, Look::NotReached];

    /// At the node of a place, by a choice with this mark that names that one, or nobody.
    fn at(place: usize, mark: usize, named: Option<usize>) -> Look {
        let turn = |place: usize| (place + Segment::PLACES - mark - 1) % Segment::PLACES;
        match named {
            Some(named) if named == place => Look::Named,
            Some(named) if turn(named) < turn(place) => Look::NotReached,
            _ => Look::PassedOver,
        }
    }
}

#[derive(Clone, Copy, Debug, PartialEq, Eq, PartialOrd, Ord)]
pub enum Heed {
    OwnCid,
    OwnOther,
    Ame,
    Amd,
}

/// Each refusal that a command at an index can give; 0 is accepted. 1 is no node's.
pub const ANSWERS: [(u8, &[u8]); 9] = [
    (1, &[0, 3, 15]),
    (2, &[0, 2, 4, 5]),
    (3, &[0, 2, 4]),
    (4, &[2, 6]),
    (5, &[0]),
    (7, &[0, 2, 7, 8, 9]),
    (8, &[2, 7, 8, 9]),
    (9, &[0, 2, 7]),
    (10, &[3, 15, 18]),
];

impl Event {
    pub fn all() -> Vec<Event> {
        let mut events = vec![Event::BusFrame, Event::ForeignFrame];
        for (byte, refusals) in ANSWERS {
            events.extend(refusals.iter().map(|&refusal| Event::Answer(byte, refusal)));
        }
        events.extend([true, false].map(|all| Event::EnquiryTaken { all }));
        events.extend([true, false].map(|warm| Event::WarmOnTaken { warm }));
        events.extend(Case::ALL.map(Event::Deliver));
        let heeds = [Heed::OwnCid, Heed::OwnOther, Heed::Ame, Heed::Amd];
        for bit_28 in [false, true] {
            events.extend(heeds.map(|heed| Event::DeliverBit28 { heed, bit_28 }));
        }
        events.extend([Heed::Ame, Heed::Amd].map(Event::DeliverAliasZero));
        for was in Link::ALL {
            events.extend(Link::ALL.map(|is| Event::Link { was, is }));
        }
        events.extend([2, 14].map(Event::LinkRefused));
        events.extend(Look::ALL.map(Event::Choice));
        events.extend([false, true].map(|past| Event::ReadOut { past }));
        events.push(Event::ReadOutRefused(2));
        events.sort();
        events
    }

    /// All events that one delivered frame is.
    pub fn of_delivery(frame: &Frame, node: &Node) -> Vec<Event> {
        let case = Case::of(frame, node);
        let mut events = vec![Event::Deliver(case)];
        let Some(heed) = Heed::of(case) else { return events };
        let header = header::split(frame.header);
        events.push(Event::DeliverBit28 { heed, bit_28: header.bit_28 });
        if header.alias.0 == 0 && matches!(heed, Heed::Ame | Heed::Amd) {
            events.push(Event::DeliverAliasZero(heed));
        }
        events
    }
}

impl Heed {
    pub fn of(case: Case) -> Option<Heed> {
        match case {
            Case::OwnCid | Case::OwnCid3To1 | Case::OwnCidWithData => Some(Heed::OwnCid),
            Case::AmeEmpty | Case::AmeOwnId => Some(Heed::Ame),
            Case::AmdOwnId => Some(Heed::Amd),
            _ if case >= Case::OwnRid && case <= Case::OwnMessageHigh => Some(Heed::OwnOther),
            _ => None,
        }
    }
}

/// Why a cell cannot be reached, or none if it can.
pub fn impossible(row: Row, event: Event) -> Option<&'static str> {
    let reason = |holds: bool, why: &'static str| holds.then_some(why);
    let permitted = matches!(row, Row::Permitted { .. });
    let host = matches!(row, Row::Permitted { host: true, .. });
    match (row, event) {
        (_, Event::BusFrame | Event::ForeignFrame | Event::Answer(5, 0)) => None,
        (_, Event::Answer(1 | 10, _) | Event::WarmOnTaken { .. }) => None,
        (_, Event::Choice(Look::NotReached)) => None,
        (_, Event::Choice(Look::Named)) => {
            reason(!row.has_due(), "a choice names no node without a due frame")
        }
        (_, Event::Choice(Look::PassedOver)) => {
            reason(row.has_due(), "a choice passes over no node with a due frame")
        }
        (Row::Off, Event::Answer(_, 2) | Event::LinkRefused(2) | Event::ReadOutRefused(2)) => None,
        (Row::Off, _) => Some("Off answers every command but power-on and tick by 2"),
        (_, Event::Answer(_, 2) | Event::LinkRefused(2) | Event::ReadOutRefused(2)) => {
            Some("2 is Off's alone, and no node turns Off")
        }
        (_, Event::Answer(2 | 3, 4)) => reason(row.has_due(), "a frame is due, so not 4"),
        (_, Event::Answer(2 | 3, _)) => reason(!row.has_due(), "nothing is due: 4 comes first"),
        (_, Event::Answer(7 | 8, 7)) => reason(permitted, "Permitted is not refused by 7"),
        (_, Event::Answer(7 | 8, 8)) => reason(!host, "no host frame waits"),
        (_, Event::Answer(7, 0) | Event::EnquiryTaken { .. }) => {
            reason(!permitted || host, "host frames are taken in Permitted, one at a time")
        }
        (_, Event::Answer(9, 7)) => reason(permitted, "Permitted is not refused by 7"),
        (_, Event::Answer(9, _)) => reason(!permitted, "only Permitted can be released"),
        _ => None,
    }
}

/// Whether a script may reach a cell: it has no choice, no read-out and no link order, and so no error
/// report waits in it.
pub fn in_scripts(row: Row, event: Event) -> bool {
    let no_byte = match event {
        Event::Link { .. } | Event::LinkRefused(_) | Event::Choice(_) => true,
        Event::ReadOut { .. } | Event::ReadOutRefused(_) => true,
        _ => false,
    };
    !no_byte && !matches!(row, Row::Permitted { error: true, .. })
}

/// The cells that can be reached.
pub fn reachable() -> impl Iterator<Item = (Row, Event)> {
    let rows = Row::all().into_iter();
    let cells = rows.flat_map(|row| Event::all().into_iter().map(move |event| (row, event)));
    cells.filter(|&(row, event)| impossible(row, event).is_none())
}

/// How often each cell was shown and each mark was met.
#[derive(Clone, Default)]
pub struct Coverage {
    pub cells: BTreeMap<(Row, Event), u64>,
    pub marks: Marks,
    pub links: LinkMarks,
    /// Those of power-ons by 01, and of those by 0A.
    pub ids: IdMarks,
    pub warm_ids: IdMarks,
    pub warm: WarmMarks,
    pub turns: TurnCells,
    /// How often each cell was met, shown or not.
    pub met: BTreeMap<(Row, Event), u64>,
    /// For each place, the cells that its next sends will show.
    pending: [BTreeSet<(Row, Event)>; Segment::PLACES],
}

/// What a command meets, taken before it is carried out.
struct Before {
    rows: [Row; Segment::PLACES],
    mark: usize,
    node: Option<Node>,
    front: Option<Frame>,
}

impl Before {
    fn of(segment: &Segment, command: &Command) -> Before {
        let place = index_of(command).filter(|&place| place < Segment::PLACES);
        Before {
            rows: std::array::from_fn(|place| Row::of(segment.node(place))),
            mark: segment.mark(),
            node: place.map(|place| *segment.node(place)),
            front: place.and_then(|place| segment.inbox(place).next()).map(|(frame, _)| *frame),
        }
    }
}

/// The index that a command names.
pub fn index_of(command: &Command) -> Option<usize> {
    match *command {
        Command::PowerOn { index, .. }
        | Command::Send { index }
        | Command::FailedSend { index }
        | Command::Deliver { index }
        | Command::Message { index, .. }
        | Command::Enquiry { index, .. }
        | Command::Release { index }
        | Command::Link { index, .. }
        | Command::WarmOn { index, .. }
        | Command::ReadOut { index } => Some(usize::from(index)),
        Command::Tick | Command::Foreign { .. } | Command::Choose => None,
    }
}

/// The index and the Node ID of a power-on, by 01 or by 0A.
pub fn power_on_of(command: &Command) -> Option<(usize, u64)> {
    match *command {
        Command::PowerOn { index, id } | Command::WarmOn { index, id, .. } => {
            Some((index.into(), id))
        }
        _ => None,
    }
}

impl Coverage {
    pub fn new() -> Coverage {
        Coverage::default()
    }

    /// Counts a whole script, read as the program reads it.
    pub fn count_script(&mut self, script: &[u8]) {
        let mut segment = Segment::new();
        let mut rest = script;
        while !rest.is_empty() {
            match Command::read(rest) {
                Ok((command, after)) => {
                    rest = after;
                    let _ = self.carry_out(&mut segment, &command);
                }
                Err(refusal) => {
                    let first = rest.len() == script.len();
                    self.marks.count_stop(rest, first, segment.is_late(), refusal);
                    rest = &[];
                }
            }
        }
        self.end_script(&segment);
    }

    /// Counts a whole list.
    pub fn count_list(&mut self, list: &[Command]) {
        let mut segment = Segment::new();
        for command in list {
            let _ = self.carry_out(&mut segment, command);
        }
        self.end_script(&segment);
    }

    /// After the last command of a script or list: what was not shown is lost.
    pub fn end_script(&mut self, segment: &Segment) {
        self.marks.count_end(segment);
        self.links.count_end();
        self.ids.count_end();
        self.warm_ids.count_end();
        self.warm.count_end();
        self.turns.count_end();
        self.pending = Default::default();
    }

    /// Carries out a command and counts what it was.
    pub fn carry_out(&mut self, segment: &mut Segment, command: &Command) -> Answer {
        let before = Before::of(segment, command);
        self.marks.count_before(segment, command);
        let answer = segment.carry_out(command);
        self.marks.count_after(segment, command, &answer);
        self.links.count(before.node.as_ref(), segment, command, &answer);
        self.ids.count(1, before.node.as_ref(), segment, command, &answer);
        self.warm_ids.count(10, before.node.as_ref(), segment, command, &answer);
        self.warm.count(before.node.as_ref(), segment, command, &answer);
        let due = before.rows.map(Row::has_due);
        self.turns.count((before.mark, due), before.node.as_ref(), segment, command, &answer);
        let refusal = answer.as_ref().map_or_else(|refusal| refusal.number(), |_| 0);
        self.show_earlier(&before, segment, command, refusal);
        let events = match answer {
            Ok(Given::Chosen(named)) => looks(before.mark, named),
            _ => events(&before, command, refusal),
        };
        for (place, event) in events {
            self.meet(place, (before.rows[place], event));
        }
        answer
    }

    /// A send shows what went before at its node; any other change there hides it.
    fn show_earlier(&mut self, before: &Before, after: &Segment, command: &Command, refusal: u8) {
        let (Some(place), Some(node)) = (index_of(command), &before.node) else { return };
        let waits = matches!(node.phase(), Phase::Wait(_));
        match (command, refusal) {
            (Command::Send { .. }, 0) if node.state() == State::Testing => self.show(place),
            (Command::Send { .. }, 4) if !waits => self.show(place),
            (Command::Send { .. }, _) => {}
            _ if after.node(place) != node => self.pending[place].clear(),
            _ => {}
        }
    }

    /// Whether some node's next sends will show this cell.
    pub fn is_pending(&self, cell: &(Row, Event)) -> bool {
        self.pending.iter().any(|cells| cells.contains(cell))
    }

    /// Whether this node's next sends will show a cell that is missing.
    pub fn will_show(&self, place: usize) -> bool {
        self.pending[place].iter().any(|cell| !self.cells.contains_key(cell))
    }

    fn show(&mut self, place: usize) {
        for cell in std::mem::take(&mut self.pending[place]) {
            *self.cells.entry(cell).or_default() += 1;
        }
    }

    /// A cell shows itself at once, or waits for the node's next sends.
    fn meet(&mut self, place: usize, cell: (Row, Event)) {
        *self.met.entry(cell).or_default() += 1;
        let at_once = match cell {
            (_, Event::Answer(2, 4 | 5)) => true,
            (Row::Off, Event::Answer(1, 0) | Event::WarmOnTaken { .. }) => false,
            (Row::Off, _) => true,
            _ => false,
        };
        if at_once {
            *self.cells.entry(cell).or_default() += 1;
        } else {
            self.pending[place].insert(cell);
        }
    }

    /// The cells that scripts can reach and that were not shown.
    pub fn missing_cells(&self) -> Vec<(Row, Event)> {
        let missing = self.missing_in_lists().into_iter();
        missing.filter(|&(row, event)| in_scripts(row, event)).collect()
    }

    /// The cells that lists can reach and that were not shown.
    pub fn missing_in_lists(&self) -> Vec<(Row, Event)> {
        reachable().filter(|cell| !self.cells.contains_key(cell)).collect()
    }

    /// The cells that can be reached and were not even met.
    pub fn unmet_cells(&self) -> Vec<(Row, Event)> {
        reachable().filter(|cell| !self.met.contains_key(cell)).collect()
    }

    /// The cells that were met though they are called impossible, with the reason that is given for it.
    pub fn impossible_cells(&self) -> Vec<(Row, Event, &'static str)> {
        let cells = self.met.keys();
        cells.filter_map(|&(row, event)| Some((row, event, impossible(row, event)?))).collect()
    }

    /// The cells that were met though no row or no event of the table is theirs.
    pub fn unlisted_cells(&self) -> Vec<(Row, Event)> {
        let (rows, events) = (Row::all(), Event::all());
        let listed = |(row, event): &(Row, Event)| rows.contains(row) && events.contains(event);
        self.met.keys().filter(|cell| !listed(cell)).copied().collect()
    }

    pub fn missing_marks(&self) -> Vec<Mark> {
        Mark::all().into_iter().filter(|mark| !self.marks.met(mark)).collect()
    }

    /// Each with the byte of the power-ons that did not meet it.
    pub fn missing_id_marks(&self) -> Vec<(u8, IdMark)> {
        let missing = |byte, marks: &IdMarks| -> Vec<(u8, IdMark)> {
            let all = IdMark::all().into_iter();
            all.filter(|mark| !marks.met(mark)).map(|mark| (byte, mark)).collect()
        };
        [missing(1, &self.ids), missing(10, &self.warm_ids)].concat()
    }

    pub fn missing_warm_marks(&self) -> Vec<WarmMark> {
        WarmMark::all().into_iter().filter(|mark| !self.warm.met(mark)).collect()
    }

    /// Without those of read-outs, which no script can carry.
    pub fn missing_warm_marks_of_scripts(&self) -> Vec<WarmMark> {
        self.missing_warm_marks().into_iter().filter(WarmMark::in_scripts).collect()
    }

    pub fn missing_link_marks(&self) -> Vec<LinkMark> {
        LinkMark::all().into_iter().filter(|mark| !self.links.met(mark)).collect()
    }

    pub fn missing_turn_cells(&self) -> Vec<TurnCell> {
        TurnCell::all().into_iter().filter(|cell| !self.turns.met(cell)).collect()
    }
}

/// What a choice was, for each node.
fn looks(mark: usize, named: Option<usize>) -> Vec<(usize, Event)> {
    let look = |place| (place, Event::Choice(Look::at(place, mark, named)));
    (0..Segment::PLACES).map(look).collect()
}

/// What any other command was, for each node that it concerns.
fn events(before: &Before, command: &Command, refusal: u8) -> Vec<(usize, Event)> {
    let everywhere = |event| (0..Segment::PLACES).map(move |place| (place, event));
    let mut events = Vec::new();
    match (command, refusal) {
        (Command::Tick, _) => return everywhere(Event::Answer(5, 0)).collect(),
        (Command::Foreign { .. }, 0) => return everywhere(Event::ForeignFrame).collect(),
        (Command::Foreign { .. }, _) | (_, 1) => return events,
        _ => {}
    }
    let place = index_of(command).expect("all other commands name an index");
    let node = before.node.as_ref().expect("no index was refused by 1");
    match *command {
        Command::Deliver { .. } if refusal == 0 => {
            let frame = before.front.expect("a frame");
            events.extend(Event::of_delivery(&frame, node).into_iter().map(|e| (place, e)));
        }
        _ => events.push((place, event_at(node, command, refusal))),
    }
    if matches!(command, Command::Send { .. }) && refusal == 0 {
        events.extend(everywhere(Event::BusFrame).filter(|&(other, _)| other != place));
    }
    events
}

/// What a command that delivers nothing was for the node at its index, as that was before.
fn event_at(node: &Node, command: &Command, refusal: u8) -> Event {
    match *command {
        Command::Enquiry { len, .. } if refusal == 0 => Event::EnquiryTaken { all: len == 0 },
        Command::WarmOn { flag, .. } if refusal == 0 => Event::WarmOnTaken { warm: flag == 1 },
        Command::ReadOut { .. } => {
            let past = |read: ReadOut| Event::ReadOut { past: read.past };
            node.read_out().map_or(Event::ReadOutRefused(refusal), past)
        }
        Command::Link { state, .. } => {
            let link = |is| Event::Link { was: node.link_state(), is };
            let taken = Link::of(state).ok().filter(|_| refusal == 0);
            taken.map_or(Event::LinkRefused(refusal), link)
        }
        _ => Event::Answer(command.byte().expect("all others have one"), refusal),
    }
}
