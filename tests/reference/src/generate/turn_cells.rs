//! Turn cells: what lists with choices must meet besides each state's part in a choice (A.8). Every
//! mark with every node that is named, and with nobody; what comes between two choices; and nodes
//! that are due at 24 choices of which the last alone names them.

use std::collections::{BTreeMap, BTreeSet};

use crate::command::{Answer, Command, Given};
use crate::generate::coverage::index_of;
use crate::node::{Node, Phase};
use crate::refusal::Refusal;
use crate::segment::Segment;
use crate::turns::Turns;

#[derive(Clone, Copy, Debug, PartialEq, Eq, PartialOrd, Ord)]
pub enum TurnCell {
    /// A choice with this mark named this place.
    Named { mark: usize, place: usize },
    /// A choice with this mark named nobody.
    Nobody { mark: usize },
    /// The marked node was due, and another was named.
    MarkedIsLast,
    /// This came between two choices that each named a node.
    Between(Act),
    /// This place was due at 24 choices in a row, and the last alone named it; with other commands
    /// between any two of them, or at least two with none between.
    NamedLast { amid: bool, place: usize },
}

/// A command between two choices. At the marked node, which the first of them named, unless it says
/// otherwise.
#[derive(Clone, Copy, Debug, PartialEq, Eq, PartialOrd, Ord)]
pub enum Act {
    Sent,
    SendRefusedBy5,
    Failed {
        restarts: bool,
    },
    Delivered {
        restarts: bool,
    },
    PoweredOn,
    PowerOnRefused,
    AnotherPoweredOn,
    /// The same three by 0A.
    WarmedOn,
    WarmOnRefused,
    AnotherWarmedOn,
    ReadOut,
    Message,
    Enquiry,
    Release,
    Link,
    Tick,
    Foreign,
    /// A choice that names nobody.
    Nobody,
}

const ACTS: [Act; 20] = [
    Act::Sent,
    Act::SendRefusedBy5,
    Act::Failed { restarts: false },
    Act::Failed { restarts: true },
    Act::Delivered { restarts: false },
    Act::Delivered { restarts: true },
    Act::PoweredOn,
    Act::PowerOnRefused,
    Act::AnotherPoweredOn,
    Act::WarmedOn,
    Act::WarmOnRefused,
    Act::AnotherWarmedOn,
    Act::ReadOut,
    Act::Message,
    Act::Enquiry,
    Act::Release,
    Act::Link,
    Act::Tick,
    Act::Foreign,
    Act::Nobody,
];

impl TurnCell {
    pub fn all() -> Vec<TurnCell> {
        let mut cells = vec![TurnCell::MarkedIsLast];
        for mark in 0..Segment::PLACES {
            cells.push(TurnCell::Nobody { mark });
            cells.extend((0..Segment::PLACES).map(|place| TurnCell::Named { mark, place }));
        }
        cells.extend(ACTS.map(TurnCell::Between));
        for amid in [false, true] {
            cells.extend((0..Segment::PLACES).map(|place| TurnCell::NamedLast { amid, place }));
        }
        cells.sort();
        cells
    }
}

/// What a command did at the marked node, as it was before and is after; none where it is no act.
fn act(
    marked: usize,
    before: Option<&Node>,
    segment: &Segment,
    command: &Command,
    answer: &Answer,
) -> Option<Act> {
    let (after, at_marked) = (segment.node(marked), index_of(command) == Some(marked));
    let restarts = after.phase() == Phase::Check(7) && before != Some(after);
    Some(match (command, answer) {
        (Command::Choose, Ok(Given::Chosen(None))) => Act::Nobody,
        (Command::Tick, _) => Act::Tick,
        (Command::Foreign { .. }, Ok(_)) => Act::Foreign,
        (Command::PowerOn { .. }, Ok(_)) if !at_marked => Act::AnotherPoweredOn,
        (Command::WarmOn { .. }, Ok(_)) if !at_marked => Act::AnotherWarmedOn,
        _ if !at_marked => return None,
        (Command::Send { .. }, Ok(_)) => Act::Sent,
        (Command::Send { .. }, Err(Refusal::InboxFull)) => Act::SendRefusedBy5,
        (Command::PowerOn { .. }, Err(_)) => Act::PowerOnRefused,
        (Command::WarmOn { .. }, Err(_)) => Act::WarmOnRefused,
        (_, Err(_)) => return None,
        (Command::PowerOn { .. }, _) => Act::PoweredOn,
        (Command::WarmOn { .. }, _) => Act::WarmedOn,
        (Command::ReadOut { .. }, _) => Act::ReadOut,
        (Command::FailedSend { .. }, _) => Act::Failed { restarts },
        (Command::Deliver { .. }, _) => Act::Delivered { restarts },
        (Command::Message { .. }, _) => Act::Message,
        (Command::Enquiry { .. }, _) => Act::Enquiry,
        (Command::Release { .. }, _) => Act::Release,
        (Command::Link { .. }, _) => Act::Link,
        _ => return None,
    })
}

/// Counts of cells, with what must be remembered from one command to the next.
#[derive(Clone, Default)]
pub struct TurnCells {
    pub counts: BTreeMap<TurnCell, u64>,
    turns: Turns,
    /// What came since the last choice that named a node, if there was one.
    since: Option<BTreeSet<Act>>,
    /// Whether a command came since the last choice, and how many choices in a row had one before
    /// them.
    interrupted: bool,
    amid: usize,
}

impl TurnCells {
    pub fn met(&self, cell: &TurnCell) -> bool {
        self.counts.contains_key(cell)
    }

    fn add(&mut self, cell: TurnCell) {
        *self.counts.entry(cell).or_default() += 1;
    }

    /// A list's end; the next one starts afresh.
    pub fn count_end(&mut self) {
        *self = TurnCells { counts: std::mem::take(&mut self.counts), ..TurnCells::default() };
    }

    /// What a command was that met a node, if it met one, with the mark and what was due before it,
    /// and that left the segment so.
    pub fn count(
        &mut self,
        (mark, due): (usize, [bool; Segment::PLACES]),
        before: Option<&Node>,
        segment: &Segment,
        command: &Command,
        answer: &Answer,
    ) {
        if let Some(acts) = &mut self.since {
            acts.extend(act(mark, before, segment, command, answer));
        }
        if let Ok(Given::Chosen(named)) = *answer {
            self.choice(mark, due, named);
        } else {
            self.interrupted = true;
        }
    }

    fn choice(&mut self, mark: usize, due: [bool; Segment::PLACES], named: Option<usize>) {
        self.amid = if self.interrupted { self.amid + 1 } else { 0 };
        self.interrupted = false;
        match named {
            Some(place) => self.named(mark, due, place),
            None => self.add(TurnCell::Nobody { mark }),
        }
        self.turns.see(due, named);
    }

    fn named(&mut self, mark: usize, due: [bool; Segment::PLACES], place: usize) {
        self.add(TurnCell::Named { mark, place });
        if due[mark] && place != mark {
            self.add(TurnCell::MarkedIsLast);
        }
        let last = Segment::PLACES - 1;
        if self.turns.passed(place) == last {
            self.add(TurnCell::NamedLast { amid: self.amid >= last, place });
        }
        for act in self.since.replace(BTreeSet::new()).unwrap_or_default() {
            self.add(TurnCell::Between(act));
        }
    }
}
