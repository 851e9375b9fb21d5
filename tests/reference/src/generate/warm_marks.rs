//! Warm marks (A.9): what scripts and lists must meet besides the cells. Which flags and states 0A is
//! given, nodes that come back under the alias that they had, and read-outs by what went before.

use std::collections::BTreeMap;

use crate::alias::{self, Alias, MAX_48};
use crate::command::{Answer, Command};
use crate::generate::coverage::{index_of, power_on_of};
use crate::node::{Node, Phase, State};
use crate::segment::Segment;
use crate::warm::ReadOut;

#[derive(Clone, Copy, Debug, PartialEq, Eq, PartialOrd, Ord)]
pub enum WarmMark {
    /// 0A with this flag and such a state: accepted with flags 0 and 1, refused by 18 with others. All
    /// others above 1 are counted too, and not asked for.
    Given { flag: u8, state: Source },
    /// What would be read out of a node in this state is given back in its place.
    Back { state: State, past: bool },
    /// The same at another index, when the node's own has another Node ID.
    BackElsewhere { past: bool },
    /// A read-out with its refusal, 0 for accepted.
    ReadOut(u8),
    /// A node in this state is read out, after this.
    Read { state: State, since: Since },
    /// The state that is read is the Node ID though the first alias is past: by a step, or given so.
    ReadNodeIdPast { stepped: bool },
}

/// Where a state comes from that 0A is given.
#[derive(Clone, Copy, Debug, PartialEq, Eq, PartialOrd, Ord)]
pub enum Source {
    Zero,
    AllOnes,
    /// Another one whose four parts have exclusive-or 0.
    PartsCancel,
    NodeId,
    /// The generator of the node itself, or of another.
    Own,
    Another,
}

/// What last changed a node's generator.
#[derive(Clone, Copy, Debug, PartialEq, Eq, PartialOrd, Ord)]
pub enum Since {
    /// A power-on by 01, or by 0A with flag 0; perhaps the one before it was warm.
    First {
        by_0a: bool,
        after_warm: bool,
    },
    /// One by 0A with flag 1, of a node that was on, or Off.
    Warm {
        was_on: bool,
    },
    Restart(Cause),
}

/// What restarts a node: a failed send, a frame with its alias in Testing or in Reserved, or its AMR.
#[derive(Clone, Copy, Debug, PartialEq, Eq, PartialOrd, Ord)]
pub enum Cause {
    Failed,
    MetInTesting,
    MetInReserved,
    AmrLeft,
}

const FLAGS: [u8; 4] = [0, 1, 2, 255];

const SOURCES: [Source; 6] = [
    Source::Zero,
    Source::AllOnes,
    Source::PartsCancel,
    Source::NodeId,
    Source::Own,
    Source::Another,
];

impl Since {
    pub const ALL: [Since; 10] = [
        Since::First { by_0a: false, after_warm: false },
        Since::First { by_0a: false, after_warm: true },
        Since::First { by_0a: true, after_warm: false },
        Since::First { by_0a: true, after_warm: true },
        Since::Warm { was_on: false },
        Since::Warm { was_on: true },
        Since::Restart(Cause::Failed),
        Since::Restart(Cause::MetInTesting),
        Since::Restart(Cause::MetInReserved),
        Since::Restart(Cause::AmrLeft),
    ];
}

impl WarmMark {
    pub fn all() -> Vec<WarmMark> {
        let mut marks: Vec<WarmMark> = [0, 1, 2].map(WarmMark::ReadOut).into();
        for flag in FLAGS {
            marks.extend(SOURCES.map(|state| WarmMark::Given { flag, state }));
        }
        for past in [false, true] {
            marks.extend(State::ON.map(|state| WarmMark::Back { state, past }));
            marks.push(WarmMark::BackElsewhere { past });
        }
        for since in Since::ALL {
            marks.extend(State::ON.map(|state| WarmMark::Read { state, since }));
        }
        marks.extend([false, true].map(|stepped| WarmMark::ReadNodeIdPast { stepped }));
        marks.sort();
        marks
    }

    /// Whether a script can meet it: it has no read-out.
    pub fn in_scripts(&self) -> bool {
        use WarmMark::{Back, BackElsewhere, Given};
        matches!(self, Given { .. } | Back { .. } | BackElsewhere { .. })
    }
}

/// Counts of warm marks, with what must be remembered from one command to the next.
#[derive(Clone, Default)]
pub struct WarmMarks {
    pub counts: BTreeMap<WarmMark, u64>,
    /// What last changed each generator, and what was to be read out then. A power-on with operands
    /// that no command can carry is not seen here.
    since: [Option<(Since, ReadOut)>; Segment::PLACES],
    /// Whether the last power-on of a place was warm.
    was_warm: [bool; Segment::PLACES],
    /// What would have been read out of nodes whose Node ID gave way to another, and their index.
    gone: BTreeMap<u64, (usize, ReadOut)>,
}

impl WarmMarks {
    pub fn met(&self, mark: &WarmMark) -> bool {
        self.counts.contains_key(mark)
    }

    fn add(&mut self, mark: WarmMark) {
        *self.counts.entry(mark).or_default() += 1;
    }

    /// A list's end; the next one starts afresh.
    pub fn count_end(&mut self) {
        *self = WarmMarks { counts: std::mem::take(&mut self.counts), ..WarmMarks::default() };
    }

    /// What a command was that met a node, if it met one, and left the segment so.
    pub fn count(
        &mut self,
        before: Option<&Node>,
        segment: &Segment,
        command: &Command,
        answer: &Answer,
    ) {
        let refusal = answer.as_ref().map_or_else(|refusal| refusal.number(), |_| 0);
        if matches!(command, Command::ReadOut { .. }) {
            self.add(WarmMark::ReadOut(refusal));
        }
        let (Some(place), Some(before)) = (index_of(command), before) else { return };
        if matches!(refusal, 0 | 18) {
            self.count_given(before, segment, command);
        }
        if refusal != 0 {
            return;
        }
        if matches!(command, Command::ReadOut { .. }) {
            self.count_read(place, before);
        } else if let Some((_, id)) = power_on_of(command) {
            self.count_back(place, before, command);
            let since = self.powered(place, before, command, id);
            self.changed(place, segment, since);
        } else if restarted(before, segment.node(place)) {
            self.changed(place, segment, Since::Restart(cause(before.state(), command)));
        }
    }

    fn changed(&mut self, place: usize, segment: &Segment, since: Since) {
        self.since[place] = segment.read_out(place).ok().map(|read| (since, read));
    }

    fn count_given(&mut self, before: &Node, segment: &Segment, command: &Command) {
        let Command::WarmOn { index, id, flag, state } = *command else { return };
        let others = (0..Segment::PLACES).filter(|&place| place != usize::from(index));
        let mut others = others.filter_map(|place| segment.read_out(place).ok());
        let sources = [
            (Source::Zero, state == 0),
            (Source::AllOnes, state == MAX_48),
            (Source::PartsCancel, ![0, MAX_48].contains(&state) && parts_cancel(state)),
            (Source::NodeId, state == id),
            (Source::Own, before.read_out().is_ok_and(|read| read.state == state)),
            (Source::Another, others.any(|read| read.state == state)),
        ];
        for (source, _) in sources.into_iter().filter(|&(_, holds)| holds) {
            self.add(WarmMark::Given { flag, state: source });
        }
    }

    fn count_read(&mut self, place: usize, before: &Node) {
        let read = before.read_out().expect("it was accepted");
        let Some((since, _)) = self.since[place].filter(|&(_, known)| known == read) else {
            return;
        };
        self.add(WarmMark::Read { state: before.state(), since });
        if read.past && read.state == before.id() {
            let stepped = matches!(since, Since::Restart(_));
            self.add(WarmMark::ReadNodeIdPast { stepped });
        }
    }

    fn count_back(&mut self, place: usize, before: &Node, command: &Command) {
        let Command::WarmOn { id, flag, state, .. } = *command else { return };
        let gives = |read: ReadOut| flag == read.flag() && (flag == 0 || state == read.state);
        if let Ok(read) = before.read_out() {
            if before.id() == id && gives(read) {
                self.add(WarmMark::Back { state: before.state(), past: read.past });
            }
        }
        if let Some(&(index, read)) = self.gone.get(&id) {
            if index != place && gives(read) {
                self.add(WarmMark::BackElsewhere { past: read.past });
            }
        }
    }

    fn powered(&mut self, place: usize, before: &Node, command: &Command, id: u64) -> Since {
        let after_warm = self.was_warm[place];
        let by_0a = matches!(command, Command::WarmOn { .. });
        let warm = matches!(command, Command::WarmOn { flag: 1, .. });
        let first = Since::First { by_0a, after_warm };
        self.was_warm[place] = warm;
        if let Ok(read) = before.read_out() {
            if before.id() != id {
                self.gone.insert(before.id(), (place, read));
            }
        }
        if warm {
            Since::Warm { was_on: !before.is_off() }
        } else {
            first
        }
    }
}

/// Whether a command that is no power-on restarted its node.
fn restarted(before: &Node, after: &Node) -> bool {
    after.phase() == Phase::Check(7) && before != after
}

fn cause(state: State, command: &Command) -> Cause {
    match (command, state) {
        (Command::FailedSend { .. }, _) => Cause::Failed,
        (Command::Send { .. }, _) => Cause::AmrLeft,
        (_, State::Reserved) => Cause::MetInReserved,
        _ => Cause::MetInTesting,
    }
}

/// Whether a state's four parts have exclusive-or 0: it stands for alias 1, and would not with another
/// lowest part.
fn parts_cancel(state: u64) -> bool {
    alias::drawn(state) == Alias(1) && alias::drawn(state ^ 2) == Alias(2)
}
