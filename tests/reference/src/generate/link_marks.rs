//! Link marks: what lists with link orders must meet besides the cells. The order's refusals, what
//! becomes of an error report that waits, and reports by a link state that was told earlier.

use std::collections::BTreeMap;

use crate::command::{Answer, Command, Given};
use crate::generate::coverage::index_of;
use crate::header::{self, Kind};
use crate::link::Link;
use crate::node::{Node, Phase, State};
use crate::segment::Segment;

#[derive(Clone, Copy, Debug, PartialEq, Eq, PartialOrd, Ord)]
pub enum LinkMark {
    /// A link order with its refusal, 0 for accepted.
    Answer(u8),
    /// A link order refused by the first number though the second would hold too.
    Order(u8, u8),
    /// The report with this number left.
    Left(u8),
    /// The first report waited when the second took its place.
    Replaced(u8, u8),
    /// A report waited and was dropped.
    Dropped(Cause),
    /// A report by a link state, not 0, that the node was told in this state.
    ToldIn(State),
    /// A report by a link state, not 0, that was kept through a restart from this state.
    KeptThroughRestart(State),
    /// A report by the 0 of a power-on, by 01 or by 0A, after another link state.
    SetBack { by_0a: bool },
}

#[derive(Clone, Copy, Debug, PartialEq, Eq, PartialOrd, Ord)]
pub enum Cause {
    Collision,
    Release,
    Silent,
    PowerOn,
    WarmOn,
}

/// Which report can take the place of which: reports 0 and 1 leave the link at 1, reports 2 and 3 at
/// 0, and from there it can go on to Bus Off, which is not reported.
const REPLACED: [(u8, u8); 12] = [
    (0, 1),
    (0, 2),
    (0, 3),
    (1, 1),
    (1, 2),
    (1, 3),
    (2, 0),
    (2, 1),
    (2, 3),
    (3, 0),
    (3, 1),
    (3, 3),
];

impl LinkMark {
    /// All that lists must meet. 1 and 2 cannot hold at once: no node has an index that 1 refuses.
    pub fn all() -> Vec<LinkMark> {
        let mut marks = vec![LinkMark::Order(1, 14), LinkMark::Order(2, 14)];
        marks.extend([false, true].map(|by_0a| LinkMark::SetBack { by_0a }));
        marks.extend([0, 1, 2, 14].map(LinkMark::Answer));
        marks.extend([0, 1, 2, 3].map(LinkMark::Left));
        marks.extend(REPLACED.map(|(first, second)| LinkMark::Replaced(first, second)));
        let causes = [Cause::Collision, Cause::Release, Cause::Silent];
        marks.extend(causes.map(LinkMark::Dropped));
        marks.extend([Cause::PowerOn, Cause::WarmOn].map(LinkMark::Dropped));
        let told = [State::Testing, State::Reserved, State::Permitted, State::Leaving];
        marks.extend(told.map(LinkMark::ToldIn));
        let restarts = [State::Testing, State::Reserved, State::Leaving];
        marks.extend(restarts.map(LinkMark::KeptThroughRestart));
        marks.sort();
        marks
    }
}

/// How a node came by its link state.
#[derive(Clone, Copy, Default)]
struct Origin {
    /// The state in which it was told, if it was told since power-on.
    told: Option<State>,
    /// The state of its last restart since then.
    restarted: Option<State>,
    /// Whether it is the 0 of a power-on, after another link state: by 0A, or by 01.
    set_back: Option<bool>,
}

/// Counts of link marks, with what must be remembered from one command to the next.
#[derive(Clone, Default)]
pub struct LinkMarks {
    pub counts: BTreeMap<LinkMark, u64>,
    origins: [Origin; Segment::PLACES],
}

impl LinkMarks {
    pub fn met(&self, mark: &LinkMark) -> bool {
        self.counts.contains_key(mark)
    }

    fn add(&mut self, mark: LinkMark) {
        *self.counts.entry(mark).or_default() += 1;
    }

    /// A list's end; the next one starts afresh.
    pub fn count_end(&mut self) {
        self.origins = Default::default();
    }

    /// What a command was that met a node, if it met one, and left the segment so.
    pub fn count(
        &mut self,
        before: Option<&Node>,
        segment: &Segment,
        command: &Command,
        answer: &Answer,
    ) {
        if let Command::Link { state, .. } = *command {
            self.count_answer(state, answer);
        }
        let (Some(place), Some(before), Ok(given)) = (index_of(command), before, answer) else {
            return;
        };
        if let Given::Sent(frame) = given {
            if let Kind::ErrorReport(number) = header::split(frame.header).kind() {
                self.add(LinkMark::Left(number));
            }
        }
        let after = segment.node(place);
        self.count_fate(before, after, command);
        self.count_origin(place, before, after, command);
    }

    fn count_answer(&mut self, state: u8, answer: &Answer) {
        let refusal = answer.as_ref().map_or_else(|refusal| refusal.number(), |_| 0);
        self.add(LinkMark::Answer(refusal));
        if [1, 2].contains(&refusal) && Link::of(state).is_err() {
            self.add(LinkMark::Order(refusal, 14));
        }
    }

    /// What an accepted command did to the report that waited before it, if one did.
    fn count_fate(&mut self, before: &Node, after: &Node, command: &Command) {
        let Some(first) = before.waiting().error else { return };
        let fate = match (command, after.state()) {
            (Command::PowerOn { .. }, _) => Some(LinkMark::Dropped(Cause::PowerOn)),
            (Command::WarmOn { .. }, _) => Some(LinkMark::Dropped(Cause::WarmOn)),
            (Command::Release { .. }, _) => Some(LinkMark::Dropped(Cause::Release)),
            (Command::Deliver { .. }, State::Leaving) => Some(LinkMark::Dropped(Cause::Collision)),
            (Command::Send { .. }, State::Silent) => Some(LinkMark::Dropped(Cause::Silent)),
            (Command::Link { .. }, _) => {
                let second = before.link_state().report(after.link_state());
                second.map(|second| LinkMark::Replaced(first, second))
            }
            _ => None,
        };
        fate.into_iter().for_each(|mark| self.add(mark));
    }

    fn count_origin(&mut self, place: usize, before: &Node, after: &Node, command: &Command) {
        let known = before.link_state() != Link::ErrorActive;
        match command {
            Command::PowerOn { .. } | Command::WarmOn { .. } => {
                let by_0a = matches!(command, Command::WarmOn { .. });
                let set_back = known.then_some(by_0a);
                self.origins[place] = Origin { set_back, ..Origin::default() };
            }
            Command::Link { .. } => {
                let reports = before.link_state().report(after.link_state()).is_some();
                if reports && before.state() == State::Permitted {
                    self.count_report(self.origins[place], known);
                }
                self.origins[place] = Origin { told: Some(before.state()), ..Origin::default() };
            }
            _ if after.phase() == Phase::Check(7) && before != after => {
                self.origins[place].restarted = Some(before.state());
            }
            _ => {}
        }
    }

    /// A report came to wait by a link state of this origin.
    fn count_report(&mut self, origin: Origin, known: bool) {
        if known {
            origin.told.into_iter().for_each(|state| self.add(LinkMark::ToldIn(state)));
            let restarted = origin.restarted.into_iter();
            restarted.for_each(|state| self.add(LinkMark::KeptThroughRestart(state)));
        } else if let Some(by_0a) = origin.set_back {
            self.add(LinkMark::SetBack { by_0a });
        }
    }
}
