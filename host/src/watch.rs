//! What a run shows: all nodes before and after each command, whose turn it was, when each frame came into an inbox, how old
//! frames have become, and what made a list late.

use std::collections::VecDeque;

use crate::ages::{Ages, KEPT};
use crate::card::{Answer, Card, Seen, State, PLACES};
use crate::command::Command;
use crate::frame::{Frame, Sort};
use crate::link::Link;
use crate::play::{Act, Played};
use crate::turn::Choice;

/// Who put a frame on the bus.
#[derive(Clone, Copy, Debug, PartialEq, Eq)]
pub enum Sender {
    Node(usize),
    Foreign,
}

/// A frame in an inbox: from whom, after how many ticks and by which command it came.
#[derive(Clone, Copy, Debug, PartialEq, Eq)]
pub struct Arrival {
    pub frame: Frame,
    pub from: Sender,
    pub tick: usize,
    pub count: usize,
}

/// A reply RID or an AMR that is due, and since when.
#[derive(Clone, Copy, Debug, PartialEq, Eq)]
pub struct Owed {
    pub frame: Frame,
    pub tick: usize,
    pub count: usize,
}

/// A frame that has an age.
#[derive(Clone, Copy, Debug, PartialEq, Eq)]
pub enum Aged {
    Inbox(Arrival),
    Due(Owed),
}

impl Aged {
    /// The tick and the command since which it stands or waits.
    pub fn since(&self) -> (usize, usize) {
        match self {
            Aged::Inbox(arrival) => (arrival.tick, arrival.count),
            Aged::Due(owed) => (owed.tick, owed.count),
        }
    }

    /// How old it is after so many ticks of the list.
    pub fn age(&self, tick: usize) -> usize {
        tick - self.since().0
    }
}

/// The command by which a list became late, and the oldest frame then; `others` are as old as it.
#[derive(Clone, Copy, Debug, PartialEq, Eq)]
pub struct Late {
    pub tick: usize,
    pub count: usize,
    pub index: usize,
    pub what: Aged,
    pub others: usize,
}

/// One command with all that it did. `tick` counts the ticks up to it, a tick itself included.
pub struct Moment {
    pub played: Played,
    pub tick: usize,
    pub before: [Seen; PLACES],
    pub after: [Seen; PLACES],
    /// The frame that was taken from an inbox.
    pub delivered: Option<Arrival>,
    /// The choice that this command is.
    pub choice: Option<Choice>,
    /// Of the send of a turn, the choice before it.
    pub turn: Option<Choice>,
    /// Set where the list became late by this command.
    pub late: Option<Late>,
    /// What has stood or waited too long from this command on, with its node.
    pub overdue: Vec<(usize, Aged)>,
    /// What had stood or waited too long, and was delivered, left or was dropped by this command.
    pub ended: Vec<(usize, Aged)>,
    /// The greatest ages of the list up to this command.
    pub longest: Ages,
}

impl Moment {
    /// A command and what the nodes show before and after it.
    fn new(played: &Played, tick: usize, before: [Seen; PLACES], after: [Seen; PLACES]) -> Moment {
        let (overdue, ended, longest) = (Vec::new(), Vec::new(), Ages::default());
        Moment {
            played: *played,
            tick,
            before,
            after,
            delivered: None,
            choice: None,
            turn: None,
            late: None,
            overdue,
            ended,
            longest,
        }
    }

    /// A frame of this node, where there was one, has an age no more.
    fn end(&mut self, index: usize, frame: Option<Aged>) {
        let overdue = frame.filter(|frame| frame.age(self.tick) > KEPT);
        self.ended.extend(overdue.map(|frame| (index, frame)));
    }

    pub fn command(&self) -> Option<Command> {
        self.played.command()
    }

    pub fn link(&self) -> Option<Link> {
        match self.played.act {
            Act::Link(link) => Some(link),
            Act::Bytes(..) | Act::Choice | Act::SendInTurn(_) => None,
        }
    }

    pub fn accepted(&self) -> bool {
        !matches!(self.played.answer, Answer::Refused(_))
    }

    /// The node that the command names, where there is such a node.
    pub fn node(&self) -> Option<usize> {
        let index = match self.link() {
            Some(link) => Some(link.index),
            None => self.command()?.index(),
        };
        index.map(usize::from).filter(|&index| index < PLACES)
    }

    /// The node that it powered on.
    pub fn powered_on(&self) -> Option<usize> {
        let powers_on = self.command().is_some_and(|command| command.powers_on().is_some());
        self.node().filter(|_| powers_on && self.accepted())
    }

    /// The frame that came onto the bus, and from whom.
    pub fn on_the_bus(&self) -> Option<(Frame, Sender)> {
        match (self.command()?, self.played.answer) {
            (Command::Foreign(frame), Answer::Accepted) => Some((frame, Sender::Foreign)),
            (Command::Send { index }, Answer::Sent(frame)) => {
                Some((frame, Sender::Node(index.into())))
            }
            _ => None,
        }
    }

    /// Whether its frame, one that came onto the bus or was delivered, has bit 28 as 0.
    pub fn has_bit_28_as_0(&self) -> bool {
        let on_the_bus = self.on_the_bus().map(|(frame, _)| frame);
        let frame = on_the_bus.or(self.delivered.map(|arrival| arrival.frame));
        frame.is_some_and(|frame| frame.has_bit_28_as_0())
    }

    /// How many inboxes have a frame more.
    pub fn joined(&self) -> usize {
        (0..PLACES).filter(|&i| self.after[i].inbox > self.before[i].inbox).count()
    }

    /// Whether a node was started again with its next alias. Power-on is no such start.
    pub fn restarted(&self, index: usize) -> bool {
        let (before, after) = (&self.before[index], &self.after[index]);
        let command = self.command();
        let powered = command.is_some_and(|command| command.powers_on().is_some());
        // The next alias may be the same again; then only the due frame shows it.
        let may_restart = matches!(command, Some(Command::Deliver { .. } | Command::Fail { .. }));
        let same_alias = before.state == State::Testing && before.alias == after.alias;
        let anew = !same_alias || may_restart && before.due != after.due;
        !powered && before.state != State::Off && after.state == State::Testing && anew
    }

    /// Whether a frame with the node's alias was delivered to it, and it gave that alias up.
    pub fn collided(&self, index: usize) -> bool {
        let leaves =
            self.before[index].state != State::Leaving && self.after[index].state == State::Leaving;
        self.delivered.is_some() && self.node() == Some(index) && (leaves || self.restarted(index))
    }
}

/// Looks at the card after each command.
#[derive(Default)]
pub struct Watch {
    seen: [Seen; PLACES],
    inboxes: [VecDeque<Arrival>; PLACES],
    owed: [Option<Owed>; PLACES],
    /// The last choice.
    choice: Option<Choice>,
    tick: usize,
    late: bool,
    longest: Ages,
}

impl Watch {
    /// What a command did to the card.
    pub fn look(&mut self, played: &Played, card: &Card) -> Moment {
        let after = card.look_at_all();
        let before = std::mem::replace(&mut self.seen, after);
        let ticks = played.command() == Some(Command::Tick);
        self.tick += usize::from(ticks);
        let mut moment = Moment::new(played, self.tick, before, after);
        self.turns(&mut moment);
        moment.delivered = self.inboxes(&mut moment, card);
        self.owed(&mut moment);
        if ticks {
            self.grow_older(&mut moment);
        }
        moment.longest = self.longest;
        if !self.late && card.is_late() {
            self.late = true;
            moment.late = self.oldest(&moment);
        }
        moment
    }

    /// Keeps the last choice, for the next one and for the send of its turn.
    fn turns(&mut self, moment: &mut Moment) {
        match (moment.played.act, moment.played.answer) {
            (Act::Choice, Answer::Chosen(named)) => {
                let last = self.choice.and_then(|choice| choice.last_then());
                self.choice = Some(Choice { last, named: named.map(usize::from) });
                moment.choice = self.choice;
            }
            (Act::SendInTurn(_), _) => moment.turn = self.choice,
            _ => {}
        }
    }

    /// Brings the record of inboxes up to what the card has; gives the frame that a delivery took.
    fn inboxes(&mut self, moment: &mut Moment, card: &Card) -> Option<Arrival> {
        let mut taken = None;
        let from = moment.on_the_bus().map_or(Sender::Foreign, |(_, from)| from);
        for (index, inbox) in self.inboxes.iter_mut().enumerate() {
            while inbox.len() > moment.after[index].inbox {
                taken = inbox.pop_front();
                moment.end(index, taken.map(Aged::Inbox));
            }
            while let Some(frame) = card.inbox(index, inbox.len()) {
                inbox.push_back(Arrival {
                    frame,
                    from,
                    tick: self.tick,
                    count: moment.played.count,
                });
            }
        }
        taken.filter(|_| matches!(moment.command(), Some(Command::Deliver { .. })))
    }

    /// Since when each node has had a reply RID or an AMR due.
    fn owed(&mut self, moment: &mut Moment) {
        for (index, owed) in self.owed.iter_mut().enumerate() {
            let seen = moment.after[index];
            let now = seen.due.filter(|frame| has_an_age(seen.state, frame));
            if owed.map(|owed| owed.frame) != now {
                moment.end(index, owed.map(Aged::Due));
                *owed =
                    now.map(|frame| Owed { frame, tick: self.tick, count: moment.played.count });
            }
        }
    }

    /// All frames that have an age, with their nodes.
    fn aged(&self) -> impl Iterator<Item = (usize, Aged)> + '_ {
        let stood = self.inboxes.iter().enumerate();
        let stood = stood
            .flat_map(|(i, inbox)| inbox.iter().map(move |arrival| (i, Aged::Inbox(*arrival))));
        let waited = self.owed.iter().enumerate();
        stood.chain(waited.filter_map(|(i, owed)| owed.map(|owed| (i, Aged::Due(owed)))))
    }

    /// The oldest of all frames that have an age: what made the list late by this command.
    fn oldest(&self, moment: &Moment) -> Option<Late> {
        let age = self.aged().map(|(_, frame)| frame.age(self.tick)).max()?;
        let mut oldest = self.aged().filter(|(_, frame)| frame.age(self.tick) == age);
        let (index, what) = oldest.next()?;
        let (tick, count) = (moment.tick, moment.played.count);
        Some(Late { tick, count, index, what, others: oldest.count() })
    }

    /// What a tick does to all ages.
    fn grow_older(&mut self, moment: &mut Moment) {
        let mut longest = self.longest;
        for (index, frame) in self.aged() {
            let age = frame.age(self.tick);
            let greatest = match frame {
                Aged::Inbox(_) => &mut longest.stood,
                Aged::Due(_) => &mut longest.waited,
            };
            *greatest = age.max(*greatest);
            if age == KEPT + 1 {
                moment.overdue.push((index, frame));
            }
        }
        self.longest = longest;
    }
}

/// Of due frames, a reply RID and an AMR have an age; the RID that reserves an alias has none.
fn has_an_age(state: State, frame: &Frame) -> bool {
    match state {
        State::Reserved | State::Permitted => frame.sort() == Some(Sort::Rid),
        State::Leaving => frame.sort() == Some(Sort::Amr),
        State::Off | State::Testing | State::Resting | State::Silent => false,
    }
}
