//! What a run gives to draw: the steps at which something was to be seen, bands, frames, collisions, restarts, warm starts, link
//! orders, turns, what stood or waited too long, and aliases that two nodes came to use.

use crate::card::{Seen, State, PLACES};
use crate::frame::Frame;
use crate::shared::Shared;
use crate::summary::Collision;
use crate::told::Told;
use crate::turn::Choice;
use crate::warm::WarmStart;
use crate::watch::{Aged, Late, Moment, Sender};

/// A command that is drawn, after how many ticks, and how much room it takes beside a frame on the bus. Its count names it.
#[derive(Clone, Copy)]
pub struct Step {
    pub count: usize,
    pub tick: usize,
    pub weight: f64,
}

/// A node in one state with one alias, from one command to another or to the end.
pub struct Band {
    pub from: usize,
    pub to: Option<usize>,
    pub state: State,
    pub alias: u16,
}

/// A frame on the bus, and by which command.
pub struct OnBus {
    pub count: usize,
    pub frame: Frame,
    pub from: Sender,
}

/// A node's turn: by which command it sent, or was refused, and the choice that named it.
pub struct Turn {
    pub count: usize,
    pub index: usize,
    pub choice: Choice,
    pub sends: bool,
}

impl Turn {
    fn of(moment: &Moment) -> Option<Turn> {
        let (choice, index) = (moment.turn?, moment.node()?);
        Some(Turn { count: moment.played.count, index, choice, sends: moment.accepted() })
    }

    /// Whose turn it was and why, and where it did not send, that too.
    pub fn words(&self) -> String {
        let refused = if self.sends { "" } else { "; its send is refused" };
        self.choice.words() + refused
    }
}

/// What stood or waited too long, and its end: after how many ticks and by which command.
pub struct Overdue {
    pub frame: Aged,
    pub end: Option<(usize, usize)>,
}

/// The room of what collided, of a frame that came with bit 28 as 0, and of a link order, beside that of another frame on the bus.
pub const WIDE: f64 = 3.0;

#[derive(Default)]
pub struct Record {
    pub steps: Vec<Step>,
    pub bands: [Vec<Band>; PLACES],
    pub frames: Vec<OnBus>,
    pub collisions: Vec<(usize, Collision)>,
    /// Starts with the next alias that no delivered frame caused.
    pub restarts: Vec<(usize, usize)>,
    pub warm: Vec<WarmStart>,
    pub links: Vec<Told>,
    pub turns: Vec<Turn>,
    /// Of each node, in the order in which they came.
    pub overdue: [Vec<Overdue>; PLACES],
    pub shared: Vec<Shared>,
    pub late: Option<Late>,
    pub ticks: usize,
    pub seen: [Seen; PLACES],
}

impl Record {
    pub fn note(&mut self, moment: &Moment) {
        self.ticks = moment.tick;
        self.seen = moment.after;
        self.overdue(moment);
        let changed: Vec<usize> = (0..PLACES).filter(|&index| is_new_band(moment, index)).collect();
        let (on_the_bus, told, turn) = (moment.on_the_bus(), Told::of(moment), Turn::of(moment));
        let seen = on_the_bus.is_some() || told.is_some() || turn.is_some();
        if changed.is_empty() && !seen && moment.late.is_none() {
            return;
        }
        let count = moment.played.count;
        self.steps.push(Step { count, tick: moment.tick, weight: weight(moment) });
        for index in changed {
            self.band(moment, index);
        }
        if let Some((frame, from)) = on_the_bus {
            self.frames.push(OnBus { count, frame, from });
        }
        if let Some(collision) = Collision::of(moment) {
            self.widen(count);
            self.widen(collision.arrival.count);
            self.collisions.push((count, collision));
        }
        self.shared.extend(Shared::of(moment));
        self.warm.extend(WarmStart::of(moment));
        self.links.extend(told);
        self.turns.extend(turn);
        self.late = self.late.or(moment.late);
    }

    /// Gives a collision, or the frame that caused it, more room than others have.
    fn widen(&mut self, count: usize) {
        if let Ok(step) = self.steps.binary_search_by_key(&count, |step| step.count) {
            self.steps[step].weight = WIDE;
        }
    }

    /// What comes to be overdue, and what was and has ended. That is among the last of its node: an inbox is first in first out.
    fn overdue(&mut self, moment: &Moment) {
        for &(index, frame) in &moment.overdue {
            self.overdue[index].push(Overdue { frame, end: None });
        }
        for (index, frame) in &moment.ended {
            let found = self.overdue[*index].iter_mut().rev().find(|other| other.frame == *frame);
            found
                .into_iter()
                .for_each(|found| found.end = Some((moment.tick, moment.played.count)));
        }
    }

    /// Ends the band of a node, and begins its next.
    fn band(&mut self, moment: &Moment, index: usize) {
        let count = moment.played.count;
        let bands = &mut self.bands[index];
        if let Some(last) = bands.last_mut() {
            last.to = Some(count);
        }
        let Seen { state, alias, .. } = moment.after[index];
        bands.push(Band { from: count, to: None, state, alias });
        if moment.restarted(index) && !moment.collided(index) {
            self.restarts.push((count, index));
        }
    }

    /// The frame that a command put on the bus.
    pub fn frame_of(&self, count: usize) -> Option<&OnBus> {
        let at = self.frames.partition_point(|frame| frame.count < count);
        self.frames.get(at).filter(|frame| frame.count == count)
    }

    /// The nodes that were ever on.
    pub fn rows(&self) -> Vec<usize> {
        (0..PLACES).filter(|&index| !self.bands[index].is_empty()).collect()
    }
}

fn is_new_band(moment: &Moment, index: usize) -> bool {
    let (before, after) = (&moment.before[index], &moment.after[index]);
    let shown = |seen: &Seen| (seen.state, seen.alias);
    let powered = moment.powered_on() == Some(index);
    powered || shown(before) != shown(after) || moment.restarted(index)
}

/// Exhibits on one breaker come on together, so a power-on takes little room.
fn weight(moment: &Moment) -> f64 {
    match moment.command().and_then(|command| command.powers_on()) {
        Some(_) => 0.3,
        None if moment.link().is_some() || moment.has_bit_28_as_0() => WIDE,
        None => 1.0,
    }
}
