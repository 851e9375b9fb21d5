//! Warm starts (request A.9): a node is powered on with what was read out of it; which alias that brings and why, and whether the
//! node came back under it.

use crate::card::{State, PLACES};
use crate::command::Command;
use crate::watch::Moment;
use crate::words;

/// The flags of command 0A that have a meaning: a start with the first alias, and one with the alias drawn from the state.
pub const COLD: u8 = 0;
pub const WARM: u8 = 1;

/// The bits of a generator's state, of which an alias is drawn in parts of 12.
const BITS: u32 = 48;

/// A state as it is written.
pub fn state_digits(state: u64) -> String {
    format!("{state:012X}")
}

/// The four parts of a state, the highest first.
fn parts(state: u64) -> [u16; 4] {
    [36, 24, 12, 0].map(|from| (state >> from & 0xFFF) as u16)
}

/// Why a start by command 0A that was accepted brings its alias.
pub fn why_this_alias(flag: u8, state: u64) -> String {
    if flag == COLD {
        return ", the first alias of its Node ID; the state is not used".into();
    }
    let [a, b, c, d] = parts(state);
    let parts = format!("the exclusive-or of {a:03X}, {b:03X}, {c:03X} and {d:03X}");
    if a ^ b ^ c ^ d == 0 {
        format!(", since {parts} is 0")
    } else {
        format!(", {parts}")
    }
}

/// Which of its two causes refusal 18 has, and what would be right.
pub fn why_refused(flag: u8, state: u64) -> Option<String> {
    if flag > WARM {
        let right = "1 for a start with the alias of the state, or 0 for one with the first alias";
        Some(format!("the flag is {flag}; expected {right}"))
    } else if flag == WARM && state >> BITS != 0 {
        Some(format!(
            "the state {state:X} has more than {BITS} bits; expected 12 hex digits at most"
        ))
    } else {
        None
    }
}

/// A node that was started warm, and what has become of that.
#[derive(Clone, Copy, Debug, PartialEq, Eq)]
pub struct WarmStart {
    pub index: usize,
    pub tick: usize,
    pub count: usize,
    /// The alias that it tests by that.
    pub alias: u16,
    pub outcome: Outcome,
}

#[derive(Clone, Copy, Debug, PartialEq, Eq)]
pub enum Outcome {
    /// It is not Permitted yet.
    Open,
    /// It was Permitted under that alias, since this tick.
    CameBack(usize),
    /// It started again with this alias before.
    GaveUp(u16),
    /// It was powered on again before.
    PoweredOn,
}

impl WarmStart {
    /// The start that a command is, where it was accepted with flag 1.
    pub fn of(moment: &Moment) -> Option<WarmStart> {
        let Some(Command::Warm { flag: WARM, .. }) = moment.command() else { return None };
        let index = moment.powered_on()?;
        let (alias, outcome) = (moment.after[index].alias, Outcome::Open);
        Some(WarmStart { index, tick: moment.tick, count: moment.played.count, alias, outcome })
    }

    /// What a later command makes of it.
    fn then(&self, moment: &Moment) -> Outcome {
        let after = &moment.after[self.index];
        if self.outcome != Outcome::Open {
            self.outcome
        } else if moment.powered_on() == Some(self.index) {
            Outcome::PoweredOn
        } else if moment.restarted(self.index) {
            Outcome::GaveUp(after.alias)
        } else if after.state == State::Permitted {
            Outcome::CameBack(moment.tick)
        } else {
            Outcome::Open
        }
    }

    fn came_back(&self) -> bool {
        matches!(self.outcome, Outcome::CameBack(_))
    }

    pub fn words(&self) -> String {
        let WarmStart { index, tick, alias, .. } = self;
        format!("node {index} at tick {tick}: started warm with alias {alias:03X}")
    }

    fn outcome_words(&self) -> String {
        let then = match self.outcome {
            Outcome::Open => "not Permitted yet".into(),
            Outcome::CameBack(tick) => format!("Permitted under it at tick {tick}"),
            Outcome::GaveUp(alias) => format!("gave it up, and started again with {alias:03X}"),
            Outcome::PoweredOn => "powered on again before it was Permitted".into(),
        };
        format!("{}; {then}", self.words())
    }
}

/// All warm starts of a run, and the last of each node.
#[derive(Default)]
pub struct WarmStarts {
    all: Vec<WarmStart>,
    last: [Option<usize>; PLACES],
}

impl WarmStarts {
    pub fn note(&mut self, moment: &Moment) {
        for start in self.last.iter().flatten() {
            self.all[*start].outcome = self.all[*start].then(moment);
        }
        if let Some(start) = WarmStart::of(moment) {
            self.last[start.index] = Some(self.all.len());
            self.all.push(start);
        }
    }

    pub fn is_empty(&self) -> bool {
        self.all.is_empty()
    }

    pub fn words(&self) -> String {
        let starts = words::count(self.all.len(), "warm start", "warm starts");
        let back = self.all.iter().filter(|start| start.came_back()).count();
        format!("{starts}, {back} of them up to Permitted under the alias that was given back")
    }

    /// Each with what became of it; those that did not come back under their alias first.
    pub fn lines(&self) -> impl ExactSizeIterator<Item = String> {
        let mut starts = self.all.clone();
        starts.sort_by_key(WarmStart::came_back);
        starts.into_iter().map(|start| start.outcome_words())
    }
}
