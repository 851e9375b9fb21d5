//! Warm power-on (A.9): what is read out of a node, and how a node starts with what is given back.

use crate::alias::{self, Alias, MAX_48};
use crate::refusal::Refusal;

/// What is read out of a node: its generator's state, and whether its first alias is past.
#[derive(Clone, Copy, Debug, PartialEq, Eq, PartialOrd, Ord)]
pub struct ReadOut {
    pub state: u64,
    pub past: bool,
}

impl ReadOut {
    /// The flag with which it is given back.
    pub fn flag(self) -> u8 {
        self.past.into()
    }

    /// How a node starts to which it is given back.
    pub fn start(self) -> Start {
        if self.past {
            Start::Warm(self.state)
        } else {
            Start::First
        }
    }
}

/// How a node starts at power-on: with the first alias of its Node ID, or with the alias that this state
/// of the generator stands for.
#[derive(Clone, Copy, Debug, PartialEq, Eq)]
pub enum Start {
    First,
    Warm(u64),
}

impl Start {
    /// By flag and state; 18 for a flag above 1, or a state above 48 bits with flag 1.
    pub fn of(flag: u8, state: u64) -> Result<Start, Refusal> {
        match flag {
            0 => Ok(Start::First),
            1 if state <= MAX_48 => Ok(Start::Warm(state)),
            _ => Err(Refusal::BadStart),
        }
    }

    /// The first alias that a node with this Node ID tests.
    pub(crate) fn alias(self, id: u64) -> Alias {
        match self {
            Start::First => alias::first(id),
            Start::Warm(state) => alias::drawn(state),
        }
    }

    /// The generator of a node with this Node ID, and whether its first alias is past.
    pub(crate) fn generator(self, id: u64) -> ReadOut {
        match self {
            Start::First => ReadOut { state: id, past: false },
            Start::Warm(state) => ReadOut { state, past: true },
        }
    }
}
