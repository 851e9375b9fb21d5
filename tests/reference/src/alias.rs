//! Aliases: the first one of a Node ID, the generator of the ones after it, and the one that a state of
//! the generator stands for.

use crate::refusal::Refusal;

/// A source alias, twelve bits. Never a Node ID section.
#[derive(Clone, Copy, Debug, PartialEq, Eq, PartialOrd, Ord)]
pub struct Alias(pub u16);

/// The largest number of 48 bits.
pub const MAX_48: u64 = (1 << 48) - 1;

/// How many aliases there are, 1 to FFF: Node IDs so far apart have the same first one.
pub const ALIASES: u64 = 4095;

const FACTOR: u64 = 513;
const STEP: u64 = 0x1B0C_A37A_4BA9;

/// The first alias of a Node ID; 3 for 0 or above 48 bits.
pub fn first_alias(id: u64) -> Result<Alias, Refusal> {
    if id == 0 || id > MAX_48 {
        return Err(Refusal::BadNodeId);
    }
    Ok(first(id))
}

/// The next alias and the generator's new state; 9 for a state above 48 bits.
pub fn next_alias(state: u64) -> Result<(Alias, u64), Refusal> {
    if state > MAX_48 {
        return Err(Refusal::Malformed);
    }
    Ok(next(state))
}

pub(crate) fn first(id: u64) -> Alias {
    Alias(1 + (id % ALIASES) as u16)
}

pub(crate) fn next(state: u64) -> (Alias, u64) {
    let state = FACTOR.wrapping_mul(state).wrapping_add(STEP) & MAX_48;
    (drawn(state), state)
}

/// The alias that a state stands for, without a step: the exclusive-or of its four parts, or 1 where
/// that is 0.
pub(crate) fn drawn(state: u64) -> Alias {
    let parts = state ^ state >> 12 ^ state >> 24 ^ state >> 36;
    let alias = (parts & 0xFFF) as u16;
    Alias(if alias == 0 { 1 } else { alias })
}
