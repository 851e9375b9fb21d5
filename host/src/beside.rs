//! What a script has beside its bytes: link orders and turns. They have no byte.

use crate::link::Link;

#[derive(Clone, Copy, Debug, PartialEq, Eq)]
pub enum Beside {
    Link(Link),
    /// A choice of who sends next, and a send of the node that it names.
    Turn,
}

/// One of them, and the place of the byte before which it comes.
#[derive(Clone, Copy, Debug, PartialEq, Eq)]
pub struct Placed {
    pub at: usize,
    pub what: Beside,
}
