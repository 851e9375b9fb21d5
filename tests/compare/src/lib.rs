//! The proved libraries behind safe functions, and what the comparisons and the benchmark share.

pub mod calls;
pub mod card;
pub mod operations;
pub mod setting;
pub mod shrink;

use reference::{whole_commands, Watch};

extern "C" {
    /// crates/script_api: the whole output of a script, and how many bytes of it the buffer now holds.
    fn script_run(script: *const u8, script_len: usize, out: *mut u8, out_len: usize) -> usize;
}

/// The proved libraries count ticks modulo this number: some lists begin with so many ticks that the count goes round in them.
pub const ROUND: usize = 65_536;

/// More than the longest line of a command and its share of the last word, for each byte of a script.
const LINE_MOST: usize = 64;

/// The proved library with a buffer that it writes into.
#[derive(Default)]
pub struct Proved {
    buffer: Vec<u8>,
}

impl Proved {
    /// The whole output of a script.
    pub fn run(&mut self, script: &[u8]) -> &[u8] {
        let room = LINE_MOST * (script.len() + 1);
        if self.buffer.len() < room {
            self.buffer.resize(room, 0);
        }
        // The function is proved to return, to write within the buffer and to answer at most its length.
        let written = unsafe { script_run(script.as_ptr(), script.len(), self.buffer.as_mut_ptr(), self.buffer.len()) };
        &self.buffer[..written]
    }
}

/// What a script comes to on the other implementation: its greatest ages, and whether the claim held while A.3 allowed them.
pub fn watched(script: &[u8]) -> Watch {
    Watch::of(whole_commands(script))
}
