//! The operations for C against the other implementation, call by call.

pub mod any_words;
pub mod corners;
pub mod cover;
pub mod grid_marks;
pub mod grid_text;
pub mod gridconnect;
pub mod headers;
pub mod list;
pub mod map;
pub mod operation;
pub mod pair;
pub mod seen;
pub mod turn;
pub mod twins;
pub mod warm;

use crate::card::MARK;
use reference::Refusal;
use std::fmt::Debug;

/// An answer: 0 or the refusal's number, and the buffer that was lent, all `MARK` before.
pub type Answered<const N: usize> = (u64, [u64; N]);

/// What a call answers that is lent a buffer.
pub fn put_out<const N: usize>(call: impl FnOnce(&mut [u64; N]) -> u64) -> Answered<N> {
    let mut buffer = [MARK; N];
    (call(&mut buffer), buffer)
}

/// A refusal leaves the buffer as it was.
pub fn refused<const N: usize>(refusal: Refusal) -> Answered<N> {
    (refusal.number().into(), [MARK; N])
}

/// The other implementation's answer, its value as words.
pub fn answered<const N: usize, T>(answer: Result<T, Refusal>, words: impl FnOnce(T) -> [u64; N]) -> Answered<N> {
    answer.map_or_else(refused, |value| (0, words(value)))
}

/// A code in words, with the refusal's number as the papers have it, in decimal.
pub fn told(code: u64) -> String {
    match code {
        0 => "accepted".to_string(),
        number => format!("refused by {number}"),
    }
}

/// Fails with both values where they differ.
pub fn same<T: PartialEq + Debug>(what: impl Fn() -> String, proved: T, plain: T) -> Result<(), String> {
    alike(what, ["proved", "plain Rust"], [proved, plain])
}

/// Fails where two values differ, with both, each after its name.
pub fn alike<T: PartialEq + Debug>(what: impl Fn() -> String, names: [&str; 2], values: [T; 2]) -> Result<(), String> {
    let ([name, other], [value, another]) = (names, values);
    if value == another {
        return Ok(());
    }
    Err(format!("{}: {name} {value:X?}, {other} {another:X?}", what()))
}
