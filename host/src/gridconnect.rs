//! GridConnect text (request A.7), as bus viewers exchange it. Whether a text is a frame the library alone says; here is found what
//! is wrong with one that it refuses.

use crate::card::{read_text, TEXT_MAX};
use crate::frame::Frame;
use crate::operands::Parsed;

/// The form of a line of such texts.
pub const FORM: &str =
    ":X17050263N0102; once or more, each with 8 digits of header and 0 to 8 bytes";

/// Places of a text, from 0: that of the header's first digit, that of `N`, and that of `;` behind eight bytes.
const HEADER: usize = 2;
const N: usize = 10;
const LAST: usize = TEXT_MAX - 1;

/// Whether a word is meant as such a text, be it right or not: no command and no byte begins so.
pub fn is_meant(word: &str) -> bool {
    word.starts_with(':') || (word.starts_with(['X', 'x']) && word.ends_with(';'))
}

/// One frame or more, with blanks between them or none.
pub fn frames(texts: &str) -> Parsed<Vec<Frame>> {
    texts.split_inclusive(';').map(|text| frame(text.trim())).collect()
}

/// The frame of a text that the library accepts.
pub fn frame(text: &str) -> Parsed<Frame> {
    read_text(text).ok_or_else(|| {
        let why = fault(text).unwrap_or("the library refuses it".into());
        format!("\"{text}\" is no GridConnect frame: {why}")
    })
}

/// The first place at which a text is wrong: what is there, and what would be right. None where it is right at each.
pub fn fault(text: &str) -> Option<String> {
    let mut last = ' ';
    for (at, found) in text.chars().enumerate() {
        let place = format!("character {} is {}", at + 1, shown(at, found));
        if last == ';' {
            return Some(format!("{place}; expected nothing behind \";\""));
        }
        if !fits(at, found) {
            return Some(format!("{place}; expected {}", expected(at)));
        }
        last = found;
    }
    let count = text.chars().count();
    (last != ';')
        .then(|| format!("it ends with character {count}; expected then {}", expected(count)))
}

/// Whether a text can have this at a place.
fn fits(at: usize, found: char) -> bool {
    match at {
        0 => found == ':',
        1 => found == 'X',
        HEADER => matches!(found, '0' | '1'),
        N => found == 'N',
        LAST => found == ';',
        _ => found.is_ascii_hexdigit() || (found == ';' && begins_a_byte(at)),
    }
}

/// Behind `N` every second place is that of a byte's first digit, or of the end.
fn begins_a_byte(at: usize) -> bool {
    at > N && !at.is_multiple_of(2)
}

/// What is right at a place.
fn expected(at: usize) -> &'static str {
    match at {
        0 => "\":\"",
        1 => "\"X\", in upper case",
        HEADER => "0 or 1, since a header has 29 bits: 1FFFFFFF at most",
        N => "\"N\", in upper case, behind 8 digits of header",
        LAST => "\";\", since a frame has eight bytes at most",
        _ if at < N => "a hex digit: a header has 8 of them",
        _ if begins_a_byte(at) => "a byte of two hex digits, or \";\" at the end",
        _ => "a hex digit: a byte has two of them",
    }
}

/// What is at a place, in words.
fn shown(at: usize, found: char) -> String {
    match (at, found) {
        (_, ' ' | '\t') => "a blank".into(),
        (1, 'S' | 's') => {
            format!("\"{found}\", for an eleven-bit frame, which foreign short takes")
        }
        (N, 'R' | 'r') => format!("\"{found}\", for a remote frame, which foreign remote takes"),
        _ => format!("\"{found}\""),
    }
}
