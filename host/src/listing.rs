//! A script's bytes in hex, a command a line with its name beside it; the same commands in a row are one line.

use crate::command::{Command, Read};
use crate::hex::joined;
use crate::spell;

/// Where the names begin, and how many bytes stand in a line at most.
const COLUMN: usize = 50;
const BYTES: usize = 16;

pub fn listing(bytes: &[u8]) -> String {
    let mut text = String::new();
    let mut rest = bytes;
    while !rest.is_empty() {
        let Read::Whole(command, size) = Command::read(rest) else {
            for part in rest.chunks(BYTES) {
                text += &format!("{}\n", joined(part, " "));
            }
            return text;
        };
        let same = rest
            .chunks(size)
            .take((BYTES / size).max(1))
            .take_while(|chunk| *chunk == &rest[..size])
            .count();
        let hex = joined(&rest[..same * size], " ");
        let times = if same == 1 { String::new() } else { format!(", {same} times") };
        text += &format!("{hex:COLUMN$} # {}{times}\n", spell::line(&command));
        rest = &rest[same * size..];
    }
    text
}
