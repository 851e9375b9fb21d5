//! A script's text: which of the two forms it has, and its lines, each with its number; or what is wrong with them.

use crate::command::{Command, Read};
use crate::frame::Frame;
use crate::link::Link;
use crate::{hex, names};

/// A line that has more than blanks and a comment, without the comment.
#[derive(Clone, Copy, Debug, PartialEq, Eq)]
pub struct Source<'a> {
    pub number: usize,
    pub text: &'a str,
}

/// What a line by name stands for.
#[derive(Clone, Debug, PartialEq, Eq)]
pub enum Item {
    One(Command),
    Ticks(usize),
    DeliverAll,
    SendAll,
    Settle(usize),
    /// The same, but one turn in place of all sends.
    SettleByTurns(usize),
    /// Frames of a viewer's log.
    Log(Vec<Frame>),
    Link(Link),
    Turn,
    Bytes(Vec<u8>),
}

impl Item {
    /// What of it has no byte, if something has none.
    fn without_byte(&self) -> Option<&'static str> {
        match self {
            Item::Link(_) => Some("link"),
            Item::Turn => Some("turn"),
            Item::SettleByTurns(_) => Some("a turn of settle"),
            Item::One(_) | Item::Ticks(_) | Item::DeliverAll | Item::SendAll => None,
            Item::Settle(_) | Item::Log(_) | Item::Bytes(_) => None,
        }
    }
}

#[derive(Clone, Debug, PartialEq, Eq)]
pub struct Line {
    pub number: usize,
    pub item: Item,
}

/// A line that is wrong: its number, what was wrong, what was expected.
#[derive(Clone, Debug, PartialEq, Eq)]
pub struct Fault {
    pub line: usize,
    pub why: String,
}

#[derive(Clone, Copy, Debug, PartialEq, Eq)]
pub enum Form {
    Hex,
    Names,
}

/// The lines of a script of either form.
pub fn parse(text: &str) -> Result<Vec<Line>, Vec<Fault>> {
    let sources = sources(text);
    match form_of(&sources) {
        Form::Hex => Ok(hex::parse(&sources)?
            .into_iter()
            .map(|(number, bytes)| Line { number, item: Item::Bytes(bytes) })
            .collect()),
        Form::Names => {
            let lines = names::parse(&sources)?;
            nothing_after_the_end(&lines)?;
            Ok(lines)
        }
    }
}

/// The lines that say something. A byte order mark at the start is left out.
pub fn sources(text: &str) -> Vec<Source<'_>> {
    let text = text.strip_prefix('\u{FEFF}').unwrap_or(text);
    let numbered = text.lines().enumerate();
    numbered
        .map(|(at, line)| Source {
            number: at + 1,
            text: line.split('#').next().unwrap_or("").trim(),
        })
        .filter(|source| !source.text.is_empty())
        .collect()
}

/// Each line counts by its first word: a command's name, or GridConnect text, for names; a word that begins with a digit, or has hex
/// digits alone, for hex. A line with a colon, which only GridConnect text has, counts for names, whatever stands before that. The
/// greater number decides, and where they are equal it is a script by name.
pub fn form_of(sources: &[Source]) -> Form {
    let first = |source: &Source| source.text.split_whitespace().next().unwrap_or("").to_string();
    let is_by_name = |source: &&Source| names::begins(&first(source)) || source.text.contains(':');
    let by_name = sources.iter().filter(is_by_name).count();
    let in_hex = sources.iter().filter(|s| begins_hex(&first(s))).count();
    if in_hex > by_name {
        Form::Hex
    } else {
        Form::Names
    }
}

fn begins_hex(word: &str) -> bool {
    word.starts_with(|c: char| c.is_ascii_digit()) || word.chars().all(|c| c.is_ascii_hexdigit())
}

/// Bytes that end the run, by an unknown command or one that is cut short, are followed by no line but more bytes.
fn nothing_after_the_end(lines: &[Line]) -> Result<(), Vec<Fault>> {
    let mut bytes: Vec<u8> = Vec::new();
    let mut from = 0;
    for line in lines {
        if let Item::Bytes(more) = &line.item {
            from = if bytes.is_empty() { line.number } else { from };
            bytes.extend(more);
            continue;
        }
        if let Some(end) = end_of(&bytes) {
            let why = format!("nothing can follow here: the bytes from line {from} on {end}");
            return Err(vec![Fault { line: line.number, why }]);
        }
        bytes.clear();
    }
    Ok(())
}

/// A script with a link order or a turn can be had by name alone, and the program cannot play it.
pub fn in_bytes(lines: &[Line]) -> Result<(), Vec<Fault>> {
    let mut without =
        lines.iter().filter_map(|line| Some((line.number, line.item.without_byte()?)));
    let Some((line, name)) = without.next() else { return Ok(()) };
    let why = format!(
        "{name} has no byte in a script, so neither hex nor the program can have it; \
         play it with --explain, --summary, --picture or --grid"
    );
    Err(vec![Fault { line, why }])
}

/// How bytes end a run, where they do.
fn end_of(bytes: &[u8]) -> Option<String> {
    let mut rest = bytes;
    while !rest.is_empty() {
        match Command::read(rest) {
            Read::Whole(_, size) => rest = &rest[size..],
            Read::Unknown => return Some(format!("have the unknown command {:02X}", rest[0])),
            Read::Cut(size) => {
                let found = rest.len();
                return Some(format!(
                    "end after {found} of the {size} bytes of command {:02X}",
                    rest[0]
                ));
            }
        }
    }
    None
}
