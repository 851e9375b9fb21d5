//! A run over a script, as the program `segment` makes it over bytes: its commands, and the line of each.

use crate::beside::{Beside, Placed};
use crate::card::{write_text, Answer, Card};
use crate::command::{Command, Read};
use crate::hex::joined;
use crate::link::Link;

/// The program uses so many bytes of a script.
pub const LIMIT: usize = 65_536;

/// The refusals that are the program's own, and not the card's.
const UNKNOWN: u64 = 10;
const CUT_SHORT: u64 = 11;

/// What is carried out.
#[derive(Clone, Copy, Debug, PartialEq, Eq)]
pub enum Act {
    /// What stands in the bytes, with the first of them.
    Bytes(u8, Read),
    Link(Link),
    /// The choice of a turn.
    Choice,
    /// The send of a turn, by the node that was named.
    SendInTurn(u8),
}

/// One command with its answer.
#[derive(Clone, Copy, Debug, PartialEq, Eq)]
pub struct Played {
    /// Counted from 1.
    pub count: usize,
    /// The place in the script's bytes at which it comes.
    pub at: usize,
    pub act: Act,
    pub answer: Answer,
}

impl Played {
    /// The command of the ten that it is, where it is one.
    pub fn command(&self) -> Option<Command> {
        match self.act {
            Act::Bytes(_, Read::Whole(command, _)) => Some(command),
            Act::SendInTurn(index) => Some(Command::Send { index }),
            Act::Bytes(_, Read::Unknown | Read::Cut(_)) | Act::Link(_) | Act::Choice => None,
        }
    }
}

/// Carries out the commands of a script one after another, and shows each with the card after it.
pub fn play(
    bytes: &[u8],
    beside: &[Placed],
    card: &mut Card,
    mut show: impl FnMut(&Played, &Card),
) {
    let bytes = used(bytes);
    let mut beside = beside.iter().peekable();
    let (mut at, mut count) = (0, 0);
    let mut put = |at: usize, act: Act, answer: Answer, card: &Card| {
        count += 1;
        show(&Played { count, at, act, answer }, card);
    };
    loop {
        if let Some(placed) = beside.next_if(|placed| placed.at <= at) {
            without_byte(placed.what, card, |act, answer, card| put(at, act, answer, card));
        } else if at < bytes.len() {
            let (act, answer, size) = first_of(&bytes[at..], card);
            put(at, act, answer, card);
            at += size;
        } else {
            return;
        }
    }
}

/// Carries out what has no byte: a link order, or a turn, which is a choice and, where that names a node, a send.
fn without_byte(what: Beside, card: &mut Card, mut put: impl FnMut(Act, Answer, &Card)) {
    match what {
        Beside::Link(link) => {
            let answer = card.link(&link);
            put(Act::Link(link), answer, card);
        }
        Beside::Turn => {
            let named = card.choose();
            put(Act::Choice, Answer::Chosen(named), card);
            if let Some(index) = named {
                let answer = card.carry_out(&Command::Send { index });
                put(Act::SendInTurn(index), answer, card);
            }
        }
    }
}

/// Carries out the first command of some bytes that are not empty; says how many it takes, all where it ends the run.
fn first_of(bytes: &[u8], card: &mut Card) -> (Act, Answer, usize) {
    let read = Command::read(bytes);
    let (answer, size) = match read {
        Read::Whole(command, size) => (card.carry_out(&command), size),
        Read::Unknown => (Answer::Refused(UNKNOWN), bytes.len()),
        Read::Cut(_) => (Answer::Refused(CUT_SHORT), bytes.len()),
    };
    (Act::Bytes(bytes[0], read), answer, size)
}

/// What the program uses of a script.
pub fn used(script: &[u8]) -> &[u8] {
    &script[..script.len().min(LIMIT)]
}

/// The line of a command, without its line feed.
pub fn line(played: &Played) -> String {
    let name = match played.act {
        Act::Bytes(byte, _) => format!("{byte:02X}"),
        Act::Link(_) => "link".into(),
        Act::Choice => "choose".into(),
        Act::SendInTurn(index) => format!("{:02X}", Command::Send { index }.byte()),
    };
    let count = played.count;
    match played.answer {
        Answer::Accepted => format!("{count} {name} ok"),
        Answer::Chosen(None) => format!("{count} {name} ok none"),
        Answer::Chosen(Some(index)) => format!("{count} {name} ok {index}"),
        Answer::Refused(number) => format!("{count} {name} refused {number}"),
        Answer::Sent(frame) if frame.len == 0 => {
            format!("{count} {name} ok {:08X}", frame.header)
        }
        Answer::Sent(frame) => {
            format!("{count} {name} ok {:08X} {}", frame.header, joined(frame.bytes(), ""))
        }
    }
}

/// The frame that left by a command, if one did, as GridConnect text without a line feed.
pub fn text(played: &Played) -> Option<String> {
    let Answer::Sent(frame) = played.answer else { return None };
    Some(write_text(&frame).expect("what leaves is extended, of 29 bits and eight bytes at most"))
}

/// The last line of a run, without its line feed.
pub fn last_line(card: &Card) -> &'static str {
    if card.is_late() {
        "late"
    } else {
        "kept"
    }
}
