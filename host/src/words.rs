//! Frames, nodes and refusals in words.

use crate::ages::KEPT;
use crate::card::{Seen, State};
use crate::frame::{Frame, Sort, ELEVEN_BIT, REMOTE};
use crate::hex::joined;
use crate::watch::{Aged, Late, Sender};

/// What it means that a list is kept.
pub fn kept() -> String {
    format!("no frame has stood in an inbox, and no reply RID or AMR has waited, for more than {KEPT} ticks")
}

/// What a frame is: its sort, its alias, what it carries, and bit 28 where that is 0.
pub fn frame(frame: &Frame) -> String {
    what(frame) + bit_28(frame)
}

/// What is said of a frame with bit 28 as 0, behind all else that is said of it.
pub fn bit_28(frame: &Frame) -> &'static str {
    if frame.has_bit_28_as_0() {
        ", bit 28 as 0"
    } else {
        ""
    }
}

fn what(frame: &Frame) -> String {
    let data = with_data(frame);
    let header = frame.header;
    let Some(sort) = frame.sort() else {
        return match frame.kind {
            REMOTE => format!("remote frame {header:08X}{data}"),
            ELEVEN_BIT => format!("eleven-bit frame {header:03X}{data}"),
            0 => format!("frame {header:08X}, above 29 bits{data}"),
            kind => format!("frame {header:08X} of kind {kind}{data}"),
        };
    };
    let alias = format!("alias {:03X}", frame.alias());
    match sort {
        Sort::Cid(number, section) => format!("CID {number}, {alias}, section {section:03X}{data}"),
        Sort::ErrorReport(number) => {
            format!("error report {number} ({}), {alias}{data}", link_change(number))
        }
        Sort::Reserved(field) => format!("reserved frame {field:04X}, {alias}{data}"),
        Sort::Message(field) if frame.is_duplicate_report() => {
            format!("message {field:04X}, {alias}, the report of a duplicate Node ID")
        }
        Sort::Message(field) => format!("message {field:04X}, {alias}{data}"),
        _ => format!("{}, {alias}{data}", sort.name()),
    }
}

/// What error report 0 to 3 says of its sender's link, by section 6.2.7 of the standard.
fn link_change(number: u8) -> &'static str {
    match number {
        0 => "Error Passive after Error Active",
        1 => "Error Passive after Bus Off",
        2 => "Error Active after Error Passive",
        _ => "Error Active after Bus Off",
    }
}

/// Its data; six bytes are a Node ID only where the sort carries one.
fn with_data(frame: &Frame) -> String {
    let is_id = frame.sort().is_some_and(Sort::carries_id) && frame.len == 6;
    match frame.len {
        0 => String::new(),
        _ if is_id => format!(", Node ID {}", joined(frame.bytes(), ".")),
        1..=8 => format!(", data {}", joined(frame.bytes(), ".")),
        len => format!(", length {len}"),
    }
}

/// A frame in a word or two, for where there is little room.
pub fn short(frame: &Frame) -> String {
    match frame.sort() {
        Some(Sort::Message(_)) if frame.is_duplicate_report() => "report".into(),
        Some(sort) => sort.name(),
        None if frame.kind == REMOTE => "remote".into(),
        None => "eleven-bit".into(),
    }
}

/// How a node stands.
pub fn standing(seen: &Seen) -> String {
    match seen.state {
        State::Off => "Off".into(),
        State::Resting | State::Silent => format!("{}, without an alias", seen.state.name()),
        State::Testing => format!("Testing alias {:03X}", seen.alias),
        state => format!("{} with alias {:03X}", state.name(), seen.alias),
    }
}

/// Whose frame it is, behind what is said of it.
pub fn of_sender(frame: &Frame, from: Sender) -> String {
    let comma = if bit_28(frame).is_empty() { "" } else { "," };
    format!("{comma} of {}", sender(from))
}

pub fn sender(from: Sender) -> String {
    match from {
        Sender::Node(index) => format!("node {index}"),
        Sender::Foreign => "foreign equipment".into(),
    }
}

/// Indexes in order, those in a row as a range.
pub fn nodes(indexes: &[usize]) -> String {
    let mut parts: Vec<(usize, usize)> = Vec::new();
    for &index in indexes {
        match parts.last_mut() {
            Some((_, last)) if *last + 1 == index => *last = index,
            _ => parts.push((index, index)),
        }
    }
    let parts = parts.iter().map(|&(from, to)| match to - from {
        0 => from.to_string(),
        1 => format!("{from}, {to}"),
        _ => format!("{from} to {to}"),
    });
    let parts: Vec<String> = parts.collect();
    format!("{} {}", if indexes.len() == 1 { "node" } else { "nodes" }, parts.join(", "))
}

/// So many of something.
pub fn count(number: usize, one: &str, more: &str) -> String {
    format!("{number} {}", if number == 1 { one } else { more })
}

/// What was wrong with a command that was refused.
pub fn refusal(number: u64) -> &'static str {
    match number {
        1 => "the index is above 23",
        2 => "the node is Off",
        3 => "the Node ID is 0",
        4 => "no frame is due",
        5 => "an inbox that the frame would join is full",
        6 => "the inbox is empty",
        7 => "the node is not Permitted",
        8 => "a host frame waits already",
        9 => "an operand is out of range",
        10 => "the command is unknown, and the run ends",
        11 => "the script ends within the command, and the run ends",
        14 => "the link state is above 2",
        15 => "the Node ID is in use at another index",
        18 => "the flag is above 1, or the state has more than 48 bits",
        _ => "no reason is known for this number",
    }
}

/// Which frame made a list late.
pub fn late(late: &Late) -> String {
    let Late { tick, index, others, .. } = late;
    let what = match late.what {
        Aged::Inbox(arrival) => format!(
            "{}, from {}, has stood in the inbox of node {index} since tick {} (command {})",
            frame(&arrival.frame),
            sender(arrival.from),
            arrival.tick,
            arrival.count
        ),
        Aged::Due(owed) => format!(
            "{}, has been due at node {index} since tick {} (command {})",
            frame(&owed.frame),
            owed.tick,
            owed.count
        ),
    };
    let others = match others {
        0 => String::new(),
        _ => format!("; {} as old", count(*others, "other frame is", "other frames are")),
    };
    format!("late from tick {tick} on (command {}): {what}{others}", late.count)
}
