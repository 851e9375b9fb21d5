//! Bytes, link orders and turns back to commands by name: the lines from which `names` makes the same again.

use crate::beside::{Beside, Placed};
use crate::command::{Command, Read};
use crate::frame::{Frame, Sort, ELEVEN_BIT, EXTENDED, REMOTE};
use crate::hex::{dotted_id, joined};
use crate::warm::{state_digits, WARM};

/// The greatest count of one `tick`, and how many bytes stand in one line of `bytes`.
const TICKS: usize = 65_536;
const BYTES: usize = 32;

/// A script by name. What stands beside the bytes parts them between two commands.
pub fn script(bytes: &[u8], beside: &[Placed]) -> String {
    let mut text = String::new();
    let mut from = 0;
    for Placed { at, what } in beside {
        text += &commands(&bytes[from..*at]);
        text += &match what {
            Beside::Link(link) => format!("link {} {}\n", link.index, link.state_word()),
            Beside::Turn => "turn\n".into(),
        };
        from = *at;
    }
    text + &commands(&bytes[from..])
}

/// Bytes by name. Ticks in a row are one line; what is no whole command stands as bytes.
fn commands(bytes: &[u8]) -> String {
    let mut text = String::new();
    let mut rest = bytes;
    while !rest.is_empty() {
        let ticks =
            rest.iter().take(TICKS).take_while(|&&byte| byte == Command::Tick.byte()).count();
        if ticks > 0 {
            text += &ticks_line(ticks);
            rest = &rest[ticks..];
        } else if let Read::Whole(command, size) = Command::read(rest) {
            text += &(line(&command) + "\n");
            rest = &rest[size..];
        } else {
            for part in rest.chunks(BYTES) {
                text += &format!("bytes {}\n", joined(part, " "));
            }
            rest = &[];
        }
    }
    text
}

fn ticks_line(ticks: usize) -> String {
    if ticks == 1 {
        "tick\n".into()
    } else {
        format!("tick {ticks}\n")
    }
}

/// A command by name.
pub fn line(command: &Command) -> String {
    match *command {
        Command::On { index, id } => format!("on {index} {}", dotted_id(id)),
        Command::Send { index } => format!("send {index}"),
        Command::Fail { index } => format!("fail {index}"),
        Command::Deliver { index } => format!("deliver {index}"),
        Command::Tick => "tick".into(),
        Command::Foreign(frame) => format!("foreign {}", foreign(&frame)),
        Command::Message { index, field, len, data } => {
            format!("message {index} {field:04X}{}", data_text(len, &data, ""))
        }
        Command::Enquiry { index, len: 0, id: 0 } => format!("enquiry {index}"),
        Command::Enquiry { index, len: 6, id } => format!("enquiry {index} {}", dotted_id(id)),
        Command::Enquiry { index, len, id } => {
            format!("enquiry {index} {} length {len}", dotted_id(id))
        }
        Command::Release { index } => format!("release {index}"),
        Command::Warm { index, id, flag, state } => {
            let flag = if flag == WARM { String::new() } else { format!(" flag {flag}") };
            format!("warm {index} {} {}{flag}", dotted_id(id), state_digits(state))
        }
    }
}

fn foreign(frame: &Frame) -> String {
    let data = data_text(frame.len, &frame.data, "");
    let header = frame.header;
    match frame.kind {
        EXTENDED => extended(frame),
        REMOTE => format!("remote {header:08X}{data}"),
        ELEVEN_BIT if header <= 0xFFF => format!("short {header:03X}{data}"),
        ELEVEN_BIT => format!("short {header:08X}{data}"),
        kind => format!("kind {kind} {header:08X}{data}"),
    }
}

/// By its sort, and bit 28 where that is 0; where the sort has no name, by the header.
fn extended(frame: &Frame) -> String {
    let alias = frame.alias();
    let plain = format!("{:08X}{}", frame.header, data_text(frame.len, &frame.data, ""));
    let Some(sort) = frame.sort() else { return plain };
    let name = match sort {
        Sort::Cid(number, section) => format!("CID {number} {alias:03X} {section:03X}"),
        Sort::ErrorReport(number) => format!("error {number} {alias:03X}"),
        Sort::Message(field) => format!("message {field:04X} {alias:03X}"),
        Sort::Reserved(_) => return plain,
        Sort::Rid | Sort::Amd | Sort::Ame | Sort::Amr => format!("{} {alias:03X}", sort.name()),
    };
    let points = if sort.carries_id() && frame.len == 6 { "." } else { "" };
    let bit_28 = if frame.has_bit_28_as_0() { " bit28 0" } else { "" };
    name + &data_text(frame.len, &frame.data, points) + bit_28
}

/// The data that the length counts; where bytes past it are not 0, or it is above 8, as many as there are and the length.
fn data_text(len: u8, data: &[u8; 8], points: &str) -> String {
    let used = data.iter().rposition(|&byte| byte != 0).map_or(0, |last| last + 1);
    let blank = |count: usize| if count > 0 { " " } else { "" };
    if len <= 8 && used <= usize::from(len) {
        let counted = usize::from(len);
        return format!("{}{}", blank(counted), joined(&data[..counted], points));
    }
    format!("{}{} length {len}", blank(used), joined(&data[..used], ""))
}
