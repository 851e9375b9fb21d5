//! A foreign frame by name: by its sort, by its kind or by its header; then its data, and what ends it. Or as GridConnect text.

use crate::frame::{Frame, Sort, ELEVEN_BIT, EXTENDED, REMOTE};
use crate::gridconnect;
use crate::hex::pairs;
use crate::operands::{Parsed, Words};

pub fn foreign(words: &mut Words) -> Parsed<Frame> {
    if words.peek().is_some_and(gridconnect::is_meant) {
        return text(&words.rest());
    }
    let (kind, header) = kind_and_header(words)?;
    let (count, data) = words.data()?;
    let Endings { length, bit } = endings(words)?;
    let frame = Frame { kind, header, len: length.unwrap_or(count), data };
    match bit {
        None => Ok(frame),
        Some(bit) if frame.has_bit_28() => Ok(frame.with_bit_28(bit)),
        Some(_) => Err(no_bit_28(kind)),
    }
}

/// One frame as GridConnect text, and nothing behind it.
fn text(text: &str) -> Parsed<Frame> {
    let end = text.find(';').map_or(text.len(), |at| at + 1);
    let frame = gridconnect::frame(&text[..end])?;
    match text[end..].trim() {
        "" => Ok(frame),
        more => Err(format!(
            "\"{more}\" is too much: GridConnect text has a frame's data, its length and bit 28 in itself, \
             and foreign takes one frame"
        )),
    }
}

/// What a frame has at its end that is other than its data, its sort or its header gives it.
#[derive(Default)]
struct Endings {
    length: Option<u8>,
    bit: Option<u8>,
}

/// `length N` and `bit28 BIT`, where they stand, in either order.
fn endings(words: &mut Words) -> Parsed<Endings> {
    let mut endings = Endings::default();
    loop {
        if let Some(length) = words.length()? {
            put_once(&mut endings.length, length, "length")?;
        } else if let Some(bit) = words.bit_28()? {
            put_once(&mut endings.bit, bit, "bit28")?;
        } else {
            return Ok(endings);
        }
    }
}

fn put_once(ending: &mut Option<u8>, value: u8, name: &str) -> Parsed<()> {
    match ending.replace(value) {
        None => Ok(()),
        Some(_) => Err(format!("{name} is there twice; expected it once")),
    }
}

fn no_bit_28(kind: u8) -> String {
    let frame = match kind {
        ELEVEN_BIT => "an eleven-bit frame".into(),
        kind => format!("a frame of kind {kind}"),
    };
    format!("{frame} has no bit 28; expected bit28 on an extended frame or a remote one")
}

fn kind_and_header(words: &mut Words) -> Parsed<(u8, u32)> {
    const FRAME: &str = "a header of 8 hex digits, or one of CID, RID, AMD, AME, AMR, error, message, remote, short, kind, \
                         or GridConnect text";
    let first = words.peek().ok_or(format!("the frame is missing; expected {FRAME}"))?;
    if pairs(first).is_some_and(|bytes| bytes.len() == 4) {
        return Ok((EXTENDED, words.header(8)?));
    }
    words.word();
    let header = match first.to_ascii_lowercase().as_str() {
        "remote" => return Ok((REMOTE, words.header(8)?)),
        "short" => return Ok((ELEVEN_BIT, words.header(3)?)),
        "kind" => return Ok((words.number("kind", 0, 255)? as u8, words.header(8)?)),
        "cid" => cid(words)?,
        "rid" => Sort::Rid.header(words.alias()?),
        "amd" => Sort::Amd.header(words.alias()?),
        "ame" => Sort::Ame.header(words.alias()?),
        "amr" => Sort::Amr.header(words.alias()?),
        "error" => error(words)?,
        "message" => message(words)?,
        _ => return Err(format!("\"{first}\" is no frame; expected {FRAME}")),
    };
    Ok((EXTENDED, header))
}

/// The header of a CID: its number, the alias, and its section, 000 where it is left out.
fn cid(words: &mut Words) -> Parsed<u32> {
    let number = words.number("number of a CID", 1, 7)? as u8;
    let alias = words.alias()?;
    let section = if words.has_more() { words.section()? } else { 0 };
    Ok(Sort::Cid(number, section).header(alias))
}

/// The header of an error report: its number and the alias.
fn error(words: &mut Words) -> Parsed<u32> {
    let number = words.number("number of an error report", 0, 3)? as u8;
    Ok(Sort::ErrorReport(number).header(words.alias()?))
}

/// The header of a message: its field and the alias.
fn message(words: &mut Words) -> Parsed<u32> {
    let field = words.digits("field", 4)? as u16;
    if field > 0x7FFF {
        return Err(format!("{field:04X} is no field of a frame; expected 0000 to 7FFF"));
    }
    Ok(Sort::Message(field).header(words.alias()?))
}
