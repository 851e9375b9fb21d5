//! Commands by name: a line of words to what it stands for.

use crate::command::Command;
use crate::foreign::foreign;
use crate::gridconnect;
use crate::link::Link;
use crate::operands::{Parsed, Words};
use crate::script::{Fault, Item, Line, Source};
use crate::warm::WARM;

/// The commands' names, each with its form.
pub const FORMS: [(&str, &str); 14] = [
    ("on", "on INDEX NODE-ID"),
    ("send", "send INDEX, or send all"),
    ("fail", "fail INDEX"),
    ("deliver", "deliver INDEX, or deliver all"),
    ("tick", "tick, or tick COUNT"),
    ("foreign", "foreign FRAME [length N] [bit28 BIT], or foreign :X17050263N;"),
    ("message", "message INDEX FIELD [DATA] [length N]"),
    ("enquiry", "enquiry INDEX [NODE-ID] [length N]"),
    ("release", "release INDEX"),
    ("warm", "warm INDEX NODE-ID STATE [flag N]"),
    ("link", "link INDEX STATE"),
    ("turn", "turn"),
    ("settle", "settle COUNT, or settle COUNT turns"),
    ("bytes", "bytes HEX .."),
];

/// Whether a line that begins with this word is one by name.
pub fn begins(word: &str) -> bool {
    FORMS.iter().any(|(name, _)| word.eq_ignore_ascii_case(name)) || gridconnect::is_meant(word)
}

/// The lines of a script by name.
pub fn parse(sources: &[Source]) -> Result<Vec<Line>, Vec<Fault>> {
    let mut lines = Vec::new();
    let mut faults = Vec::new();
    for source in sources {
        match parse_line(source.text) {
            Ok(item) => lines.push(Line { number: source.number, item }),
            Err(why) => faults.push(Fault { line: source.number, why }),
        }
    }
    if faults.is_empty() {
        Ok(lines)
    } else {
        Err(faults)
    }
}

/// What one line stands for, or what is wrong with it.
pub fn parse_line(text: &str) -> Parsed<Item> {
    let mut words = Words::of(text);
    if words.peek().is_some_and(gridconnect::is_meant) {
        let frames = gridconnect::frames(text).map(Item::Log);
        return frames.map_err(|why| format!("{why}; the form is: {}", gridconnect::FORM));
    }
    let found = words.word().unwrap_or("");
    let name = found.to_ascii_lowercase();
    let Some((_, form)) = FORMS.iter().find(|(known, _)| *known == name) else {
        let known: Vec<&str> = FORMS.iter().map(|(name, _)| *name).collect();
        let known = known.join(", ");
        return Err(format!(
            "\"{found}\" is no command; expected one of {known}, or GridConnect text as :X17050263N;"
        ));
    };
    let item = item(&name, &mut words).and_then(|item| words.end().map(|()| item));
    item.map_err(|why| format!("{why}; the form is: {form}"))
}

fn item(name: &str, words: &mut Words) -> Parsed<Item> {
    let one = |command| Ok(Item::One(command));
    match name {
        "on" => one(Command::On { index: words.index()?, id: words.id()? }),
        "send" if words.skip("all") => Ok(Item::SendAll),
        "send" => one(Command::Send { index: words.index()? }),
        "fail" => one(Command::Fail { index: words.index()? }),
        "deliver" if words.skip("all") => Ok(Item::DeliverAll),
        "deliver" => one(Command::Deliver { index: words.index()? }),
        "tick" if words.peek().is_none() => Ok(Item::Ticks(1)),
        "tick" => Ok(Item::Ticks(words.count()?)),
        "foreign" => one(Command::Foreign(foreign(words)?)),
        "message" => {
            let (index, field) = (words.index()?, words.digits("field", 4)? as u16);
            let (count, data) = words.data()?;
            let len = words.length()?.unwrap_or(count);
            one(Command::Message { index, field, len, data })
        }
        "enquiry" => enquiry(words).map(Item::One),
        "release" => one(Command::Release { index: words.index()? }),
        "warm" => warm(words).map(Item::One),
        "link" => Ok(Item::Link(Link { index: words.index()?, state: words.link_state()? })),
        "turn" => turn(words),
        "settle" => settle(words),
        _ => words.bytes().map(Item::Bytes),
    }
}

/// No word follows: the choice says whose turn it is.
fn turn(words: &Words) -> Parsed<Item> {
    match words.peek() {
        None => Ok(Item::Turn),
        Some(word) => Err(format!(
            "\"{word}\" is too much: the card chooses whose turn it is, and send lets a node of your choice send"
        )),
    }
}

fn settle(words: &mut Words) -> Parsed<Item> {
    let count = words.count()?;
    Ok(if words.turns()? { Item::SettleByTurns(count) } else { Item::Settle(count) })
}

fn enquiry(words: &mut Words) -> Parsed<Command> {
    let index = words.index()?;
    let (id, len) = if words.has_more() { (words.id()?, 6) } else { (0, 0) };
    Ok(Command::Enquiry { index, len: words.length()?.unwrap_or(len), id })
}

/// The flag is 1 where it is left out: what a start is called warm for.
fn warm(words: &mut Words) -> Parsed<Command> {
    let (index, id, state) = (words.index()?, words.id()?, words.state()?);
    Ok(Command::Warm { index, id, flag: words.flag()?.unwrap_or(WARM), state })
}
