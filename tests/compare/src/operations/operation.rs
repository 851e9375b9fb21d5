//! A command by its operation, with operands that a script cannot carry too.

use super::{put_out, Answered};
use crate::card::{Card, MARK};
use reference::generate::coverage::Coverage;
use reference::generate::twin::twin_command;
use reference::{Answer, Command, Frame, Given, Segment};
use std::fmt;

#[derive(Clone, Copy, Debug, PartialEq, Eq)]
pub enum Operation {
    PowerOn { index: usize, id: u64 },
    Send { index: usize },
    Fail { index: usize },
    Deliver { index: usize },
    Tick,
    Foreign { kind: u8, header: u32, len: u8, bytes: u64 },
    Message { index: usize, field: u16, len: u8, bytes: u64 },
    Enquiry { index: usize, len: u8, bytes: u64 },
    Release { index: usize },
    Link { index: usize, state: u8 },
    Choose,
    WarmOn { index: usize, id: u64, flag: u8, state: u64 },
    ReadOut { index: usize },
}

impl From<Command> for Operation {
    fn from(command: Command) -> Operation {
        match command {
            Command::PowerOn { index, id } => Operation::PowerOn { index: index.into(), id },
            Command::Send { index } => Operation::Send { index: index.into() },
            Command::FailedSend { index } => Operation::Fail { index: index.into() },
            Command::Deliver { index } => Operation::Deliver { index: index.into() },
            Command::Tick => Operation::Tick,
            Command::Foreign { frame: Frame { header, kind, len, data } } => {
                Operation::Foreign { kind, header, len, bytes: u64::from_be_bytes(data) }
            }
            Command::Message { index, field, len, data } => {
                Operation::Message { index: index.into(), field, len, bytes: u64::from_be_bytes(data) }
            }
            Command::Enquiry { index, len, id: [a, b, c, d, e, f] } => {
                Operation::Enquiry { index: index.into(), len, bytes: u64::from_be_bytes([a, b, c, d, e, f, 0, 0]) }
            }
            Command::Release { index } => Operation::Release { index: index.into() },
            Command::Link { index, state } => Operation::Link { index: index.into(), state },
            Command::Choose => Operation::Choose,
            Command::WarmOn { index, id, flag, state } => Operation::WarmOn { index: index.into(), id, flag, state },
            Command::ReadOut { index } => Operation::ReadOut { index: index.into() },
        }
    }
}

/// The six bytes of an enquiry, and whether they are all of its operand.
fn enquired(bytes: u64) -> ([u8; 6], bool) {
    let [a, b, c, d, e, f, rest @ ..] = bytes.to_be_bytes();
    ([a, b, c, d, e, f], rest == [0, 0])
}

impl Operation {
    /// The command of a list that says the same, if its operands have room for these.
    pub fn command(&self) -> Option<Command> {
        let byte = |index: usize| u8::try_from(index).ok();
        let in_48 = |number: u64| Some(number).filter(|number| number >> 48 == 0);
        Some(match *self {
            Operation::PowerOn { index, id } => Command::PowerOn { index: byte(index)?, id: in_48(id)? },
            Operation::Send { index } => Command::Send { index: byte(index)? },
            Operation::Fail { index } => Command::FailedSend { index: byte(index)? },
            Operation::Deliver { index } => Command::Deliver { index: byte(index)? },
            Operation::Tick => Command::Tick,
            Operation::Foreign { kind, header, len, bytes } => {
                Command::Foreign { frame: Frame { header, kind, len, data: bytes.to_be_bytes() } }
            }
            Operation::Message { index, field, len, bytes } => {
                Command::Message { index: byte(index)?, field, len, data: bytes.to_be_bytes() }
            }
            Operation::Enquiry { index, len, bytes } => {
                let (id, whole) = enquired(bytes);
                Command::Enquiry { index: byte(index)?, len, id: whole.then_some(id)? }
            }
            Operation::Release { index } => Command::Release { index: byte(index)? },
            Operation::Link { index, state } => Command::Link { index: byte(index)?, state },
            Operation::Choose => Command::Choose,
            Operation::WarmOn { index, id, flag, state } => {
                Command::WarmOn { index: byte(index)?, id: in_48(id)?, flag, state: in_48(state)? }
            }
            Operation::ReadOut { index } => Command::ReadOut { index: byte(index)? },
        })
    }

    /// The operation with bit 28 of its foreign frame turned, if it has one.
    pub fn twin(&self) -> Operation {
        self.command().map_or(*self, |command| twin_command(&command).into())
    }

    /// By the proved library: its answer, and the words of the frame that left, or the word that says who was chosen, or the two that
    /// were read out.
    pub fn proved(&self, card: &mut Card) -> Answered<3> {
        let code = match *self {
            Operation::PowerOn { index, id } => card.power_on(index, id),
            Operation::Send { index } => return put_out(|sent| card.send(index, sent)),
            Operation::Fail { index } => card.fail(index),
            Operation::Deliver { index } => card.deliver(index),
            Operation::Tick => card.tick(),
            Operation::Foreign { kind, header, len, bytes } => card.foreign(kind, header, len, bytes),
            Operation::Message { index, field, len, bytes } => card.message(index, field, len, bytes),
            Operation::Enquiry { index, len, bytes } => card.enquiry(index, len, bytes),
            Operation::Release { index } => card.release(index),
            Operation::Link { index, state } => card.link(index, state),
            Operation::Choose => {
                let (code, [chosen]) = put_out(|chosen| card.choose(chosen));
                return (code, [chosen, MARK, MARK]);
            }
            Operation::WarmOn { index, id, flag, state } => card.warm_on(index, id, flag, state),
            Operation::ReadOut { index } => {
                let (code, [state, past]) = put_out(|out| card.read_out(index, out));
                return (code, [state, past, MARK]);
            }
        };
        (code, [MARK; 3])
    }

    /// By the other implementation; what is a command too is counted.
    pub fn plain(&self, segment: &mut Segment, cover: &mut Coverage) -> Answer {
        if let Some(command) = self.command() {
            return cover.carry_out(segment, &command);
        }
        match *self {
            Operation::PowerOn { index, id } => segment.power_on(index, id)?,
            Operation::Send { index } => return segment.send(index).map(Given::Sent),
            Operation::Fail { index } => segment.failed_send(index)?,
            Operation::Deliver { index } => segment.deliver(index)?,
            Operation::Message { index, field, len, bytes } => segment.message(index, field, len, bytes.to_be_bytes())?,
            Operation::Enquiry { index, len, bytes } => segment.enquiry(index, len, enquired(bytes).0)?,
            Operation::Release { index } => segment.release(index)?,
            Operation::Link { index, state } => segment.link(index, state)?,
            Operation::WarmOn { index, id, flag, state } => segment.warm_on(index, id, flag, state)?,
            Operation::ReadOut { index } => return segment.read_out(index).map(Given::ReadOut),
            Operation::Tick | Operation::Foreign { .. } | Operation::Choose => unreachable!("it is a command"),
        }
        Ok(Given::Nothing)
    }
}

/// The call in C.
impl fmt::Display for Operation {
    fn fmt(&self, out: &mut fmt::Formatter) -> fmt::Result {
        match *self {
            Operation::PowerOn { index, id } => write!(out, "card_power_on(table, {index}, 0x{id:012X});"),
            Operation::Send { index } => write!(out, "card_send(table, {index}, sent);"),
            Operation::Fail { index } => write!(out, "card_fail(table, {index});"),
            Operation::Deliver { index } => write!(out, "card_deliver(table, {index});"),
            Operation::Tick => write!(out, "card_tick(table);"),
            Operation::Foreign { kind, header, len, bytes } => {
                write!(out, "card_foreign(table, {kind}, 0x{header:08X}, {len}, 0x{bytes:016X});")
            }
            Operation::Message { index, field, len, bytes } => {
                write!(out, "card_message(table, {index}, 0x{field:04X}, {len}, 0x{bytes:016X});")
            }
            Operation::Enquiry { index, len, bytes } => write!(out, "card_enquiry(table, {index}, {len}, 0x{bytes:016X});"),
            Operation::Release { index } => write!(out, "card_release(table, {index});"),
            Operation::Link { index, state } => write!(out, "card_link(table, {index}, {state});"),
            Operation::Choose => write!(out, "card_choose(table, chosen);"),
            Operation::WarmOn { index, id, flag, state } => {
                write!(out, "card_warm_on(table, {index}, 0x{id:012X}, {flag}, 0x{state:012X});")
            }
            Operation::ReadOut { index } => write!(out, "card_read_out(table, {index}, out);"),
        }
    }
}
