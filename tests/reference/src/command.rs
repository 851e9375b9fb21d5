//! The commands of a list: ten that are read from and written to the bytes of a script, and the link
//! order, the choice and the read-out, which no script can carry.

use crate::frame::Frame;
use crate::refusal::Refusal;
use crate::warm::ReadOut;

/// What an accepted command gives: a send the frame that left, a choice the index that it names, if
/// it names one, a read-out what was read.
#[derive(Clone, Copy, Debug, PartialEq, Eq)]
pub enum Given {
    Nothing,
    Sent(Frame),
    Chosen(Option<usize>),
    ReadOut(ReadOut),
}

/// Accepted, with what the command gives, or refused.
pub type Answer = Result<Given, Refusal>;

#[derive(Clone, Copy, Debug, PartialEq, Eq)]
pub enum Command {
    PowerOn { index: u8, id: u64 },
    Send { index: u8 },
    FailedSend { index: u8 },
    Deliver { index: u8 },
    Tick,
    Foreign { frame: Frame },
    Message { index: u8, field: u16, len: u8, data: [u8; 8] },
    Enquiry { index: u8, len: u8, id: [u8; 6] },
    Release { index: u8 },
    Link { index: u8, state: u8 },
    Choose,
    WarmOn { index: u8, id: u64, flag: u8, state: u64 },
    ReadOut { index: u8 },
}

/// How many operand bytes each of the commands 01 to 0A has.
pub const OPERANDS: [usize; 10] = [7, 1, 1, 1, 0, 14, 12, 8, 1, 14];

impl Command {
    /// Reads the first command and gives the rest after it; 10 unknown, 11 cut short. No byte is
    /// the link order's, the choice's or the read-out's.
    #[inline]
    pub fn read(script: &[u8]) -> Result<(Command, &[u8]), Refusal> {
        let (&byte, rest) = script.split_first().ok_or(Refusal::CutShort)?;
        match byte {
            0x01 => operands(rest, Self::power_on),
            0x02 => operands(rest, |[index]| Command::Send { index }),
            0x03 => operands(rest, |[index]| Command::FailedSend { index }),
            0x04 => operands(rest, |[index]| Command::Deliver { index }),
            0x05 => Ok((Command::Tick, rest)),
            0x06 => operands(rest, Self::foreign),
            0x07 => operands(rest, Self::message),
            0x08 => operands(rest, Self::enquiry),
            0x09 => operands(rest, |[index]| Command::Release { index }),
            0x0A => operands(rest, Self::warm_on),
            _ => Err(Refusal::UnknownCommand),
        }
    }

    fn power_on([index, a, b, c, d, e, f]: [u8; 7]) -> Command {
        Command::PowerOn { index, id: u64::from_be_bytes([0, 0, a, b, c, d, e, f]) }
    }

    fn warm_on([index, a, b, c, d, e, f, flag, u, v, w, x, y, z]: [u8; 14]) -> Command {
        let id = u64::from_be_bytes([0, 0, a, b, c, d, e, f]);
        let state = u64::from_be_bytes([0, 0, u, v, w, x, y, z]);
        Command::WarmOn { index, id, flag, state }
    }

    fn foreign([kind, a, b, c, d, len, data @ ..]: [u8; 14]) -> Command {
        let header = u32::from_be_bytes([a, b, c, d]);
        Command::Foreign { frame: Frame { header, kind, len, data } }
    }

    fn message([index, a, b, len, data @ ..]: [u8; 12]) -> Command {
        Command::Message { index, field: u16::from_be_bytes([a, b]), len, data }
    }

    fn enquiry([index, len, id @ ..]: [u8; 8]) -> Command {
        Command::Enquiry { index, len, id }
    }

    /// The byte that names the command in a script; the link order, the choice and the read-out have
    /// none.
    pub fn byte(&self) -> Option<u8> {
        match self {
            Command::PowerOn { .. } => Some(0x01),
            Command::Send { .. } => Some(0x02),
            Command::FailedSend { .. } => Some(0x03),
            Command::Deliver { .. } => Some(0x04),
            Command::Tick => Some(0x05),
            Command::Foreign { .. } => Some(0x06),
            Command::Message { .. } => Some(0x07),
            Command::Enquiry { .. } => Some(0x08),
            Command::Release { .. } => Some(0x09),
            Command::WarmOn { .. } => Some(0x0A),
            Command::Link { .. } | Command::Choose | Command::ReadOut { .. } => None,
        }
    }

    /// Writes the command's bytes at the end of a script: none for the link order, the choice and the
    /// read-out.
    pub fn write(&self, script: &mut Vec<u8>) {
        script.extend(self.byte());
        match *self {
            Command::Tick | Command::Link { .. } | Command::Choose | Command::ReadOut { .. } => {}
            Command::Send { index }
            | Command::FailedSend { index }
            | Command::Deliver { index }
            | Command::Release { index } => script.push(index),
            Command::PowerOn { index, id } => {
                script.push(index);
                script.extend_from_slice(&id.to_be_bytes()[2..]);
            }
            Command::WarmOn { index, id, flag, state } => {
                script.push(index);
                script.extend_from_slice(&id.to_be_bytes()[2..]);
                script.push(flag);
                script.extend_from_slice(&state.to_be_bytes()[2..]);
            }
            Command::Foreign { frame } => {
                script.push(frame.kind);
                script.extend_from_slice(&frame.header.to_be_bytes());
                script.push(frame.len);
                script.extend_from_slice(&frame.data);
            }
            Command::Message { index, field, len, data } => {
                script.push(index);
                script.extend_from_slice(&field.to_be_bytes());
                script.push(len);
                script.extend_from_slice(&data);
            }
            Command::Enquiry { index, len, id } => {
                script.extend_from_slice(&[index, len]);
                script.extend_from_slice(&id);
            }
        }
    }
}

/// The whole commands of a script, up to its end or to what is refused by 10 or 11.
pub fn whole_commands(script: &[u8]) -> impl Iterator<Item = Command> + '_ {
    let mut rest = script;
    std::iter::from_fn(move || {
        let (command, after) = Command::read(rest).ok()?;
        rest = after;
        Some(command)
    })
}

/// Splits off N operand bytes; 11 if there are fewer.
#[inline]
fn operands<const N: usize>(
    rest: &[u8],
    command: impl FnOnce([u8; N]) -> Command,
) -> Result<(Command, &[u8]), Refusal> {
    let (bytes, rest) = rest.split_first_chunk::<N>().ok_or(Refusal::CutShort)?;
    Ok((command(*bytes), rest))
}
