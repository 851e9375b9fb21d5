//! The ten commands of a script, read from and written to bytes. Every operand byte is kept, used or not.

use crate::frame::Frame;

/// `Warm` is power-on with what was read out of a node (request A.9); its state has 48 bits.
#[derive(Clone, Copy, Debug, PartialEq, Eq)]
pub enum Command {
    On { index: u8, id: u64 },
    Send { index: u8 },
    Fail { index: u8 },
    Deliver { index: u8 },
    Tick,
    Foreign(Frame),
    Message { index: u8, field: u16, len: u8, data: [u8; 8] },
    Enquiry { index: u8, len: u8, id: u64 },
    Release { index: u8 },
    Warm { index: u8, id: u64, flag: u8, state: u64 },
}

/// What stands at the start of some bytes.
#[derive(Clone, Copy, Debug, PartialEq, Eq)]
pub enum Read {
    /// A command, and how many bytes it has.
    Whole(Command, usize),
    /// Its first byte is no command's.
    Unknown,
    /// The bytes end within the command; it has so many.
    Cut(usize),
}

/// How many operand bytes each of the commands 01 to 0A has.
const OPERANDS: [usize; 10] = [7, 1, 1, 1, 0, 14, 12, 8, 1, 14];

impl Command {
    /// Reads the first command of some bytes that are not empty.
    pub fn read(bytes: &[u8]) -> Read {
        let byte = bytes[0];
        let Some(operands) = usize::from(byte).checked_sub(1).and_then(|at| OPERANDS.get(at))
        else {
            return Read::Unknown;
        };
        let size = 1 + operands;
        match bytes.get(1..size) {
            Some(operands) => Read::Whole(Self::of_operands(byte, operands), size),
            None => Read::Cut(size),
        }
    }

    /// The command of a byte that is one's, with all its operands.
    fn of_operands(byte: u8, bytes: &[u8]) -> Command {
        let index = bytes.first().copied().unwrap_or(0);
        let eight = |from: usize| std::array::from_fn(|i| bytes[from + i]);
        match byte {
            1 => Command::On { index, id: number(&bytes[1..7]) },
            2 => Command::Send { index },
            3 => Command::Fail { index },
            4 => Command::Deliver { index },
            5 => Command::Tick,
            6 => Command::Foreign(Frame {
                kind: bytes[0],
                header: number(&bytes[1..5]) as u32,
                len: bytes[5],
                data: eight(6),
            }),
            7 => {
                let field = number(&bytes[1..3]) as u16;
                Command::Message { index, field, len: bytes[3], data: eight(4) }
            }
            8 => Command::Enquiry { index, len: bytes[1], id: number(&bytes[2..8]) },
            9 => Command::Release { index },
            _ => {
                let (id, state) = (number(&bytes[1..7]), number(&bytes[8..14]));
                Command::Warm { index, id, flag: bytes[7], state }
            }
        }
    }

    /// The byte that stands for the command.
    pub fn byte(&self) -> u8 {
        match self {
            Command::On { .. } => 1,
            Command::Send { .. } => 2,
            Command::Fail { .. } => 3,
            Command::Deliver { .. } => 4,
            Command::Tick => 5,
            Command::Foreign(_) => 6,
            Command::Message { .. } => 7,
            Command::Enquiry { .. } => 8,
            Command::Release { .. } => 9,
            Command::Warm { .. } => 10,
        }
    }

    /// The node that it names, where it names one.
    pub fn index(&self) -> Option<u8> {
        match *self {
            Command::Tick | Command::Foreign(_) => None,
            Command::On { index, .. }
            | Command::Send { index }
            | Command::Fail { index }
            | Command::Deliver { index }
            | Command::Message { index, .. }
            | Command::Enquiry { index, .. }
            | Command::Release { index }
            | Command::Warm { index, .. } => Some(index),
        }
    }

    /// The Node ID with which it powers a node on, cold or warm.
    pub fn powers_on(&self) -> Option<u64> {
        match *self {
            Command::On { id, .. } | Command::Warm { id, .. } => Some(id),
            _ => None,
        }
    }

    /// Writes its bytes at the end of a script.
    pub fn write(&self, script: &mut Vec<u8>) {
        script.push(self.byte());
        script.extend(self.index());
        match *self {
            Command::On { id, .. } => script.extend(&id.to_be_bytes()[2..]),
            Command::Foreign(frame) => {
                script.push(frame.kind);
                script.extend(frame.header.to_be_bytes());
                script.push(frame.len);
                script.extend(frame.data);
            }
            Command::Message { field, len, data, .. } => {
                script.extend(field.to_be_bytes());
                script.push(len);
                script.extend(data);
            }
            Command::Enquiry { len, id, .. } => {
                script.push(len);
                script.extend(&id.to_be_bytes()[2..]);
            }
            Command::Warm { id, flag, state, .. } => {
                script.extend(&id.to_be_bytes()[2..]);
                script.push(flag);
                script.extend(&state.to_be_bytes()[2..]);
            }
            _ => {}
        }
    }

    /// Its bytes.
    pub fn bytes(&self) -> Vec<u8> {
        let mut bytes = Vec::new();
        self.write(&mut bytes);
        bytes
    }
}

/// The number that some bytes stand for, highest first.
fn number(bytes: &[u8]) -> u64 {
    bytes.iter().fold(0, |number, &byte| number << 8 | u64::from(byte))
}
