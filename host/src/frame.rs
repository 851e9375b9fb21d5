//! A frame: its kind, header, length and data, and what its header says.

use crate::card::{read_header, Parts};

/// The kinds of frames, as command 06 numbers them.
pub const EXTENDED: u8 = 0;
pub const REMOTE: u8 = 1;
pub const ELEVEN_BIT: u8 = 2;

/// The place of bit 28, which is sent as 1, though some equipment sends 0; and bit 27, which a message has.
const BIT_28: u32 = 28;
const MESSAGE: u32 = 1 << 27;

/// The duplicate report's field, and its data by request A.2: an event number, which has eight bytes.
const REPORT_FIELD: u16 = 0x15B4;
const REPORT_DATA: [u8; 8] = [0x01, 0x01, 0x00, 0x00, 0x00, 0x00, 0x02, 0x01];

/// As a script carries it: the length may be any byte, and bytes past the length may be anything.
#[derive(Clone, Copy, Debug, PartialEq, Eq)]
pub struct Frame {
    pub kind: u8,
    pub header: u32,
    pub len: u8,
    pub data: [u8; 8],
}

/// What type and field of an extended header say.
#[derive(Clone, Copy, Debug, PartialEq, Eq)]
pub enum Sort {
    /// Its number and its Node ID section.
    Cid(u8, u16),
    Rid,
    Amd,
    Ame,
    Amr,
    ErrorReport(u8),
    Reserved(u16),
    Message(u16),
}

impl Sort {
    /// By what the library reads off a header.
    fn of(Parts { kind, field, number, section, .. }: Parts) -> Sort {
        match kind {
            0 => Sort::Cid(number, section),
            1 => Sort::Rid,
            2 => Sort::Amd,
            3 => Sort::Ame,
            4 => Sort::Amr,
            5 => Sort::ErrorReport(number),
            6 => Sort::Reserved(field),
            _ => Sort::Message(field),
        }
    }

    /// The header of this sort under an alias, with bit 28 as it is sent.
    pub fn header(self, alias: u16) -> u32 {
        let (kind, field) = match self {
            Sort::Cid(number, section) => (0, u16::from(number) << 12 | section),
            Sort::Rid => (0, 0x0700),
            Sort::Amd => (0, 0x0701),
            Sort::Ame => (0, 0x0702),
            Sort::Amr => (0, 0x0703),
            Sort::ErrorReport(number) => (0, 0x0710 | u16::from(number)),
            Sort::Reserved(field) => (0, field),
            Sort::Message(field) => (MESSAGE, field),
        };
        1 << BIT_28 | kind | u32::from(field) << 12 | u32::from(alias)
    }

    /// Whether frames of this sort carry a Node ID as their data.
    pub fn carries_id(self) -> bool {
        matches!(self, Sort::Amd | Sort::Ame | Sort::Amr | Sort::ErrorReport(_))
    }

    /// Its short name, without section and field.
    pub fn name(self) -> String {
        match self {
            Sort::Cid(number, _) => format!("CID {number}"),
            Sort::Rid => "RID".into(),
            Sort::Amd => "AMD".into(),
            Sort::Ame => "AME".into(),
            Sort::Amr => "AMR".into(),
            Sort::ErrorReport(number) => format!("error report {number}"),
            Sort::Reserved(_) => "reserved frame".into(),
            Sort::Message(_) => "message".into(),
        }
    }
}

impl Frame {
    /// The frame that words of the library stand for: the data is one number, the first byte highest.
    pub fn of_words(kind: u8, header: u64, len: u64, data: u64) -> Frame {
        Frame { kind, header: header as u32, len: len as u8, data: data.to_be_bytes() }
    }

    /// The data bytes that the length counts, eight at most.
    pub fn bytes(&self) -> &[u8] {
        &self.data[..usize::from(self.len.min(8))]
    }

    /// What its header says, where it has 29 bits.
    fn parts(&self) -> Option<Parts> {
        self.has_bit_28().then(|| read_header(self.header))?
    }

    /// What it is, where it is an extended frame with a header of 29 bits.
    pub fn sort(&self) -> Option<Sort> {
        self.parts().filter(|_| self.kind == EXTENDED).map(Sort::of)
    }

    /// The alias of its sender.
    pub fn alias(&self) -> u16 {
        (self.header & 0xFFF) as u16
    }

    /// Whether a frame of its kind has bit 28: an extended frame and an extended remote one.
    pub fn has_bit_28(&self) -> bool {
        matches!(self.kind, EXTENDED | REMOTE)
    }

    /// Whether the tool marks it (request A.5): its header has 29 bits, and came with bit 28 as 0.
    pub fn has_bit_28_as_0(&self) -> bool {
        self.parts().is_some_and(|parts| !parts.bit_28)
    }

    /// The same with bit 28 as 0 or 1.
    pub fn with_bit_28(self, bit: u8) -> Frame {
        Frame { header: self.header & !(1 << BIT_28) | u32::from(bit) << BIT_28, ..self }
    }

    /// Whether it reports that a Node ID is there twice: by its field and by its data.
    pub fn is_duplicate_report(&self) -> bool {
        self.sort() == Some(Sort::Message(REPORT_FIELD)) && self.bytes() == REPORT_DATA
    }
}
