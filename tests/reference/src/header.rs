//! The 29-bit header: writing it, reading it, and the kind that its type and field decide.

use crate::alias::Alias;
use crate::refusal::Refusal;

/// Bit 28: nodes send it as 1 and ignore it on receipt; a reading tells it as it came (A.5).
pub const RESERVED_BIT: u32 = 1 << 28;
/// Bit 27: 1 for a message, 0 for a control frame.
const TYPE_BIT: u32 = 1 << 27;
/// The largest header, field and alias.
pub const HEADER_MAX: u32 = (1 << 29) - 1;
pub const FIELD_MAX: u16 = 0x7FFF;
pub const ALIAS_MAX: u16 = 0x0FFF;

pub const RID: u16 = 0x0700;
pub const AMD: u16 = 0x0701;
pub const AME: u16 = 0x0702;
pub const AMR: u16 = 0x0703;
/// Error report 0; 1 to 3 follow it.
pub const ERROR_REPORT: u16 = 0x0710;

/// Twelve bits of a Node ID, as a CID carries them. Never an alias.
#[derive(Clone, Copy, Debug, PartialEq, Eq, PartialOrd, Ord)]
pub struct Section(pub u16);

#[derive(Clone, Copy, Debug, PartialEq, Eq)]
pub enum Kind {
    /// Its number (7 down to 1) and its Node ID section.
    Cid(u8, Section),
    Rid,
    Amd,
    Ame,
    Amr,
    ErrorReport(u8),
    Reserved,
    Message,
}

/// What a header says: the parts that are read from it and that it is written from. They lie in this
/// order, in which a reading that may be a refusal is quick to hand out.
#[derive(Clone, Copy, Debug, PartialEq, Eq)]
#[repr(C)]
pub struct Header {
    pub bit_28: bool,
    pub message: bool,
    pub field: u16,
    pub alias: Alias,
}

impl Header {
    /// The parts of a frame as nodes send it.
    pub fn sent(message: bool, field: u16, alias: Alias) -> Header {
        Header { bit_28: true, message, field, alias }
    }

    #[inline]
    pub fn kind(&self) -> Kind {
        kind_of(self.message, self.field)
    }
}

/// The kind of a frame of this type and field.
#[inline]
pub fn kind_of(message: bool, field: u16) -> Kind {
    if message {
        return Kind::Message;
    }
    match field {
        0x1000..=0x7FFF => Kind::Cid((field >> 12) as u8, Section(field & 0x0FFF)),
        RID => Kind::Rid,
        AMD => Kind::Amd,
        AME => Kind::Ame,
        AMR => Kind::Amr,
        ERROR_REPORT..=0x0713 => Kind::ErrorReport((field & 3) as u8),
        _ => Kind::Reserved,
    }
}

/// The field of CID `number` over `section`.
pub fn cid_field(number: u8, section: Section) -> u16 {
    u16::from(number) << 12 | section.0
}

/// Writes a header; 9 for a field above 15 bits, alias 0 or an alias above 12 bits.
#[inline]
pub fn write(parts: Header) -> Result<u32, Refusal> {
    let Header { field, alias, .. } = parts;
    if field > FIELD_MAX || alias.0 == 0 || alias.0 > ALIAS_MAX {
        return Err(Refusal::Malformed);
    }
    Ok(join(parts))
}

/// Reads a header; 9 above 29 bits.
pub fn read(header: u32) -> Result<Header, Refusal> {
    if header > HEADER_MAX {
        return Err(Refusal::Malformed);
    }
    Ok(split(header))
}

/// The header of parts that are known to fit. Alias 0 does: foreign equipment may send it.
#[inline]
pub fn join(parts: Header) -> u32 {
    let Header { bit_28, message, field, alias } = parts;
    let reserved = if bit_28 { RESERVED_BIT } else { 0 };
    let kind = if message { TYPE_BIT } else { 0 };
    reserved | kind | u32::from(field) << 12 | u32::from(alias.0)
}

/// The parts of a header that is known to have 29 bits.
#[inline]
pub(crate) fn split(header: u32) -> Header {
    Header {
        bit_28: header & RESERVED_BIT != 0,
        message: header & TYPE_BIT != 0,
        field: (header >> 12) as u16 & FIELD_MAX,
        alias: Alias(header as u16 & ALIAS_MAX),
    }
}
