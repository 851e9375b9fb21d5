//! A CAN frame: kind, header, length and data, and when it is well-formed.

use crate::header::HEADER_MAX;
use crate::refusal::Refusal;

/// Kinds: extended, extended remote, eleven-bit.
pub const EXTENDED: u8 = 0;
pub const REMOTE: u8 = 1;
pub const ELEVEN_BIT: u8 = 2;

const ELEVEN_BIT_MAX: u32 = 0x7FF;

/// Data bytes past the length are 0 in every frame that a node or an inbox holds.
#[derive(Clone, Copy, Debug, PartialEq, Eq)]
pub struct Frame {
    pub header: u32,
    pub kind: u8,
    pub len: u8,
    pub data: [u8; 8],
}

impl Frame {
    pub const EMPTY: Frame = Frame { header: 0, kind: EXTENDED, len: 0, data: [0; 8] };

    /// An extended frame with at most eight data bytes.
    pub fn extended(header: u32, bytes: &[u8]) -> Frame {
        let mut data = [0; 8];
        data[..bytes.len()].copy_from_slice(bytes);
        Frame { header, kind: EXTENDED, len: bytes.len() as u8, data }
    }

    /// An extended frame whose data are the six bytes of a Node ID.
    pub fn with_node_id(header: u32, id: u64) -> Frame {
        Frame { header, kind: EXTENDED, len: 6, data: node_id_bytes(id) }
    }

    pub fn well_formed(&self) -> bool {
        let header_max = match self.kind {
            EXTENDED | REMOTE => HEADER_MAX,
            ELEVEN_BIT => ELEVEN_BIT_MAX,
            _ => return false,
        };
        self.len <= 8 && !(self.kind == REMOTE && self.len != 0) && self.header <= header_max
    }

    /// The frame without its unused bytes; 9 if it is malformed.
    pub fn checked(&self) -> Result<Frame, Refusal> {
        if !self.well_formed() {
            return Err(Refusal::Malformed);
        }
        let used = u64::MAX.checked_shl(8 * (8 - u32::from(self.len))).unwrap_or(0);
        let data = (u64::from_be_bytes(self.data) & used).to_be_bytes();
        Ok(Frame { data, ..*self })
    }

    /// The data bytes that the length counts.
    pub fn bytes(&self) -> &[u8] {
        &self.data[..usize::from(self.len)]
    }

    /// Whether the data are exactly this Node ID.
    pub fn carries(&self, id: u64) -> bool {
        self.len == 6 && self.data == node_id_bytes(id)
    }
}

/// The six bytes of a Node ID, highest first, then two zeros.
pub fn node_id_bytes(id: u64) -> [u8; 8] {
    (id << 16).to_be_bytes()
}
