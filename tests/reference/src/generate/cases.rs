//! The cases of a delivered frame: telling the case of a frame, and making a frame of a case.

use crate::alias::Alias;
use crate::frame::{node_id_bytes, Frame, ELEVEN_BIT, EXTENDED, REMOTE};
use crate::generate::prng::Prng;
use crate::header::{self, cid_field, Header, Kind, Section, AMD, AME, AMR, ERROR_REPORT, RID};
use crate::node::Node;

/// Own means with the node's own alias; the data's Node ID is named where it counts.
#[derive(Clone, Copy, Debug, PartialEq, Eq, PartialOrd, Ord)]
pub enum Case {
    ElevenBit,
    RemoteOwn,
    RemoteOther,
    OwnCid,
    OwnCid3To1,
    OwnCidWithData,
    OwnRid,
    OwnAmdOwnId,
    OwnAmdOtherId,
    OwnAme,
    OwnAmr,
    OwnErrorReport,
    OwnReserved,
    OwnMessage,
    /// A message whose field is above 0x0FFF, as a CID's is.
    OwnMessageHigh,
    AmeEmpty,
    AmeOwnId,
    /// Nearly the own Node ID: five of its bytes, or more than its six.
    AmeNear,
    AmeOtherId,
    AmdOwnId,
    AmdNear,
    AmdOtherId,
    OtherCid,
    OtherRid,
    OtherAmr,
    OtherErrorReport,
    OtherReserved,
    OtherMessage,
    /// A message that would be an AME or AMD to heed if it were a control frame.
    OtherMessageLikeAme,
    OtherMessageLikeAmd,
}

impl Case {
    pub const ALL: [Case; 30] = [
        Case::ElevenBit,
        Case::RemoteOwn,
        Case::RemoteOther,
        Case::OwnCid,
        Case::OwnCid3To1,
        Case::OwnCidWithData,
        Case::OwnRid,
        Case::OwnAmdOwnId,
        Case::OwnAmdOtherId,
        Case::OwnAme,
        Case::OwnAmr,
        Case::OwnErrorReport,
        Case::OwnReserved,
        Case::OwnMessage,
        Case::OwnMessageHigh,
        Case::AmeEmpty,
        Case::AmeOwnId,
        Case::AmeNear,
        Case::AmeOtherId,
        Case::AmdOwnId,
        Case::AmdNear,
        Case::AmdOtherId,
        Case::OtherCid,
        Case::OtherRid,
        Case::OtherAmr,
        Case::OtherErrorReport,
        Case::OtherReserved,
        Case::OtherMessage,
        Case::OtherMessageLikeAme,
        Case::OtherMessageLikeAmd,
    ];

    /// The case of a well-formed frame at a node.
    pub fn of(frame: &Frame, node: &Node) -> Case {
        let header = header::split(frame.header);
        let own = header.alias == node.alias();
        match (frame.kind, own) {
            (EXTENDED, true) => Self::of_own(header, frame, node),
            (EXTENDED, false) => Self::of_other(header, frame, node),
            (REMOTE, true) => Case::RemoteOwn,
            (REMOTE, false) => Case::RemoteOther,
            _ => Case::ElevenBit,
        }
    }

    fn of_own(header: Header, frame: &Frame, node: &Node) -> Case {
        match header.kind() {
            Kind::Cid(..) if frame.len > 0 => Case::OwnCidWithData,
            Kind::Cid(1..=3, _) => Case::OwnCid3To1,
            Kind::Cid(..) => Case::OwnCid,
            Kind::Rid => Case::OwnRid,
            Kind::Amd if frame.carries(node.id()) => Case::OwnAmdOwnId,
            Kind::Amd => Case::OwnAmdOtherId,
            Kind::Ame => Case::OwnAme,
            Kind::Amr => Case::OwnAmr,
            Kind::ErrorReport(_) => Case::OwnErrorReport,
            Kind::Reserved => Case::OwnReserved,
            Kind::Message if header.field > 0x0FFF => Case::OwnMessageHigh,
            Kind::Message => Case::OwnMessage,
        }
    }

    fn of_other(header: Header, frame: &Frame, node: &Node) -> Case {
        let own_id = frame.carries(node.id());
        let near = is_near(frame, node.id());
        match header.kind() {
            Kind::Cid(..) => Case::OtherCid,
            Kind::Rid => Case::OtherRid,
            Kind::Amd if own_id => Case::AmdOwnId,
            Kind::Amd if near => Case::AmdNear,
            Kind::Amd => Case::AmdOtherId,
            Kind::Ame if frame.len == 0 => Case::AmeEmpty,
            Kind::Ame if own_id => Case::AmeOwnId,
            Kind::Ame if near => Case::AmeNear,
            Kind::Ame => Case::AmeOtherId,
            Kind::Amr => Case::OtherAmr,
            Kind::ErrorReport(_) => Case::OtherErrorReport,
            Kind::Reserved => Case::OtherReserved,
            Kind::Message if header.field == AMD && own_id => Case::OtherMessageLikeAmd,
            Kind::Message if header.field == AME && (own_id || frame.len == 0) => {
                Case::OtherMessageLikeAme
            }
            Kind::Message => Case::OtherMessage,
        }
    }

    /// A frame of this case for a node, otherwise by chance, its unused bytes too.
    pub fn frame(self, node: &Node, rng: &mut Prng) -> Frame {
        let frame = self.clean_frame(node, rng);
        let some = some_bytes(rng);
        let mut data = rng.pick(&[[0; 8], some, node_id_bytes(node.id())]);
        data[..frame.bytes().len()].copy_from_slice(frame.bytes());
        Frame { data, ..frame }
    }

    fn clean_frame(self, node: &Node, rng: &mut Prng) -> Frame {
        let own = node.alias();
        match self {
            Case::ElevenBit => eleven_bit(own, rng),
            Case::RemoteOwn => remote(own, rng),
            Case::RemoteOther => remote(other_alias(own, rng), rng),
            Case::OwnCid | Case::OwnCid3To1 | Case::OwnCidWithData => self.own_cid(own, node, rng),
            _ if self < Case::AmeEmpty => self.control_or_message(own, node, rng),
            _ => self.control_or_message(other_alias(own, rng), node, rng),
        }
    }

    fn own_cid(self, own: Alias, node: &Node, rng: &mut Prng) -> Frame {
        let number = match self {
            Case::OwnCid3To1 => rng.between(1, 3),
            Case::OwnCidWithData => rng.between(1, 7),
            _ => rng.between(4, 7),
        };
        let (bit_28, field) = (bit_28(rng), cid(number, node, rng));
        let header = header::join(Header { bit_28, message: false, field, alias: own });
        let len = if self == Case::OwnCidWithData { rng.between(1, 8) } else { 0 };
        Frame::extended(header, &some_bytes(rng)[..len])
    }

    fn control_or_message(self, alias: Alias, node: &Node, rng: &mut Prng) -> Frame {
        let (field, data) = self.field_and_data(node, rng);
        let own = matches!(self, Case::OwnMessage | Case::OwnMessageHigh);
        let message = own || self >= Case::OtherMessage;
        let parts = Header { bit_28: bit_28(rng), message, field, alias };
        Frame::extended(header::join(parts), &data)
    }

    fn field_and_data(self, node: &Node, rng: &mut Prng) -> (u16, Vec<u8>) {
        let own = node_id_bytes(node.id())[..6].to_vec();
        match self {
            Case::OwnRid => (RID, maybe_bytes(rng)),
            Case::OtherRid => (RID, own),
            Case::OwnAmdOwnId | Case::AmdOwnId => (AMD, own),
            Case::OwnAmdOtherId | Case::AmdOtherId => (AMD, other_id(node, rng)),
            Case::AmdNear => (AMD, near_id(node, rng)),
            Case::OwnAme => (AME, [vec![], own][rng.below(2)].clone()),
            Case::AmeEmpty => (AME, vec![]),
            Case::AmeOwnId => (AME, own),
            Case::AmeNear => (AME, near_id(node, rng)),
            Case::AmeOtherId => (AME, other_id(node, rng)),
            Case::OwnAmr | Case::OtherAmr => (AMR, [own, vec![]][rng.below(2)].clone()),
            Case::OwnErrorReport | Case::OtherErrorReport => {
                (ERROR_REPORT + rng.below(4) as u16, own)
            }
            Case::OwnReserved => (reserved_field(rng), maybe_bytes(rng)),
            Case::OtherReserved => (reserved_field(rng), [own, vec![]][rng.below(2)].clone()),
            Case::OwnMessage => (rng.below(0x1000) as u16, maybe_bytes(rng)),
            Case::OwnMessageHigh => (rng.between(0x1000, 0x7FFF) as u16, maybe_bytes(rng)),
            Case::OtherMessage => (message_field(rng), [own, vec![]][rng.below(2)].clone()),
            Case::OtherMessageLikeAme => (AME, [own, vec![]][rng.below(2)].clone()),
            Case::OtherMessageLikeAmd => (AMD, own),
            _ => (cid(rng.between(1, 7), node, rng), [own, vec![]][rng.below(2)].clone()),
        }
    }
}

/// Data that begin as the Node ID does, or differ from it in one byte, and are not it.
pub fn is_near(frame: &Frame, id: u64) -> bool {
    let own = node_id_bytes(id);
    let same = frame.bytes().iter().zip(&own[..6]).filter(|(a, b)| a == b).count();
    same >= 5 && !frame.carries(id)
}

/// Bit 28 as it should be, mostly.
fn bit_28(rng: &mut Prng) -> bool {
    rng.percent(65)
}

fn eleven_bit(own: Alias, rng: &mut Prng) -> Frame {
    let header = if rng.percent(50) { u32::from(own.0) & 0x7FF } else { rng.below(0x800) as u32 };
    let len = rng.below(9);
    Frame { header, kind: ELEVEN_BIT, ..Frame::extended(0, &some_bytes(rng)[..len]) }
}

fn remote(alias: Alias, rng: &mut Prng) -> Frame {
    let field = rng.pick(&[0x0700, 0x0701, 0x0702, 0x0703, 0x7050, 0x15B4, 0x1000, 0x0710]);
    let (message, bit_28) = (rng.percent(30), bit_28(rng));
    let header = header::join(Header { bit_28, message, field, alias });
    Frame { header, kind: REMOTE, ..Frame::EMPTY }
}

/// An alias that is not this one: 0, a neighbour or any.
fn other_alias(Alias(own): Alias, rng: &mut Prng) -> Alias {
    let any = rng.below(0x1000) as u16;
    let alias = rng.pick(&[0, own ^ 1, own ^ 0x800, any, any, any]);
    Alias(if alias == own { own ^ 2 } else { alias })
}

/// A CID's field, often over a section of the node's own Node ID.
fn cid(number: usize, node: &Node, rng: &mut Prng) -> u16 {
    let own = (node.id() >> (12 * rng.below(4))) as u16 & 0xFFF;
    let any = rng.below(0x1000) as u16;
    let section = rng.pick(&[own, own, 0, 0xFFF, any]);
    cid_field(number as u8, Section(section))
}

fn reserved_field(rng: &mut Prng) -> u16 {
    let field = rng.below(0x1000) as u16;
    let edges = [0, 0x06FF, 0x0704, 0x070F, 0x0714, 0x0FFF, field];
    let field = rng.pick(&edges);
    if header::kind_of(false, field) == Kind::Reserved {
        field
    } else {
        0x0704
    }
}

fn message_field(rng: &mut Prng) -> u16 {
    let any = rng.below(0x8000) as u16;
    rng.pick(&[0, 0x0700, 0x0703, 0x0710, 0x0FFF, 0x1000, 0x15B4, 0x7FFF, any])
}

fn some_bytes(rng: &mut Prng) -> [u8; 8] {
    rng.number().to_be_bytes()
}

fn maybe_bytes(rng: &mut Prng) -> Vec<u8> {
    let len = rng.pick(&[0, 0, 1, 5, 6, 7, 8]);
    some_bytes(rng)[..len].to_vec()
}

/// A Node ID that is nearly the node's own.
fn near_id(node: &Node, rng: &mut Prng) -> Vec<u8> {
    let mut bytes = node_id_bytes(node.id()).to_vec();
    let len = rng.pick(&[5, 6, 6, 7, 8]);
    bytes.truncate(len);
    if len == 6 {
        bytes[rng.pick(&[0, 1, 2, 3, 4, 5])] ^= 1 << rng.below(8);
    }
    bytes
}

/// Data that are neither nothing nor near the node's own Node ID.
fn other_id(node: &Node, rng: &mut Prng) -> Vec<u8> {
    let len = rng.pick(&[6, 6, 6, 6, 1, 2, 3, 4, 5, 7, 8]);
    let mut bytes = some_bytes(rng)[..len].to_vec();
    let own = node_id_bytes(node.id());
    for place in 0..len.min(2) {
        if bytes[place] == own[place] {
            bytes[place] ^= 0x55;
        }
    }
    bytes
}
