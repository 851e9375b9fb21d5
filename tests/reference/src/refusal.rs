//! The numbered refusals, one name for each number of document 01 and of the requests.

#[derive(Clone, Copy, Debug, PartialEq, Eq, PartialOrd, Ord)]
#[repr(u8)]
pub enum Refusal {
    NoSuchIndex = 1,
    Off = 2,
    BadNodeId = 3,
    NothingDue = 4,
    InboxFull = 5,
    InboxEmpty = 6,
    NotPermitted = 7,
    HostFrameWaits = 8,
    Malformed = 9,
    UnknownCommand = 10,
    CutShort = 11,
    MapFull = 12,
    Absent = 13,
    BadLinkState = 14,
    NodeIdInUse = 15,
    NotGridConnect = 16,
    ShortBuffer = 17,
    BadStart = 18,
}

impl Refusal {
    pub fn number(self) -> u8 {
        self as u8
    }
}
