//! The proved library behind safe functions. This is the only file of the tool that is not safe Rust.

use crate::command::Command;
use crate::frame::{Frame, EXTENDED};
use crate::link::Link;

/// The nodes of a card, and the words of its table, as c/card.h has them.
pub const PLACES: usize = 24;
pub const WORDS: usize = 1928;

/// What `card_choose` gives in place of an index where no node has a due frame, as c/card.h has it.
pub const NOBODY: u64 = 24;

/// The bytes of the longest GridConnect text, as c/card.h has them.
pub const TEXT_MAX: usize = 28;

/// The words that `card_send` and `grid_read`, `card_choose`, `card_read_out`, `card_look`, `card_inbox` and `lcc_read_header` write.
type Sent = [u64; 3];
type Chosen = [u64; 1];
type Out = [u64; 2];
type Look = [u64; 12];
type Held = [u64; 4];
type Read = [u64; 7];

include!(concat!(env!("CARGO_MANIFEST_DIR"), "/../c/card.rs"));

/// What a command was answered.
#[derive(Clone, Copy, Debug, PartialEq, Eq)]
pub enum Answer {
    Accepted,
    /// An accepted send, with the frame that left.
    Sent(Frame),
    /// A choice, with the node that it names, or nobody.
    Chosen(Option<u8>),
    Refused(u64),
}

impl Answer {
    /// What a number of the library says of a command that is neither send nor choice.
    fn of(number: u64) -> Answer {
        if number == 0 {
            Answer::Accepted
        } else {
            Answer::Refused(number)
        }
    }
}

/// The states of a node, in the order of their numbers in `card_look`.
#[derive(Clone, Copy, Debug, Default, PartialEq, Eq)]
pub enum State {
    #[default]
    Off,
    Testing,
    Reserved,
    Permitted,
    Leaving,
    Resting,
    Silent,
}

impl State {
    pub const ALL: [State; 7] = [
        State::Off,
        State::Testing,
        State::Reserved,
        State::Permitted,
        State::Leaving,
        State::Resting,
        State::Silent,
    ];

    /// Whether a node in this state uses its alias.
    pub fn uses_alias(self) -> bool {
        matches!(self, State::Reserved | State::Permitted | State::Leaving)
    }

    pub fn name(self) -> &'static str {
        ["Off", "Testing", "Reserved", "Permitted", "Leaving", "Resting", "Silent"][self as usize]
    }
}

/// What `card_look` shows of a node.
#[derive(Clone, Copy, Debug, Default, PartialEq, Eq)]
pub struct Seen {
    pub state: State,
    /// 0 where Off.
    pub id: u64,
    /// The alias in test or in use, 0 where neither.
    pub alias: u16,
    pub due: Option<Frame>,
    /// How many frames stand in the inbox.
    pub inbox: usize,
}

/// What `card_read_out` gives of a node (request A.9).
#[derive(Clone, Copy, Debug, PartialEq, Eq)]
pub struct ReadOut {
    /// The state of its generator.
    pub state: u64,
    /// Whether its first alias is past.
    pub past: bool,
}

/// What `lcc_read_header` reads off a header, its kind by the number that c/card.h gives it.
#[derive(Clone, Copy, Debug, PartialEq, Eq)]
pub struct Parts {
    pub field: u16,
    pub kind: u64,
    /// Of a CID or an error report.
    pub number: u8,
    /// Of a CID.
    pub section: u16,
    /// As it came (request A.5).
    pub bit_28: bool,
}

/// The parts of a header, if it has no more than 29 bits.
pub fn read_header(header: u32) -> Option<Parts> {
    let mut parts: Read = [0; 7];
    // SAFETY: `parts` has the seven words that the operation writes, and it takes any header.
    let code = unsafe { lcc_read_header(header, parts.as_mut_ptr()) };
    let [_, field, _, kind, number, section, bit] = parts;
    let (field, number, section) = (field as u16, number as u8, section as u16);
    (code == 0).then_some(Parts { field, kind, number, section, bit_28: bit == 1 })
}

/// The frame of a GridConnect text, if it is one (request A.7).
pub fn read_text(text: &str) -> Option<Frame> {
    let mut frame: Sent = [0; 3];
    // SAFETY: `text` is lent with its length, and `frame` has the three words that the operation writes.
    let code = unsafe { grid_read(text.as_ptr(), text.len(), frame.as_mut_ptr()) };
    (code == 0).then(|| Frame::of_words(EXTENDED, frame[0], frame[1], frame[2]))
}

/// An extended frame as GridConnect text, if it has no more than 29 bits and eight bytes; no other kind has such a text.
pub fn write_text(frame: &Frame) -> Option<String> {
    let (mut text, mut written) = ([0; TEXT_MAX], [0]);
    let data = u64::from_be_bytes(frame.data);
    // SAFETY: `text` is lent with its length, and `written` has the word that the operation writes.
    let code = unsafe {
        grid_write(text.as_mut_ptr(), TEXT_MAX, frame.header, frame.len, data, written.as_mut_ptr())
    };
    let text = || String::from_utf8_lossy(&text[..written[0] as usize]).into_owned();
    (code == 0 && frame.kind == EXTENDED).then(text)
}

/// A card of 24 nodes.
pub struct Card {
    table: Box<[u64; WORDS]>,
}

impl Default for Card {
    fn default() -> Self {
        Self::new()
    }
}

impl Card {
    /// All nodes Off.
    pub fn new() -> Card {
        let mut table = Box::new([0; WORDS]);
        // SAFETY: the table has CARD_WORDS words, which is all that any operation of the library asks of it.
        unsafe { card_new(table.as_mut_ptr()) };
        Card { table }
    }

    pub fn is_late(&self) -> bool {
        // SAFETY: as in `new`; the table is lent for reading.
        unsafe { card_is_late(self.table.as_ptr()) == 1 }
    }

    /// Carries out one command.
    pub fn carry_out(&mut self, command: &Command) -> Answer {
        let table = self.table.as_mut_ptr();
        let data = u64::from_be_bytes;
        // SAFETY: as in `new`; every operation takes any operands.
        let number = unsafe {
            match *command {
                Command::On { index, id } => card_power_on(table, index.into(), id),
                Command::Send { index } => return self.send(index),
                Command::Fail { index } => card_fail(table, index.into()),
                Command::Deliver { index } => card_deliver(table, index.into()),
                Command::Tick => card_tick(table),
                Command::Foreign(f) => card_foreign(table, f.kind, f.header, f.len, data(f.data)),
                Command::Message { index, field, len, data: bytes } => {
                    card_message(table, index.into(), field, len, data(bytes))
                }
                Command::Enquiry { index, len, id } => {
                    card_enquiry(table, index.into(), len, id << 16)
                }
                Command::Release { index } => card_release(table, index.into()),
                Command::Warm { index, id, flag, state } => {
                    card_warm_on(table, index.into(), id, flag, state)
                }
            }
        };
        Answer::of(number)
    }

    /// Tells a node its link state.
    pub fn link(&mut self, link: &Link) -> Answer {
        // SAFETY: as in `carry_out`.
        Answer::of(unsafe { card_link(self.table.as_mut_ptr(), link.index.into(), link.state) })
    }

    /// Chooses who sends next, and sends nothing.
    pub fn choose(&mut self) -> Option<u8> {
        let mut chosen: Chosen = [0];
        // SAFETY: as in `new`; `chosen` has the word that the operation writes.
        let number = unsafe { card_choose(self.table.as_mut_ptr(), chosen.as_mut_ptr()) };
        assert_eq!(number, 0, "a choice is never refused");
        (chosen[0] != NOBODY).then_some(chosen[0] as u8)
    }

    fn send(&mut self, index: u8) -> Answer {
        let mut sent: Sent = [0; 3];
        // SAFETY: as in `new`; `sent` has the three words that the operation writes.
        match unsafe { card_send(self.table.as_mut_ptr(), index.into(), sent.as_mut_ptr()) } {
            0 => Answer::Sent(Frame::of_words(0, sent[0], sent[1], sent[2])),
            number => Answer::Refused(number),
        }
    }

    /// What can be read out of a node and given back at power-on; none where the node is Off, or there is no such node.
    pub fn read_out(&self, index: usize) -> Option<ReadOut> {
        let mut out: Out = [0; 2];
        // SAFETY: as in `new`; `out` has the two words that the operation writes.
        let number = unsafe { card_read_out(self.table.as_ptr(), index, out.as_mut_ptr()) };
        (number == 0).then_some(ReadOut { state: out[0], past: out[1] == 1 })
    }

    /// What can be seen of a node; the index is below `PLACES`.
    pub fn look(&self, index: usize) -> Seen {
        let mut seen: Look = [0; 12];
        // SAFETY: as in `new`; `seen` has the twelve words that the operation writes.
        let number = unsafe { card_look(self.table.as_ptr(), index, seen.as_mut_ptr()) };
        assert_eq!(number, 0, "card_look of node {index}");
        Seen {
            state: State::ALL[seen[0] as usize],
            id: seen[1],
            alias: seen[2] as u16,
            due: (seen[3] == 1).then(|| Frame::of_words(0, seen[4], seen[5], seen[6])),
            inbox: seen[7] as usize,
        }
    }

    /// What can be seen of all nodes.
    pub fn look_at_all(&self) -> [Seen; PLACES] {
        std::array::from_fn(|index| self.look(index))
    }

    /// The frame at a place of a node's inbox, 0 the oldest; none where there is none.
    pub fn inbox(&self, index: usize, place: usize) -> Option<Frame> {
        let mut frame: Held = [0; 4];
        // SAFETY: as in `new`; `frame` has the four words that the operation writes.
        let number = unsafe { card_inbox(self.table.as_ptr(), index, place, frame.as_mut_ptr()) };
        (number == 0).then(|| Frame::of_words(frame[0] as u8, frame[1], frame[2], frame[3]))
    }
}
