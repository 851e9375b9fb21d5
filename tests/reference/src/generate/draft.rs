//! A list being written, as a script too, with the segment as it stands after it.

use crate::alias::Alias;
use crate::command::{Answer, Command, Given};
use crate::frame::{node_id_bytes, Frame, ELEVEN_BIT};
use crate::header::{self, Header, AMD, AME};
use crate::node::{Owed, Phase, State};
use crate::segment::Segment;

/// Each method that writes a command leaves the answer in `answer`.
pub struct Draft {
    /// The script: all of the list but its link orders, choices and read-outs.
    pub bytes: Vec<u8>,
    pub list: Vec<Command>,
    pub segment: Segment,
    pub answer: Answer,
}

impl Default for Draft {
    fn default() -> Self {
        Draft { bytes: vec![], list: vec![], segment: Segment::new(), answer: Ok(Given::Nothing) }
    }
}

impl Draft {
    pub fn new() -> Draft {
        Draft::default()
    }

    /// Writes a command and carries it out.
    pub fn push(&mut self, command: Command) -> &mut Draft {
        self.write(&command);
        self.answer = self.segment.carry_out(&command);
        self
    }

    /// Writes a command that its user carries out.
    pub(crate) fn write(&mut self, command: &Command) {
        command.write(&mut self.bytes);
        self.list.push(*command);
    }

    pub fn power_on(&mut self, index: u8, id: u64) -> &mut Draft {
        self.push(Command::PowerOn { index, id })
    }

    pub fn send(&mut self, index: u8) -> &mut Draft {
        self.push(Command::Send { index })
    }

    pub fn fail(&mut self, index: u8) -> &mut Draft {
        self.push(Command::FailedSend { index })
    }

    pub fn deliver(&mut self, index: u8) -> &mut Draft {
        self.push(Command::Deliver { index })
    }

    pub fn ticks(&mut self, count: usize) -> &mut Draft {
        for _ in 0..count {
            self.push(Command::Tick);
        }
        self
    }

    pub fn foreign(&mut self, frame: Frame) -> &mut Draft {
        self.push(Command::Foreign { frame })
    }

    pub fn message(&mut self, index: u8, field: u16, bytes: &[u8]) -> &mut Draft {
        let frame = Frame::extended(0, bytes);
        self.push(Command::Message { index, field, len: frame.len, data: frame.data })
    }

    pub fn enquiry(&mut self, index: u8, len: u8, id: u64) -> &mut Draft {
        let [_, _, a, b, c, d, e, f] = id.to_be_bytes();
        self.push(Command::Enquiry { index, len, id: [a, b, c, d, e, f] })
    }

    pub fn release(&mut self, index: u8) -> &mut Draft {
        self.push(Command::Release { index })
    }

    pub fn link(&mut self, index: u8, state: u8) -> &mut Draft {
        self.push(Command::Link { index, state })
    }

    pub fn choose(&mut self) -> &mut Draft {
        self.push(Command::Choose)
    }

    pub fn warm_on(&mut self, index: u8, id: u64, flag: u8, state: u64) -> &mut Draft {
        self.push(Command::WarmOn { index, id, flag, state })
    }

    pub fn read_out(&mut self, index: u8) -> &mut Draft {
        self.push(Command::ReadOut { index })
    }

    /// The alias of a node, in any state.
    pub fn alias(&self, index: u8) -> Alias {
        self.segment.node(usize::from(index)).alias()
    }

    pub fn state(&self, index: u8) -> State {
        self.segment.node(usize::from(index)).state()
    }

    pub fn phase(&self, index: u8) -> Phase {
        self.segment.node(usize::from(index)).phase()
    }

    pub fn has_due(&self, index: u8) -> bool {
        self.segment.node(usize::from(index)).due().is_some()
    }

    /// The indexes that are not Off.
    pub fn on(&self) -> Vec<u8> {
        (0..Segment::PLACES as u8).filter(|&i| self.state(i) != State::Off).collect()
    }

    /// A foreign control frame with these data.
    pub fn control(&mut self, field: u16, alias: Alias, bytes: &[u8]) -> &mut Draft {
        self.foreign(Frame::extended(header::join(Header::sent(false, field, alias)), bytes))
    }

    /// A foreign CID with a node's own alias.
    pub fn foreign_cid(&mut self, index: u8) -> &mut Draft {
        self.control(0x7050, self.alias(index), &[])
    }

    /// A foreign message with a node's own alias.
    pub fn foreign_message(&mut self, index: u8) -> &mut Draft {
        let parts = Header::sent(true, 0x05B4, self.alias(index));
        self.foreign(Frame::extended(header::join(parts), &[1]))
    }

    /// A foreign AME for all, and a foreign AMD of a node's own Node ID, both with alias 0.
    pub fn foreign_ame(&mut self) -> &mut Draft {
        self.control(AME, Alias(0), &[])
    }

    pub fn foreign_amd_of(&mut self, index: u8) -> &mut Draft {
        let id = self.segment.node(usize::from(index)).id();
        self.control(AMD, Alias(0), &node_id_bytes(id)[..6])
    }

    /// A frame that has no effect anywhere.
    pub fn idle_frame(&mut self) -> &mut Draft {
        self.foreign(Frame { header: 0x123, kind: ELEVEN_BIT, ..Frame::extended(0, &[7, 7]) })
    }

    /// Delivers all that stands in an inbox.
    pub fn drain(&mut self, index: u8) -> &mut Draft {
        for _ in 0..self.segment.inbox_len(usize::from(index)) {
            self.deliver(index);
        }
        self
    }

    pub fn drain_all(&mut self) -> &mut Draft {
        for index in self.on() {
            self.drain(index);
        }
        self
    }

    /// Sends and drains every inbox.
    pub fn send_and_drain(&mut self, index: u8) -> &mut Draft {
        self.send(index).drain_all()
    }

    /// Brings nodes from wherever they are to a state past the wait, together and in time.
    pub fn bring_all(&mut self, indexes: &[u8], goal: State) {
        for _ in 0..4_000 {
            self.drain_all();
            self.settle_owed();
            let mut moved = false;
            for &index in indexes {
                if self.on_the_way(index, goal) && self.has_due(index) {
                    self.send_and_drain(index);
                    moved = true;
                }
            }
            if !moved {
                if !indexes.iter().any(|&index| self.on_the_way(index, goal)) {
                    return;
                }
                self.ticks(1);
            }
        }
    }

    fn on_the_way(&self, index: u8, goal: State) -> bool {
        match self.state(index) {
            State::Testing => true,
            State::Reserved => goal == State::Permitted,
            State::Leaving => true,
            _ => false,
        }
    }

    /// Sends every reply RID and AMR that waits, with all inboxes drained.
    pub fn settle_owed(&mut self) {
        for index in self.on() {
            if self.segment.node(usize::from(index)).owed() != Owed::Nothing {
                self.send_and_drain(index);
            }
        }
    }

    /// Powers nodes on at 0, 1, .. and brings them to Permitted.
    pub fn permitted(ids: &[u64]) -> Draft {
        let mut draft = Draft::new();
        let indexes: Vec<u8> = (0..ids.len() as u8).collect();
        for (&index, &id) in indexes.iter().zip(ids) {
            draft.power_on(index, id);
        }
        draft.bring_all(&indexes, State::Permitted);
        draft
    }
}
