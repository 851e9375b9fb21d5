//! One node's link layer: its state, its due frame and its events.

use crate::alias::{self, Alias};
use crate::frame::{Frame, EXTENDED};
use crate::header::{self, Header, Kind, Section, AMD, AME, AMR, ERROR_REPORT, FIELD_MAX, RID};
use crate::link::Link;
use crate::refusal::Refusal;
use crate::warm::{ReadOut, Start};

/// The states that document 01 names.
#[derive(Clone, Copy, Debug, PartialEq, Eq, PartialOrd, Ord)]
pub enum State {
    Off,
    Testing,
    Reserved,
    Permitted,
    Leaving,
    Resting,
    Silent,
}

impl State {
    /// All but Off.
    pub const ON: [State; 6] = [
        State::Testing,
        State::Reserved,
        State::Permitted,
        State::Leaving,
        State::Resting,
        State::Silent,
    ];
}

/// A state with what belongs to it alone. Check, Wait and Reserve are Testing.
#[derive(Clone, Copy, Debug, PartialEq, Eq)]
pub enum Phase {
    Off,
    /// This CID is due.
    Check(u8),
    /// CID 4 left so many ticks ago.
    Wait(u8),
    /// The reserving RID is due.
    Reserve,
    Reserved,
    Permitted,
    Leaving {
        released: bool,
    },
    Resting,
    Silent,
}

/// What waits to leave, one of each sort at most.
#[derive(Clone, Copy, Debug, PartialEq, Eq)]
pub struct Waiting {
    pub reply: bool,
    pub amd: bool,
    pub report: bool,
    /// The number of the error report.
    pub error: Option<u8>,
    pub host: Option<Frame>,
}

impl Waiting {
    pub const NOTHING: Waiting =
        Waiting { reply: false, amd: false, report: false, error: None, host: None };

    /// Whether anything does.
    pub fn any(&self) -> bool {
        self.reply || self.amd || self.report || self.error.is_some() || self.host.is_some()
    }
}

/// What must leave in time: a reply RID or an AMR.
#[derive(Clone, Copy, Debug, PartialEq, Eq)]
pub enum Owed {
    Nothing,
    Reply,
    Amr,
}

/// The duplicate report's field, as 002 prints it, and its data, as A.2 does: an event number has
/// eight bytes, and 002 prints seven.
const REPORT_FIELD: u16 = 0x15B4;
const REPORT_DATA: [u8; 8] = [0x01, 0x01, 0x00, 0x00, 0x00, 0x00, 0x02, 0x01];

#[derive(Clone, Copy, Debug, PartialEq, Eq)]
pub struct Node {
    phase: Phase,
    alias: Alias,
    id: u64,
    /// The generator, and whether the first alias is past: it has stepped since power-on, or the
    /// power-on was warm.
    generator: ReadOut,
    waiting: Waiting,
    /// What the host told last. Power-on alone sets it back.
    link: Link,
}

impl Node {
    /// Ticks from CID 4 to the reserving RID.
    pub const WAIT: u8 = 201;

    pub const OFF: Node = Node {
        phase: Phase::Off,
        alias: Alias(0),
        id: 0,
        generator: ReadOut { state: 0, past: false },
        waiting: Waiting::NOTHING,
        link: Link::ErrorActive,
    };

    /// A node as power-on leaves it; 3 for Node ID 0 or above 48 bits.
    pub fn power_on(id: u64) -> Result<Node, Refusal> {
        alias::first_alias(id)?;
        Ok(Node::started(id, Start::First))
    }

    /// A node as the power-on leaves it that is given a state of the generator; 3, 18.
    pub fn warm_on(id: u64, flag: u8, state: u64) -> Result<Node, Refusal> {
        alias::first_alias(id)?;
        Ok(Node::started(id, Start::of(flag, state)?))
    }

    /// A node that starts so under a Node ID of 1 to 48 bits.
    pub(crate) fn started(id: u64, start: Start) -> Node {
        let (alias, generator) = (start.alias(id), start.generator(id));
        Node { phase: Phase::Check(7), alias, id, generator, ..Node::OFF }
    }

    /// The generator's state, and whether the first alias is past; 2.
    pub fn read_out(&self) -> Result<ReadOut, Refusal> {
        if self.is_off() {
            return Err(Refusal::Off);
        }
        Ok(self.generator)
    }

    pub fn state(&self) -> State {
        match self.phase {
            Phase::Off => State::Off,
            Phase::Check(_) | Phase::Wait(_) | Phase::Reserve => State::Testing,
            Phase::Reserved => State::Reserved,
            Phase::Permitted => State::Permitted,
            Phase::Leaving { .. } => State::Leaving,
            Phase::Resting => State::Resting,
            Phase::Silent => State::Silent,
        }
    }

    pub fn phase(&self) -> Phase {
        self.phase
    }

    pub fn waiting(&self) -> &Waiting {
        &self.waiting
    }

    pub fn link_state(&self) -> Link {
        self.link
    }

    pub fn id(&self) -> u64 {
        self.id
    }

    /// The alias last taken, in any state. 0 in Off.
    pub fn alias(&self) -> Alias {
        self.alias
    }

    pub fn is_off(&self) -> bool {
        self.phase == Phase::Off
    }

    /// The alias in Testing.
    pub fn tested_alias(&self) -> Option<Alias> {
        (self.state() == State::Testing).then_some(self.alias)
    }

    /// The alias that the node uses: in Reserved, Permitted and Leaving.
    pub fn used_alias(&self) -> Option<Alias> {
        match self.phase {
            Phase::Reserved | Phase::Permitted | Phase::Leaving { .. } => Some(self.alias),
            _ => None,
        }
    }

    pub fn owed(&self) -> Owed {
        match self.phase {
            Phase::Leaving { .. } => Owed::Amr,
            _ if self.waiting.reply => Owed::Reply,
            _ => Owed::Nothing,
        }
    }

    /// The frame that leaves next.
    pub fn due(&self) -> Option<Frame> {
        match self.phase {
            Phase::Check(number) => Some(self.cid(number)),
            Phase::Reserve => Some(self.control(RID)),
            Phase::Reserved if self.waiting.reply => Some(self.control(RID)),
            Phase::Reserved => Some(self.with_own_id(AMD)),
            Phase::Permitted => self.first_waiting(),
            Phase::Leaving { .. } => Some(self.with_own_id(AMR)),
            Phase::Off | Phase::Wait(_) | Phase::Resting | Phase::Silent => None,
        }
    }

    /// Whether a frame is due. It is not made for that.
    #[inline]
    pub fn has_due(&self) -> bool {
        match self.phase {
            Phase::Check(_) | Phase::Reserve | Phase::Reserved | Phase::Leaving { .. } => true,
            Phase::Permitted => self.waiting.any(),
            Phase::Off | Phase::Wait(_) | Phase::Resting | Phase::Silent => false,
        }
    }

    fn first_waiting(&self) -> Option<Frame> {
        if self.waiting.reply {
            Some(self.control(RID))
        } else if self.waiting.amd {
            Some(self.with_own_id(AMD))
        } else if self.waiting.report {
            Some(Frame::extended(self.header(true, REPORT_FIELD), &REPORT_DATA))
        } else if let Some(number) = self.waiting.error {
            Some(self.with_own_id(ERROR_REPORT + u16::from(number)))
        } else {
            self.waiting.host
        }
    }

    fn cid(&self, number: u8) -> Frame {
        let section = Section((self.id >> (12 * (number - 4))) as u16 & 0x0FFF);
        self.control(header::cid_field(number, section))
    }

    fn control(&self, field: u16) -> Frame {
        Frame { header: self.header(false, field), ..Frame::EMPTY }
    }

    fn with_own_id(&self, field: u16) -> Frame {
        Frame::with_node_id(self.header(false, field), self.id)
    }

    /// The header of a frame that this node sends.
    fn header(&self, message: bool, field: u16) -> u32 {
        header::join(Header::sent(message, field, self.alias))
    }

    /// The due frame leaves; 2, 4.
    pub fn leaves(&mut self) -> Result<Frame, Refusal> {
        let frame = self.due_or_refusal()?;
        self.left();
        Ok(frame)
    }

    /// The due frame's sending fails; 2, 4.
    pub fn fails(&mut self) -> Result<(), Refusal> {
        self.due_or_refusal()?;
        if self.state() == State::Testing {
            self.restart();
        }
        Ok(())
    }

    #[inline]
    pub(crate) fn due_or_refusal(&self) -> Result<Frame, Refusal> {
        if self.is_off() {
            return Err(Refusal::Off);
        }
        self.due().ok_or(Refusal::NothingDue)
    }

    /// What the due frame's leaving makes of the node.
    pub(crate) fn left(&mut self) {
        match self.phase {
            Phase::Check(4) => self.phase = Phase::Wait(0),
            Phase::Check(number) => self.phase = Phase::Check(number - 1),
            Phase::Reserve => self.phase = Phase::Reserved,
            Phase::Reserved if self.waiting.reply => self.waiting.reply = false,
            Phase::Reserved => self.phase = Phase::Permitted,
            Phase::Permitted => self.left_permitted(),
            Phase::Leaving { released: true } => self.phase = Phase::Resting,
            Phase::Leaving { released: false } => self.restart(),
            Phase::Off | Phase::Wait(_) | Phase::Resting | Phase::Silent => {}
        }
    }

    fn left_permitted(&mut self) {
        if self.waiting.reply {
            self.waiting.reply = false;
        } else if self.waiting.amd {
            self.waiting.amd = false;
        } else if self.waiting.report {
            self.phase = Phase::Silent;
            self.waiting = Waiting::NOTHING;
        } else if self.waiting.error.is_some() {
            self.waiting.error = None;
        } else {
            self.waiting.host = None;
        }
    }

    fn restart(&mut self) {
        let (alias, state) = alias::next(self.generator.state);
        (self.alias, self.generator) = (alias, ReadOut { state, past: true });
        self.phase = Phase::Check(7);
        self.waiting = Waiting::NOTHING;
    }

    fn leave(&mut self, released: bool) {
        self.phase = Phase::Leaving { released };
        self.waiting = Waiting::NOTHING;
    }

    /// A frame is delivered; 2, then 9 as for a foreign frame.
    pub fn receives(&mut self, frame: &Frame) -> Result<(), Refusal> {
        if self.is_off() {
            return Err(Refusal::Off);
        }
        let frame = frame.checked()?;
        self.hear(&frame);
        Ok(())
    }

    /// What a well-formed frame makes of a node that is not Off.
    pub(crate) fn hear(&mut self, frame: &Frame) {
        if frame.kind != EXTENDED {
            return;
        }
        let header = header::split(frame.header);
        if header.alias == self.alias {
            self.hear_own_alias(header.kind());
        } else if self.phase == Phase::Permitted {
            self.hear_other_alias(header.kind(), frame);
        }
    }

    fn hear_own_alias(&mut self, kind: Kind) {
        let cid = matches!(kind, Kind::Cid(..));
        match self.phase {
            Phase::Check(_) | Phase::Wait(_) | Phase::Reserve => self.restart(),
            Phase::Reserved | Phase::Permitted if cid => self.waiting.reply = true,
            Phase::Reserved => self.restart(),
            Phase::Permitted => self.leave(false),
            Phase::Off | Phase::Leaving { .. } | Phase::Resting | Phase::Silent => {}
        }
    }

    fn hear_other_alias(&mut self, kind: Kind, frame: &Frame) {
        match kind {
            Kind::Ame if frame.len == 0 || frame.carries(self.id) => self.waiting.amd = true,
            Kind::Amd if frame.carries(self.id) => self.waiting.report = true,
            _ => {}
        }
    }

    /// One tick passes; never refused.
    #[inline]
    pub fn tick(&mut self) {
        if let Phase::Wait(ticks) = self.phase {
            let ticks = ticks + 1;
            self.phase = if ticks == Self::WAIT { Phase::Reserve } else { Phase::Wait(ticks) };
        }
    }

    /// The host orders a message; 2, 9, 7, 8.
    pub fn message(&mut self, field: u16, len: u8, data: [u8; 8]) -> Result<(), Refusal> {
        self.order_host_frame(field <= FIELD_MAX && len <= 8, true, field, len, data)
    }

    /// The host orders an enquiry, for all or for one Node ID; 2, 9, 7, 8.
    pub fn enquiry(&mut self, len: u8, id: [u8; 6]) -> Result<(), Refusal> {
        let mut data = [0; 8];
        data[..6].copy_from_slice(&id);
        self.order_host_frame(len == 0 || len == 6, false, AME, len, data)
    }

    fn order_host_frame(
        &mut self,
        fits: bool,
        message: bool,
        field: u16,
        len: u8,
        data: [u8; 8],
    ) -> Result<(), Refusal> {
        if self.is_off() {
            return Err(Refusal::Off);
        }
        if !fits {
            return Err(Refusal::Malformed);
        }
        if self.phase != Phase::Permitted {
            return Err(Refusal::NotPermitted);
        }
        if self.waiting.host.is_some() {
            return Err(Refusal::HostFrameWaits);
        }
        let header = self.header(message, field);
        self.waiting.host = Some(Frame { header, kind: EXTENDED, len, data }.checked()?);
        Ok(())
    }

    /// The host gives up the alias; 2, 7.
    pub fn release(&mut self) -> Result<(), Refusal> {
        match self.phase {
            Phase::Off => Err(Refusal::Off),
            Phase::Permitted => {
                self.leave(true);
                Ok(())
            }
            _ => Err(Refusal::NotPermitted),
        }
    }

    /// The host tells the link state; 2, 14. Only Permitted reports the change.
    pub fn link(&mut self, state: u8) -> Result<(), Refusal> {
        if self.is_off() {
            return Err(Refusal::Off);
        }
        let next = Link::of(state)?;
        if self.phase == Phase::Permitted {
            self.waiting.error = self.link.report(next).or(self.waiting.error);
        }
        self.link = next;
        Ok(())
    }
}
