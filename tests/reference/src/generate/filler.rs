//! Scripts and lists that seek the cells of the coverage table which nothing has reached yet.

use std::collections::BTreeMap;

use crate::alias::{Alias, MAX_48};
use crate::command::Command;
use crate::frame::Frame;
use crate::generate::cases::Case;
use crate::generate::coverage::{impossible, in_scripts, Coverage, Event, Heed, Look, Row};
use crate::generate::draft::Draft;
use crate::generate::prng::Prng;
use crate::header::{self, Header};
use crate::inbox::Inbox;
use crate::link::Link;
use crate::node::{Node, Phase, State};
use crate::segment::Segment;

/// Nodes in one script, besides those that are switched on on the way.
const NODES: usize = 5;
/// No script grows far beyond this, and no list far beyond so many commands, of which choices have no
/// byte.
const BYTES: usize = 2_000;
const COMMANDS: usize = 10_000;
/// So many scripts or lists are tried.
const MOST: usize = 400;

const SEND_REFUSED_5: Event = Event::Answer(2, 5);

pub struct Filler<'a> {
    draft: Draft,
    cover: &'a mut Coverage,
    rng: &'a mut Prng,
    events: Vec<Event>,
    /// Rows in which a node stands ready for the last part.
    taken: Vec<Row>,
    /// Whether it is a list, in which there may be link orders, choices and read-outs, and no script.
    is_list: bool,
}

/// Scripts that reach every cell that scripts can, counted in `cover` as they are written.
pub fn scripts(cover: &mut Coverage, rng: &mut Prng) -> Vec<Vec<u8>> {
    fill(cover, rng, false).into_iter().map(|draft| draft.bytes).collect()
}

/// Lists with link orders and choices that reach every cell, counted in `cover` as they are written.
pub fn lists(cover: &mut Coverage, rng: &mut Prng) -> Vec<Vec<Command>> {
    fill(cover, rng, true).into_iter().map(|draft| draft.list).collect()
}

/// One after another until no cell is missing.
fn fill(cover: &mut Coverage, rng: &mut Prng, is_list: bool) -> Vec<Draft> {
    let missing = if is_list { Coverage::missing_in_lists } else { Coverage::missing_cells };
    let mut drafts = Vec::new();
    while drafts.len() < MOST && !missing(cover).is_empty() {
        drafts.push(filled(cover, rng, is_list));
    }
    drafts
}

fn filled(cover: &mut Coverage, rng: &mut Prng, is_list: bool) -> Draft {
    let (draft, events, taken) = (Draft::new(), Event::all(), vec![]);
    let mut filler = Filler { draft, cover, rng, events, taken, is_list };
    for _ in 0..NODES {
        let index = filler.rng.below(Segment::PLACES) as u8;
        filler.power_on(index);
    }
    while !filler.is_long_enough() && filler.step() {}
    filler.jam();
    filler.cover.end_script(&filler.draft.segment);
    filler.draft
}

impl Filler<'_> {
    /// Long enough, and if it can be, with nodes past the wait for the last part.
    fn is_long_enough(&self) -> bool {
        if self.draft.list.len() > COMMANDS {
            return true;
        }
        let length = self.draft.bytes.len();
        let past_wait = |&i: &u8| {
            !matches!(self.row(i), Row::Check(_) | Row::Wait | Row::Resting | Row::Silent)
        };
        length > 2 * BYTES || length > BYTES && self.draft.on().iter().all(past_wait)
    }

    fn push(&mut self, command: Command) {
        self.draft.write(&command);
        let _ = self.cover.carry_out(&mut self.draft.segment, &command);
    }

    /// In a list some are by 0A, so that nodes whose first alias is past come to every state.
    fn power_on(&mut self, index: u8) {
        let id = self.some_id();
        if self.is_list && self.rng.percent(40) {
            return self.warm_on(index, id, 1);
        }
        self.push(Command::PowerOn { index, id });
    }

    fn some_id(&mut self) -> u64 {
        0x0501_0101_0000 + self.rng.number() % 0x1_0000
    }

    fn warm_on(&mut self, index: u8, id: u64, flag: u8) {
        let state = self.rng.number() & MAX_48;
        self.push(Command::WarmOn { index, id, flag, state });
    }

    /// The Node ID of another node, which is switched on for it if there is none.
    fn id_in_use(&mut self, index: u8) -> u64 {
        let others = |draft: &Draft| -> Vec<u8> {
            draft.on().into_iter().filter(|&other| other != index).collect()
        };
        if others(&self.draft).is_empty() {
            self.power_on((index + 1) % Segment::PLACES as u8);
        }
        let other = self.rng.pick(&others(&self.draft));
        self.draft.segment.node(usize::from(other)).id()
    }

    fn row(&self, index: u8) -> Row {
        Row::of(self.draft.segment.node(usize::from(index)))
    }

    fn is_missing(&self, row: Row, event: Event) -> bool {
        let reachable =
            impossible(row, event).is_none() && (self.is_list || in_scripts(row, event));
        reachable && !self.cover.cells.contains_key(&(row, event))
    }

    /// Missing, and not done already by a node that has yet to show it.
    fn is_wanted(&self, row: Row, event: Event) -> bool {
        self.is_missing(row, event) && !self.cover.is_pending(&(row, event))
    }

    /// What is wanted in a row, but for sends refused by 5, which come last.
    fn wanted(&self, row: Row) -> Vec<Event> {
        let events = self.events.iter().copied().filter(|&event| event != SEND_REFUSED_5);
        events.filter(|&event| self.is_wanted(row, event)).collect()
    }

    /// Whether an event can be done at a node with the link state and the generator that it has.
    fn fits(&self, index: u8, event: Event) -> bool {
        match event {
            Event::Link { was, .. } => was == self.link(index),
            Event::ReadOut { past } => {
                self.draft.segment.read_out(index.into()).is_ok_and(|read| read.past == past)
            }
            _ => true,
        }
    }

    fn link(&self, index: u8) -> Link {
        self.draft.segment.node(usize::from(index)).link_state()
    }

    /// Does one wanted thing, or moves towards one; false if there is nothing left to do.
    fn step(&mut self) -> bool {
        self.make_room();
        let (mut gentle, mut harsh) = (vec![], vec![]);
        let mut wanted = BTreeMap::new();
        for index in 0..Segment::PLACES as u8 {
            let row = self.row(index);
            let events: &Vec<Event> = wanted.entry(row).or_insert_with(|| self.wanted(row));
            for &event in events.iter().filter(|&&event| self.fits(index, event)) {
                let side = if changes(row, event) { &mut harsh } else { &mut gentle };
                side.push((index, event));
            }
        }
        if !gentle.is_empty() {
            let (index, _) = self.rng.pick(&gentle);
            self.perform_gentle(index);
        } else if !harsh.is_empty() {
            let (index, event) = self.rng.pick(&harsh);
            self.perform(index, event);
            self.observe(index);
        } else {
            return self.advance();
        }
        true
    }

    /// Does all at a node that is wanted and changes nothing there, then lets it show that.
    fn perform_gentle(&mut self, index: u8) {
        let row = self.row(index);
        for event in self.wanted(row) {
            let fits = self.row(index) == row && self.fits(index, event);
            if fits && !changes(row, event) {
                self.make_room();
                self.perform(index, event);
            }
        }
        self.observe(index);
    }

    /// Sends until nothing is due, or until a Testing node has shown where it stands.
    fn observe(&mut self, index: u8) {
        for _ in 0..8 {
            self.make_room();
            let testing = self.draft.state(index) == State::Testing;
            let due = self.draft.has_due(index);
            if self.row(index) != Row::Wait && self.row(index) != Row::Off {
                self.push(Command::Send { index });
            }
            if testing || !due {
                return;
            }
        }
    }

    /// Keeps every inbox short of full, and what is owed short of late.
    fn make_room(&mut self) {
        for index in self.draft.on() {
            let place = usize::from(index);
            while self.draft.segment.inbox_len(place) > Inbox::ROOM - 3
                || self.draft.segment.inbox_age(place) > Some(30)
            {
                self.push(Command::Deliver { index });
            }
        }
        for index in self.draft.on() {
            if self.draft.segment.owed_age(usize::from(index)) > Some(30) {
                self.push(Command::Send { index });
            }
        }
    }

    fn drain(&mut self, index: u8) {
        while self.draft.segment.inbox_len(usize::from(index)) > 0 {
            self.push(Command::Deliver { index });
        }
    }

    fn perform(&mut self, index: u8, event: Event) {
        match event {
            Event::Answer(byte, refusal) => self.answer(index, byte, refusal),
            Event::EnquiryTaken { all } => self.enquire(index, if all { 0 } else { 6 }),
            Event::Deliver(case) => {
                let frame = self.frame(index, case);
                self.deliver(index, frame);
            }
            Event::DeliverBit28 { heed, bit_28 } => {
                self.deliver_with(index, heed, |parts| Header { bit_28, ..parts });
            }
            Event::DeliverAliasZero(heed) => {
                self.deliver_with(index, heed, |parts| Header { alias: Alias(0), ..parts });
            }
            Event::BusFrame => self.bus_frame(index),
            Event::ForeignFrame => self.push(idle()),
            Event::Link { is, .. } => self.tell(index, is),
            Event::LinkRefused(_) => {
                let any = self.rng.between(3, 255) as u8;
                let state = self.rng.pick(&[3, 3, 255, any]);
                self.push(Command::Link { index, state });
            }
            Event::Choice(look) => self.choose_until(index, look),
            Event::WarmOnTaken { warm } => {
                let id = self.some_id();
                self.warm_on(index, id, warm.into());
            }
            Event::ReadOut { .. } | Event::ReadOutRefused(_) => {
                self.push(Command::ReadOut { index });
            }
        }
    }

    /// Choices until one of them does this at the node. Where two others are due some end before it.
    fn choose_until(&mut self, index: u8, look: Look) {
        while look == Look::NotReached && self.others_due(index).len() < 2 {
            self.newcomer(index);
        }
        let row = self.row(index);
        for _ in 0..Segment::PLACES {
            if self.is_wanted(row, Event::Choice(look)) {
                self.push(Command::Choose);
            }
        }
    }

    fn answer(&mut self, index: u8, byte: u8, refusal: u8) {
        let nine = refusal == 9;
        match byte {
            1 if refusal == 3 => self.push(Command::PowerOn { index, id: 0 }),
            1 if refusal == 15 => {
                let id = self.id_in_use(index);
                self.push(Command::PowerOn { index, id });
            }
            10 => self.refused_warm_on(index, refusal),
            1 => self.power_on(index),
            2 => self.push(Command::Send { index }),
            3 => self.push(Command::FailedSend { index }),
            4 if refusal == 6 => {
                self.drain(index);
                self.push(Command::Deliver { index });
            }
            4 => self.push(Command::Deliver { index }),
            5 => self.push(Command::Tick),
            7 => self.order_message(index, nine),
            8 if nine => self.enquire(index, 7),
            8 => self.enquire(index, 0),
            _ => self.push(Command::Release { index }),
        }
    }

    /// A power-on by 0A that is refused so.
    fn refused_warm_on(&mut self, index: u8, refusal: u8) {
        let flag = self.rng.pick(&[0, 1]);
        let any = self.rng.between(2, 255) as u8;
        match refusal {
            3 => self.warm_on(index, 0, flag),
            15 => {
                let id = self.id_in_use(index);
                self.warm_on(index, id, flag);
            }
            _ => {
                let (id, flag) = (self.some_id(), self.rng.pick(&[2, 2, 255, any]));
                self.warm_on(index, id, flag);
            }
        }
    }

    fn tell(&mut self, index: u8, link: Link) {
        self.push(Command::Link { index, state: link.number() });
    }

    /// A link state that is reported in Permitted.
    fn tell_to_report(&mut self, index: u8) {
        let next = match self.link(index) {
            Link::ErrorActive => Link::ErrorPassive,
            Link::ErrorPassive => Link::ErrorActive,
            Link::BusOff => self.rng.pick(&[Link::ErrorActive, Link::ErrorPassive]),
        };
        self.tell(index, next);
    }

    fn order_message(&mut self, index: u8, malformed: bool) {
        let data = self.rng.number().to_be_bytes();
        let (mut field, mut len) = (self.rng.below(0x8000) as u16, self.rng.below(9) as u8);
        if malformed && self.rng.percent(50) {
            field |= 0x8000;
        } else if malformed {
            len += 9;
        }
        self.push(Command::Message { index, field, len, data });
    }

    fn enquire(&mut self, index: u8, len: u8) {
        let [_, _, id @ ..] = self.rng.number().to_be_bytes();
        self.push(Command::Enquiry { index, len, id });
    }

    fn frame(&mut self, index: u8, case: Case) -> Frame {
        case.frame(self.draft.segment.node(usize::from(index)), self.rng)
    }

    /// Brings a foreign frame to a node, unless what stands before it changes the node.
    fn deliver(&mut self, index: u8, frame: Frame) {
        let row = self.row(index);
        self.drain(index);
        if self.row(index) == row {
            self.push(Command::Foreign { frame });
            self.push(Command::Deliver { index });
        }
    }

    /// Brings a frame to heed to a node, with a header of which some part is another.
    fn deliver_with(&mut self, index: u8, heed: Heed, other: impl FnOnce(Header) -> Header) {
        let mut frame = self.frame(index, case_to_heed(heed));
        frame.header = header::join(other(header::split(frame.header)));
        self.deliver(index, frame);
    }

    /// Lets some other node send.
    fn bus_frame(&mut self, index: u8) {
        let ready = self.others_due(index);
        if ready.is_empty() {
            let index = self.newcomer(index);
            self.push(Command::Send { index });
        } else {
            let index = self.rng.pick(&ready);
            self.push(Command::Send { index });
        }
    }

    fn others_due(&self, index: u8) -> Vec<u8> {
        let others = self.draft.on().into_iter().filter(|&other| other != index);
        others.filter(|&other| self.draft.has_due(other)).collect()
    }

    /// Switches on some other node: one that is Off, or else has no due frame.
    fn newcomer(&mut self, index: u8) -> u8 {
        let mut others = (0..Segment::PLACES as u8).filter(|&other| other != index);
        let off = others.clone().find(|&other| self.draft.state(other) == State::Off);
        let idle = off.or_else(|| others.find(|&other| !self.draft.has_due(other)));
        let other = idle.expect("some other node has no due frame");
        self.power_on(other);
        other
    }

    /// Nothing is wanted where the nodes stand: one of them goes on.
    fn advance(&mut self) -> bool {
        if (self.any_to_jam() || !self.any_on_the_way()) && self.only_jams_left() {
            return false;
        }
        let on = self.draft.on();
        let full = on.iter().copied().find(|&i| self.draft.segment.inbox_len(usize::from(i)) > 0);
        let witness = on
            .iter()
            .copied()
            .find(|&i| self.row(i) != Row::Wait && self.cover.will_show(usize::from(i)));
        if let Some(index) = full {
            self.push(Command::Deliver { index });
        } else if let Some(index) = witness {
            self.observe(index);
        } else {
            self.go_on(&on);
        }
        true
    }

    /// Nodes past the wait first, so that those before it go through it together. In a list some
    /// get another link state instead.
    fn go_on(&mut self, on: &[u8]) {
        if self.is_list && self.rng.percent(20) {
            let (index, link) = (self.rng.pick(on), self.rng.pick(&Link::ALL));
            return self.tell(index, link);
        }
        let those = |good: &dyn Fn(Row) -> bool| -> Vec<u8> {
            on.iter().copied().filter(|&index| good(self.row(index))).collect()
        };
        let checks = those(&|row| matches!(row, Row::Check(_)));
        let others = those(&|row| !matches!(row, Row::Check(_) | Row::Wait));
        if !others.is_empty() {
            let index = self.rng.pick(&others);
            self.move_on(index);
        } else if !checks.is_empty() {
            self.push(Command::Send { index: checks[0] });
        } else {
            self.tick();
        }
    }

    /// A tick, and before the 201st a send that comes too early.
    fn tick(&mut self) {
        for index in self.draft.on() {
            if self.draft.phase(index) == Phase::Wait(Node::WAIT - 1) {
                self.push(Command::Send { index });
            }
        }
        self.push(Command::Tick);
    }

    fn only_jams_left(&self) -> bool {
        let others = |event: &&Event| **event != SEND_REFUSED_5;
        let missing = |row| self.events.iter().filter(others).any(|&e| self.is_missing(row, e));
        !Row::all().into_iter().any(missing)
    }

    fn any_to_jam(&self) -> bool {
        self.draft.on().iter().any(|&index| self.is_wanted(self.row(index), SEND_REFUSED_5))
    }

    fn any_on_the_way(&self) -> bool {
        let states = [State::Testing, State::Reserved];
        self.draft.on().iter().any(|&index| states.contains(&self.draft.state(index)))
    }

    fn move_on(&mut self, index: u8) {
        let replied = Row::Reserved { reply: true };
        match self.row(index) {
            Row::Permitted { .. } => self.move_permitted(index),
            Row::Resting | Row::Silent => self.power_on(index),
            Row::Reserved { reply: false } if !self.wanted(replied).is_empty() => {
                self.perform(index, Event::Deliver(Case::OwnCid));
            }
            _ => self.push(Command::Send { index }),
        }
    }

    /// Makes something wait or lets it leave, whichever leads to more that is wanted.
    fn move_permitted(&mut self, index: u8) {
        let row = self.row(index);
        let count = |which| permitted_after(row, which).map_or(0, |next| self.wanted(next).len());
        let counts = [0, 1, 2, 3, 4, 5, 6, 7].map(count);
        let most = counts.into_iter().max().unwrap_or(0);
        let best: Vec<usize> = (0..8).filter(|&which| counts[which] == most).collect();
        let far = self.towards(row, |goal| !self.wanted(goal).is_empty());
        let which = match far {
            _ if most > 0 => self.rng.pick(&best),
            Some(which) => which,
            None if self.draft.has_due(index) => 4,
            None => self.rng.pick(&[5, 6]),
        };
        self.move_by(index, which);
    }

    /// The first of the frames that lead from this row towards a Permitted row to be reached.
    fn towards(&self, row: Row, reached: impl Fn(Row) -> bool) -> Option<usize> {
        let leads = |&which: &usize| {
            let next = permitted_after(row, which);
            let wanted =
                |&goal: &Row| next.is_some_and(|next| includes(goal, next)) && reached(goal);
            Row::all().iter().any(wanted)
        };
        [0, 1, 2, 3, 7].into_iter().find(leads)
    }

    /// CID, AME, AMD, message, the due frame leaves, release, collision, error report.
    fn move_by(&mut self, index: u8, which: usize) {
        match which {
            0 => self.perform(index, Event::Deliver(Case::OwnCid)),
            1 => self.perform(index, Event::Deliver(Case::AmeOwnId)),
            2 => self.perform(index, Event::Deliver(Case::AmdOwnId)),
            3 => self.order_message(index, false),
            5 => self.push(Command::Release { index }),
            6 => self.perform(index, Event::Deliver(Case::OwnMessage)),
            7 => self.tell_to_report(index),
            _ => self.push(Command::Send { index }),
        }
    }

    /// Last in a script: all inboxes are filled, and every send is refused by 5.
    fn jam(&mut self) {
        for index in self.draft.on() {
            self.drain(index);
        }
        for index in self.draft.on() {
            self.shape(index);
        }
        if !self.any_to_jam() {
            return;
        }
        for index in self.draft.on() {
            self.drain(index);
        }
        for _ in 0..Inbox::ROOM {
            self.push(idle());
        }
        for index in self.draft.on() {
            if self.is_wanted(self.row(index), SEND_REFUSED_5) {
                self.push(Command::Send { index });
            }
        }
    }

    fn is_to_jam(&self, row: Row) -> bool {
        self.is_wanted(row, SEND_REFUSED_5) && !self.taken.contains(&row)
    }

    /// Moves a node a little, so that its send when jammed is a wanted one.
    fn shape(&mut self, index: u8) {
        for _ in 0..6 {
            self.drain(index);
            let row = self.row(index);
            if self.is_to_jam(row) {
                self.taken.push(row);
                return;
            }
            match row {
                Row::Permitted { .. } => self.move_towards_jam(index),
                Row::Reserved { reply: false } => {
                    self.perform(index, Event::Deliver(Case::OwnCid));
                }
                Row::Check(_) | Row::Reserve => self.push(Command::Send { index }),
                _ => return,
            }
        }
    }

    /// Adds one of the waiting frames that a wanted row has and this one lacks.
    fn move_towards_jam(&mut self, index: u8) {
        let far = self.towards(self.row(index), |goal| self.is_to_jam(goal));
        let leaving = |released| self.is_to_jam(Row::Leaving { released });
        match far {
            Some(which) => self.move_by(index, which),
            None if leaving(true) => self.move_by(index, 5),
            None if leaving(false) => self.move_by(index, 6),
            None => {}
        }
    }
}

/// Whether an event changes a node in this row.
fn changes(row: Row, event: Event) -> bool {
    let testing = matches!(row, Row::Check(_) | Row::Wait | Row::Reserve);
    let heed = match event {
        Event::Answer(1 | 2 | 7 | 9, 0) | Event::EnquiryTaken { .. } => return true,
        Event::WarmOnTaken { .. } => return true,
        Event::Answer(3, 0) => return testing,
        Event::Link { was, is } => return was != is,
        Event::Deliver(case) => Heed::of(case),
        Event::DeliverBit28 { heed, .. } | Event::DeliverAliasZero(heed) => Some(heed),
        _ => None,
    };
    match (row, heed) {
        (_, Some(Heed::OwnCid | Heed::OwnOther)) if testing => true,
        (Row::Reserved { .. } | Row::Permitted { .. }, Some(Heed::OwnOther)) => true,
        (Row::Reserved { reply } | Row::Permitted { reply, .. }, Some(Heed::OwnCid)) => !reply,
        (Row::Permitted { amd, .. }, Some(Heed::Ame)) => !amd,
        (Row::Permitted { report, .. }, Some(Heed::Amd)) => !report,
        _ => false,
    }
}

/// Where a Permitted node comes to by each way that `move_by` knows.
fn permitted_after(row: Row, which: usize) -> Option<Row> {
    let Row::Permitted { mut reply, mut amd, mut report, mut error, mut host } = row else {
        return None;
    };
    match which {
        0 => reply = true,
        1 => amd = true,
        2 => report = true,
        3 => host = true,
        5 => return Some(Row::Leaving { released: true }),
        6 => return Some(Row::Leaving { released: false }),
        7 => error = true,
        _ if reply => reply = false,
        _ if amd => amd = false,
        _ if report => return Some(Row::Silent),
        _ if error => error = false,
        _ => host = false,
    }
    let next = Row::Permitted { reply, amd, report, error, host };
    (next != row).then_some(next)
}

/// Whether all that waits in one Permitted row waits in the other too.
fn includes(more: Row, less: Row) -> bool {
    let waits = |row| match row {
        Row::Permitted { reply, amd, report, error, host } => {
            Some([reply, amd, report, error, host])
        }
        _ => None,
    };
    match (waits(more), waits(less)) {
        (Some(more), Some(less)) => less.iter().zip(more).all(|(&a, b)| b || !a),
        _ => false,
    }
}

/// A case of each sort that a node heeds.
fn case_to_heed(heed: Heed) -> Case {
    match heed {
        Heed::OwnCid => Case::OwnCid,
        Heed::OwnOther => Case::OwnRid,
        Heed::Ame => Case::AmeOwnId,
        Heed::Amd => Case::AmdOwnId,
    }
}

/// A foreign frame that has no effect.
fn idle() -> Command {
    let parts = Header { bit_28: false, message: true, field: 0, alias: Alias(0) };
    Command::Foreign { frame: Frame { header: header::join(parts), ..Frame::EMPTY } }
}
