//! Random scripts and lists, guided by the segment they make: within given limits, and without any.

use crate::alias::{Alias, ALIASES, MAX_48};
use crate::command::{Command, Given};
use crate::frame::Frame;
use crate::generate::cases::Case;
use crate::generate::draft::Draft;
use crate::generate::prng::Prng;
use crate::inbox::Inbox;
use crate::limits::Limits;
use crate::node::{Node, Owed, Phase, State};
use crate::segment::Segment;
use crate::turns::Turns;
use crate::warm::ReadOut;
use crate::watch::Watch;

/// How a script goes about it.
#[derive(Clone, Debug)]
pub struct Temper {
    /// Indexes that are switched on, from 0 up.
    pub nodes: usize,
    pub node_ids: Vec<u64>,
    /// The limits at which every age is ended at the latest, if there are any.
    pub limits: Option<Limits>,
    /// Whether tests go on at once, and ages mostly up to their limit.
    pub to_the_limits: bool,
    /// About how many commands, and the longest run of ticks at once.
    pub commands: usize,
    pub tick_run: usize,
    /// Weights: power-on, send, failed send, deliver, ticks, foreign, host order, oddity.
    pub weights: [usize; 8],
    /// So many in a hundred steps are link orders: none in a script, which cannot carry them.
    pub links: usize,
    /// So many are turns, likewise: a choice, and mostly the send of the node that it names.
    pub turns: usize,
    /// So many in a hundred power-ons are by 0A.
    pub warm: usize,
    /// So many steps are read-outs: none in a script.
    pub reads: usize,
}

impl Temper {
    /// A temper by chance, for about so many commands.
    pub fn random(rng: &mut Prng, commands: usize) -> Temper {
        let nodes = rng.pick(&[2, 2, 3, 4, 6, 8, 24]);
        let weights = match rng.below(6) {
            4 => [1, 40, 0, 60, 25, 1, 3, 0],
            5 => [1, 40, 1, 20, 25, 3, 3, 1],
            0 => [3, 40, 1, 60, 20, 8, 6, 1],
            1 => [3, 30, 3, 30, 20, 30, 10, 3],
            2 => [1, 40, 1, 12, 30, 12, 10, 1],
            _ => [8, 30, 8, 40, 20, 15, 15, 5],
        };
        Temper {
            nodes,
            node_ids: node_ids(rng, nodes),
            limits: rng.percent(75).then_some(Limits::KEPT),
            to_the_limits: false,
            commands,
            tick_run: rng.pick(&[1, 5, 40, 41, 60]),
            weights,
            links: 0,
            turns: 0,
            warm: 0,
            reads: 0,
        }
    }
}

/// Node IDs that are near, equal two by two, or share their first alias.
fn node_ids(rng: &mut Prng, count: usize) -> Vec<u64> {
    let base = 1 + rng.number() % 0xFFFF_0000_0000;
    let sort = rng.below(5);
    (0..count as u64)
        .map(|k| match sort {
            0 => base + k / 2,
            1 => base + k,
            2 => base + ALIASES * k,
            3 => base + ALIASES * (k / 2) + k % 2,
            _ => 1 + rng.number() % 0xFFFF_FFFF_FFFF,
        })
        .collect()
}

/// Node IDs whose first alias is the given one: near this one, and then ever lower ones.
fn contenders(id: u64, alias: Alias) -> impl Iterator<Item = u64> {
    let low = id.clamp(25 * ALIASES, MAX_48 - ALIASES);
    let near = low - low % ALIASES + u64::from(alias.0) - 1;
    (0..25).map(move |k| near - k * ALIASES)
}

/// How many ticks a node has waited to reserve the alias that it tests.
fn waited(node: &Node) -> u8 {
    match node.phase() {
        Phase::Wait(ticks) => ticks,
        Phase::Reserve => Node::WAIT,
        _ => 0,
    }
}

pub struct Walker<'a> {
    pub draft: Draft,
    rng: &'a mut Prng,
    temper: Temper,
    commands: usize,
    pub watch: Watch,
    pub turns: Turns,
    /// The most nodes that used an alias at once while A.3 allowed the ages; so for all below.
    pub most_users: usize,
    /// The longest that a node had waited, in ticks, to reserve an alias that another used.
    pub contested: Option<u8>,
    /// Whether an error report waited.
    pub reported: bool,
    /// What was read out, with the Node ID.
    noted: Vec<(u64, ReadOut)>,
}

/// A script of this temper.
pub fn walk(rng: &mut Prng, temper: Temper) -> Vec<u8> {
    walked(rng, temper).bytes
}

/// A list of this temper.
pub fn walk_list(rng: &mut Prng, temper: Temper) -> Vec<Command> {
    walked(rng, temper).list
}

/// A list of this temper that goes on from what a draft has come to.
pub fn walk_list_on(rng: &mut Prng, temper: Temper, draft: Draft) -> Vec<Command> {
    let mut walker = Walker { draft, ..Walker::new(rng, temper) };
    walker.steps();
    walker.draft.list
}

fn walked(rng: &mut Prng, temper: Temper) -> Draft {
    let mut walker = Walker::new(rng, temper);
    walker.run();
    walker.draft
}

impl<'a> Walker<'a> {
    pub fn new(rng: &'a mut Prng, temper: Temper) -> Walker<'a> {
        Walker {
            draft: Draft::new(),
            rng,
            temper,
            commands: 0,
            watch: Watch::default(),
            turns: Turns::default(),
            most_users: 0,
            contested: None,
            reported: false,
            noted: vec![],
        }
    }

    pub fn run(&mut self) {
        for index in 0..self.temper.nodes as u8 {
            if self.rng.percent(70) {
                self.power_on(index);
            }
        }
        self.steps();
    }

    fn steps(&mut self) {
        while self.commands < self.temper.commands {
            self.step();
        }
    }

    fn push(&mut self, command: Command) {
        self.draft.push(command);
        self.commands += 1;
        self.watch.see(&self.draft.segment);
        if self.watch.greatest.are_allowed() {
            self.watch_nodes();
        }
    }

    fn watch_nodes(&mut self) {
        let nodes = || (0..Segment::PLACES).map(|place| self.draft.segment.node(place));
        let users: Vec<Alias> = nodes().filter_map(Node::used_alias).collect();
        let tests = nodes().filter(|node| node.tested_alias().is_some_and(|a| users.contains(&a)));
        let contested = tests.map(waited).max();
        let reported = nodes().any(|node| node.waiting().error.is_some());
        self.most_users = self.most_users.max(users.len());
        self.contested = self.contested.max(contested);
        self.reported |= reported;
    }

    fn step(&mut self) {
        let index = self.rng.below(self.temper.nodes) as u8;
        if self.temper.links > 0 && self.rng.percent(self.temper.links) {
            return self.link_order(index);
        }
        if self.temper.turns > 0 && self.rng.percent(self.temper.turns) {
            return self.turn();
        }
        if self.temper.reads > 0 && self.rng.percent(self.temper.reads) {
            return self.read_out(index);
        }
        match self.rng.weighted(&self.temper.weights.clone()) {
            0 => self.newcomer(index),
            1 => self.send_some(index),
            2 => self.push(Command::FailedSend { index }),
            3 => self.deliver_some(index),
            4 => self.ticks(),
            5 => self.foreign(index),
            6 => self.host_order(index),
            _ => self.oddity(index),
        }
    }

    /// Switches on a node that is Off, or sometimes one that is not.
    fn newcomer(&mut self, index: u8) {
        let off = self.seek(index, |i| self.draft.state(i) == State::Off);
        if self.draft.state(off) == State::Off || self.rng.percent(30) {
            self.power_on(off);
        }
    }

    /// Under the Node ID of its index; or a free one, whose first alias another node uses; or that of
    /// some node, 0 where it is Off.
    fn power_on(&mut self, index: u8) {
        let mut id = self.temper.node_ids[usize::from(index) % self.temper.node_ids.len()];
        let used = (0..Segment::PLACES).filter_map(|p| self.draft.segment.node(p).used_alias());
        let used: Vec<Alias> = used.collect();
        if !used.is_empty() && self.rng.percent(60) {
            let free = |id: &u64| self.draft.segment.holders(*id).next().is_none();
            let alias = self.rng.pick(&used);
            id = contenders(id, alias).find(free).expect("24 nodes hold 24 Node IDs at most");
        } else if self.rng.percent(5) {
            let other = self.rng.below(self.temper.nodes);
            id = self.draft.segment.node(other).id();
        }
        if self.temper.warm > 0 && self.rng.percent(self.temper.warm) {
            return self.warm_on(index, id);
        }
        self.push(Command::PowerOn { index, id });
    }

    /// By 0A: what was read out once is given back, or a flag and a state are given by chance.
    fn warm_on(&mut self, index: u8, id: u64) {
        if !self.noted.is_empty() && self.rng.percent(60) {
            return self.give_back(index);
        }
        let any = self.rng.byte();
        let flag = self.rng.pick(&[0, 0, 1, 1, 1, 1, 1, 1, 1, 2, 255, any]);
        let state = self.state_to_give(index, id);
        self.push(Command::WarmOn { index, id, flag, state });
    }

    /// At the index that has the Node ID; or at this one, and then that one gets another Node ID first.
    fn give_back(&mut self, index: u8) {
        let (id, read) = self.rng.pick(&self.noted);
        let holder = self.draft.segment.holders(id).next().map(|place| place as u8);
        let index = match holder {
            Some(holder) if holder == index || self.rng.percent(50) => holder,
            Some(holder) => {
                let free = |id: &u64| self.draft.segment.holders(*id).next().is_none();
                let id = (1..).find(free).expect("24 nodes hold 24 Node IDs at most");
                self.push(Command::PowerOn { index: holder, id });
                index
            }
            None => index,
        };
        let state = if read.past { read.state } else { self.rng.number() & MAX_48 };
        self.push(Command::WarmOn { index, id, flag: read.flag(), state });
    }

    /// The state of the node's own generator, or of another's; one that stands for the alias of some
    /// node; or any.
    fn state_to_give(&mut self, index: u8, id: u64) -> u64 {
        let other = self.rng.below(self.temper.nodes);
        let read = |place| self.draft.segment.read_out(place).map_or(id, |read| read.state);
        let (own, others) = (read(index.into()), read(other));
        let alias = u64::from(self.draft.segment.node(other).alias().0);
        let any = self.rng.number() & MAX_48;
        self.rng.pick(&[own, own, own, others, alias, alias, alias, any, any, id, 0, MAX_48])
    }

    /// Mostly of a node that is on, and then it is noted.
    fn read_out(&mut self, index: u8) {
        let on = self.seek(index, |i| self.draft.state(i) != State::Off);
        let high = self.rng.pick(&[24, 25, 128, 255, index, index]);
        let index = if self.rng.percent(90) { on } else { high };
        self.push(Command::ReadOut { index });
        if let Ok(Given::ReadOut(read)) = self.draft.answer {
            self.noted.push((self.draft.segment.node(index.into()).id(), read));
        }
    }

    /// The first index from here on of which this is true, or the one itself.
    fn seek(&self, from: u8, good: impl Fn(u8) -> bool) -> u8 {
        let count = self.temper.nodes as u8;
        let around = (0..count).map(|k| (from + k) % count);
        around.into_iter().find(|&index| good(index)).unwrap_or(from)
    }

    fn send_some(&mut self, index: u8) {
        let index = self.seek(index, |i| self.draft.has_due(i));
        self.send_at(index);
    }

    /// A send, within limits mostly with room for its frame.
    fn send_at(&mut self, index: u8) {
        if self.temper.limits.is_some() && self.rng.percent(90) {
            self.make_room();
        }
        self.push(Command::Send { index });
    }

    fn deliver_some(&mut self, index: u8) {
        let index = self.seek(index, |i| self.draft.segment.inbox_len(usize::from(i)) > 0);
        for _ in 0..self.rng.pick(&[1, 1, 2, 4, 32]) {
            if self.draft.segment.inbox_len(usize::from(index)) > 0 || self.rng.percent(3) {
                self.push(Command::Deliver { index });
            }
        }
    }

    fn ticks(&mut self) {
        for _ in 0..self.rng.between(1, self.temper.tick_run) {
            if self.temper.to_the_limits {
                self.send_tests();
            }
            if let Some(limits) = self.temper.limits {
                self.end_old_ages(limits);
            }
            self.push(Command::Tick);
        }
    }

    /// Lets testing nodes send all that is due, mostly, and Reserved ones now and then their AMD.
    fn send_tests(&mut self) {
        for index in self.draft.on() {
            while self.tests(index) {
                self.make_room();
                self.push(Command::Send { index });
            }
        }
    }

    /// Whether a node on its way to Permitted sends now. A reply RID waits.
    fn tests(&mut self, index: u8) -> bool {
        let node = self.draft.segment.node(usize::from(index));
        if node.due().is_none() || node.owed() != Owed::Nothing {
            return false;
        }
        match node.state() {
            State::Testing => self.rng.percent(98),
            State::Reserved => self.rng.percent(1),
            _ => false,
        }
    }

    /// Delivers one frame from every full inbox.
    fn make_room(&mut self) {
        for index in self.draft.on() {
            if self.draft.segment.inbox_len(usize::from(index)) == Inbox::ROOM {
                self.push(Command::Deliver { index });
            }
        }
    }

    /// Ends every age that the next tick would bring above its limit. Under a limit of 0 this can
    /// begin another that has to end.
    fn end_old_ages(&mut self, limits: Limits) {
        while (0..Segment::PLACES).any(|place| self.is_at_limit(place, limits)) {
            for index in self.draft.on() {
                while self.draft.segment.inbox_age(usize::from(index)) == Some(limits.inbox) {
                    self.push(Command::Deliver { index });
                }
            }
            for index in self.draft.on() {
                if self.draft.segment.owed_age(usize::from(index)) == Some(limits.waiting) {
                    self.end_waiting(index);
                }
            }
        }
    }

    fn is_at_limit(&self, place: usize, limits: Limits) -> bool {
        let segment = &self.draft.segment;
        segment.inbox_age(place) == Some(limits.inbox)
            || segment.owed_age(place) == Some(limits.waiting)
    }

    /// Sends a reply RID or an AMR. Up to the limits, a release drops some replies instead, and an
    /// AMR waits.
    fn end_waiting(&mut self, index: u8) {
        let permitted = self.draft.state(index) == State::Permitted;
        if permitted && self.temper.to_the_limits && self.rng.percent(40) {
            return self.push(Command::Release { index });
        }
        self.make_room();
        self.push(Command::Send { index });
    }

    /// A frame aimed at a node, or at another than the one whose state decides its case.
    fn foreign(&mut self, index: u8) {
        if self.temper.limits.is_some() {
            self.make_room();
        }
        let case = self.rng.pick(&Case::ALL);
        let mut frame = case.frame(self.draft.segment.node(usize::from(index)), self.rng);
        if self.rng.percent(6) {
            frame = self.spoil(frame);
        }
        self.push(Command::Foreign { frame });
    }

    /// Makes a frame malformed, or at least unusual.
    fn spoil(&mut self, mut frame: Frame) -> Frame {
        match self.rng.below(5) {
            0 => frame.kind = self.rng.pick(&[1, 2, 3, 4, 255]),
            1 => frame.len = self.rng.pick(&[8, 9, 16, 255]),
            2 => frame.header |= 1 << self.rng.between(29, 31),
            3 => frame.data = self.rng.number().to_be_bytes(),
            _ => frame.header ^= 1 << self.rng.below(29),
        }
        frame
    }

    fn host_order(&mut self, index: u8) {
        let index = self.seek(index, |i| self.draft.state(i) == State::Permitted);
        let data = self.rng.number().to_be_bytes();
        match self.rng.below(12) {
            0 => self.push(Command::Release { index }),
            1..=6 => {
                let field = self.rng.below(0x8100) as u16;
                let len = self.rng.below(10) as u8;
                self.push(Command::Message { index, field, len, data });
            }
            _ => {
                let len = self.rng.pick(&[0, 0, 6, 6, 6, 5, 7]);
                let other = self.draft.segment.node(self.rng.below(self.temper.nodes));
                let id = self.rng.pick(&[other.id(), other.id(), 0, 1]);
                let [_, _, id @ ..] = id.to_be_bytes();
                self.push(Command::Enquiry { index, len, id });
            }
        }
    }

    /// A link state, mostly of a Permitted node, where it can be reported.
    fn link_order(&mut self, index: u8) {
        let permitted = self.seek(index, |i| self.draft.state(i) == State::Permitted);
        let (high, any) = (self.rng.pick(&[24, 25, 128, 255]), self.rng.byte());
        let index = if self.rng.percent(50) { permitted } else { index };
        let index = if self.rng.percent(2) { high } else { index };
        let above = self.rng.pick(&[3, any]);
        let state = self.rng.pick(&[0, 0, 0, 0, 1, 1, 1, 1, 2, 2, 2, above]);
        self.push(Command::Link { index, state });
    }

    /// A choice, and then mostly the named node sends. Else its send fails, it is switched on anew,
    /// nothing comes of it, or more choices follow.
    fn turn(&mut self) {
        let named = self.choose();
        let Some(index) = named else { return };
        match self.rng.below(12) {
            0 => self.push(Command::FailedSend { index }),
            1 => self.power_on(index),
            2 => {}
            3 => {
                for _ in 0..self.rng.pick(&[1, 2, 23, 24]) {
                    self.choose();
                }
            }
            _ => self.send_at(index),
        }
    }

    /// A choice, and the index that it names.
    fn choose(&mut self) -> Option<u8> {
        let segment = &self.draft.segment;
        let due = std::array::from_fn(|place| segment.node(place).due().is_some());
        self.push(Command::Choose);
        let Ok(Given::Chosen(named)) = self.draft.answer else {
            unreachable!("a choice is never refused")
        };
        self.turns.see(due, named);
        named.map(|place| place as u8)
    }

    /// Commands that are refused, mostly.
    fn oddity(&mut self, index: u8) {
        let high = self.rng.pick(&[24, 25, 128, 255, index, index]);
        match self.rng.below(7) {
            0 => self.push(Command::PowerOn { index: high, id: 0 }),
            1 => self.push(Command::Send { index: high }),
            2 => self.push(Command::FailedSend { index: high }),
            3 => self.push(Command::Deliver { index: high }),
            4 => self.push(Command::Message { index: high, field: 0x8000, len: 9, data: [0; 8] }),
            5 => self.push(Command::Enquiry { index: high, len: 1, id: [0; 6] }),
            _ => self.push(Command::Release { index: high }),
        }
    }
}
