//! The bytes that a script's lines stand for, and what stands beside them. `all`, `settle` and lines of a viewer's log go by what
//! the card holds, so each command is carried out here.

use crate::beside::{Beside, Placed};
use crate::card::{Card, PLACES};
use crate::command::{Command, Read};
use crate::frame::Frame;
use crate::progress::Progress;
use crate::script::{Item, Line};

/// A script's bytes, its link orders and turns from first to last, and where each line's bytes begin.
#[derive(Clone, Debug, Default)]
pub struct Expanded {
    pub bytes: Vec<u8>,
    pub beside: Vec<Placed>,
    starts: Vec<(usize, usize)>,
}

impl Expanded {
    /// The number of the line that gave the byte at this place.
    pub fn line_of(&self, at: usize) -> usize {
        let before = self.starts.partition_point(|&(start, _)| start <= at);
        self.starts[..before].last().map_or(0, |&(_, line)| line)
    }
}

/// What a script that was parsed stands for.
pub fn expand(lines: &[Line]) -> Expanded {
    let mut expander = Expander::new();
    let mut starts = Vec::new();
    let mut progress = Progress::new(lines.len(), "lines turned to bytes");
    for (done, line) in lines.iter().enumerate() {
        progress.at(done);
        starts.push((expander.bytes.len(), line.number));
        expander.item(&line.item);
    }
    progress.end();
    Expanded { bytes: expander.bytes, beside: expander.beside, starts }
}

struct Expander {
    card: Card,
    /// How many of the bytes have been carried out, and whether some of them end the run.
    read: usize,
    ended: bool,
    bytes: Vec<u8>,
    beside: Vec<Placed>,
}

impl Expander {
    fn new() -> Expander {
        let (bytes, beside) = (Vec::new(), Vec::new());
        Expander { card: Card::new(), read: 0, ended: false, bytes, beside }
    }

    fn item(&mut self, item: &Item) {
        match item {
            Item::One(command) => self.command(command),
            Item::Ticks(count) => (0..*count).for_each(|_| self.command(&Command::Tick)),
            Item::DeliverAll => self.deliver_all(),
            Item::SendAll => self.send_all(),
            Item::Settle(count) => (0..*count).for_each(|_| self.settle(Self::send_all)),
            Item::SettleByTurns(count) => (0..*count).for_each(|_| self.settle(Self::turn)),
            Item::Log(frames) => frames.iter().for_each(|frame| self.heard(*frame)),
            Item::Link(link) => {
                self.card.link(link);
                self.put_beside(Beside::Link(*link));
            }
            Item::Turn => self.turn(),
            Item::Bytes(bytes) => {
                self.bytes.extend(bytes);
                self.carry_out();
            }
        }
    }

    fn command(&mut self, command: &Command) {
        command.write(&mut self.bytes);
        self.carry_out();
    }

    /// It comes after all bytes so far, which are whole commands: no other line can follow part of one.
    fn put_beside(&mut self, what: Beside) {
        self.beside.push(Placed { at: self.bytes.len(), what });
    }

    /// A choice, and a send of the node that it names.
    fn turn(&mut self) {
        if let Some(index) = self.card.choose() {
            self.card.carry_out(&Command::Send { index });
        }
        self.put_beside(Beside::Turn);
    }

    /// For each node in order, as many deliveries as frames stand in its inbox.
    fn deliver_all(&mut self) {
        for index in 0..PLACES as u8 {
            for _ in 0..self.card.look(index.into()).inbox {
                self.command(&Command::Deliver { index });
            }
        }
    }

    /// For each node in order, one send where a frame is due.
    fn send_all(&mut self) {
        for index in 0..PLACES as u8 {
            if self.card.look(index.into()).due.is_some() {
                self.command(&Command::Send { index });
            }
        }
    }

    /// What happens in a tick of `settle`, and then the tick.
    fn settle(&mut self, send: fn(&mut Expander)) {
        self.deliver_all();
        send(self);
        self.command(&Command::Tick);
    }

    /// A frame of a viewer's log: it is delivered, and what is then due leaves, so that a log of any length fills no inbox. The text
    /// has no times, and no tick passes.
    fn heard(&mut self, frame: Frame) {
        self.command(&Command::Foreign(frame));
        self.deliver_all();
        self.send_all();
    }

    /// Carries out the whole commands that have not been yet, up to one that ends the run.
    fn carry_out(&mut self) {
        while !self.ended && self.read < self.bytes.len() {
            match Command::read(&self.bytes[self.read..]) {
                Read::Whole(command, size) => {
                    self.card.carry_out(&command);
                    self.read += size;
                }
                Read::Unknown => self.ended = true,
                Read::Cut(_) => return,
            }
        }
    }
}
