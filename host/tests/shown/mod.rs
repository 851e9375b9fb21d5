//! What the tool shows of a script: in words, summed up and drawn. Not every test has a use for all of it.
#![allow(dead_code)]

use lcc::ages::Ages;
use lcc::card::Card;
use lcc::expand::{expand, Expanded};
use lcc::explain::Explain;
use lcc::paint::Paint;
use lcc::picture::{draw, Record};
use lcc::summary::Summary;
use lcc::watch::Watch;
use lcc::{play, script};

pub struct Shown {
    pub explained: String,
    pub summary: String,
    pub picture: String,
    pub longest: Ages,
}

impl Shown {
    /// What the summary says between the collisions, of which there were none, and the number of commands.
    pub fn in_between(&self) -> &str {
        let (_, rest) = self.summary.split_once("No collisions.\n").expect("there were none");
        let commands = rest.lines().find(|line| line.contains(" of them refused; "));
        rest.split_once(commands.expect("they are counted")).expect("a line").0
    }
}

/// A summary, and the lines at its end by which the nodes come back, where there are some.
pub fn parted(summary: &str) -> (&str, &str) {
    summary.split_at(summary.find("To come back under these aliases").unwrap_or(summary.len()))
}

/// What a script by name shows, without colours.
pub fn shown(text: &str) -> Shown {
    shown_of(&expanded(text), Paint(false))
}

pub fn expanded(text: &str) -> Expanded {
    expand(&script::parse(text).expect("it is right"))
}

pub fn shown_of(script: &Expanded, paint: Paint) -> Shown {
    let (mut card, mut watch, mut explain) = (Card::new(), Watch::default(), Explain::new(paint));
    let (mut summary, mut record) = (Summary::default(), Record::default());
    let mut longest = Ages::default();
    play::play(&script.bytes, &script.beside, &mut card, |played, card| {
        let moment = watch.look(played, card);
        explain.note(&moment);
        summary.note(&moment);
        record.note(&moment);
        longest = moment.longest;
    });
    let last = play::last_line(&card);
    Shown {
        explained: explain.end(last),
        summary: summary.text(&card, script, paint),
        picture: draw(&record, "drawn", last),
        longest,
    }
}
