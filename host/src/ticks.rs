//! Ticks in a row, of which --explain makes one line: by themselves, or each after a choice that names nobody.

use crate::card::{Seen, PLACES};
use crate::turn::Choice;
use crate::watch::{Late, Moment};
use crate::words;

pub struct Ticks {
    /// The choice before each, where there is one.
    choice: Option<Choice>,
    /// How many, and the counts of the first command and of the last.
    number: usize,
    first: usize,
    last: usize,
    /// The ticks of the list up to the last of them.
    tick: usize,
    before: [Seen; PLACES],
    after: [Seen; PLACES],
    pub late: Option<Late>,
}

impl Ticks {
    /// The first, and the choice right before it, if that names nobody.
    pub fn new(moment: &Moment, choice: Option<Choice>) -> Ticks {
        let count = moment.played.count;
        Ticks {
            choice,
            number: 1,
            first: count - usize::from(choice.is_some()),
            last: count,
            tick: moment.tick,
            before: moment.before,
            after: moment.after,
            late: moment.late,
        }
    }

    /// Takes the next tick, if what is right before it is the same as before the others.
    pub fn join(&mut self, moment: &Moment, choice: Option<Choice>) -> bool {
        if self.choice != choice {
            return false;
        }
        self.number += 1;
        (self.last, self.tick, self.after) = (moment.played.count, moment.tick, moment.after);
        self.late = self.late.or(moment.late);
        true
    }

    /// The line, as the commands have it that it stands for.
    pub fn line(&self) -> String {
        let Ticks { first, last, .. } = self;
        let counts = if first == last { first.to_string() } else { format!("{first}-{last}") };
        let choice = if self.choice.is_some() { "choose ok none, " } else { "" };
        format!("{counts} {choice}05 ok")
    }

    pub fn words(&self) -> String {
        let mut words = self.passed();
        let due = |i: &usize| self.before[*i].due.is_none() && self.after[*i].due.is_some();
        let due: Vec<usize> = (0..PLACES).filter(due).collect();
        if let Some(frame) = due.first().and_then(|&i| self.after[i].due) {
            words += &format!("; {} is due now at {}", words::short(&frame), words::nodes(&due));
        }
        if let Some(late) = &self.late {
            words += &format!("; {}", words::late(late));
        }
        words
    }

    /// How many have passed.
    fn passed(&self) -> String {
        let (number, tick) = (self.number, self.tick);
        match (self.choice.map(|choice| choice.words()), number) {
            (None, 1) => format!("a tick, tick {tick}"),
            (None, _) => format!("{number} ticks, up to tick {tick}"),
            (Some(choice), 1) => format!("{choice}; then a tick, tick {tick}"),
            (Some(choice), _) => {
                format!("{number} times {choice}; each time then a tick, up to tick {tick}")
            }
        }
    }
}
