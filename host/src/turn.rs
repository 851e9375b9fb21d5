//! Turns (request A.8): a choice names the node that sends next, or nobody; how many turns each node had, and for how many choices
//! one waited for its own.

use crate::card::PLACES;
use crate::watch::Moment;
use crate::words;

/// A choice, after the node that was chosen last, where one was.
#[derive(Clone, Copy, Debug, PartialEq, Eq)]
pub struct Choice {
    pub last: Option<usize>,
    pub named: Option<usize>,
}

impl Choice {
    /// The mark before it: the node chosen last, at first the last of the card.
    pub fn mark(&self) -> usize {
        self.last.unwrap_or(PLACES - 1)
    }

    /// The node chosen last, after it.
    pub fn last_then(&self) -> Option<usize> {
        self.named.or(self.last)
    }

    /// Whose turn it is, and why.
    pub fn words(&self) -> String {
        let mark = self.mark();
        let Some(index) = self.named else {
            return format!("nobody's turn: no node has a due frame; the mark stays at {mark}");
        };
        if self.last == Some(index) {
            return format!("turn of node {index} again: no other node has a due frame");
        }
        let from = match self.last {
            None => ", where the mark is at first",
            Some(last) if index < last && last < PLACES - 1 => ", past 23",
            Some(_) => "",
        };
        format!("turn of node {index}, the first with a due frame after node {mark}{from}")
    }
}

/// All turns of a run.
#[derive(Default)]
pub struct Turns {
    /// How many each node had, and how many choices named nobody.
    had: [usize; PLACES],
    unnamed: usize,
    /// Sends of these turns that were refused.
    refused: usize,
    /// For each node: at how many choices in a row, up to now, it had a due frame and was not named.
    waits: [usize; PLACES],
    /// The most choices that one waited for its turn, that which named it among them.
    longest: usize,
}

impl Turns {
    pub fn note(&mut self, moment: &Moment) {
        self.refused += usize::from(moment.turn.is_some() && !moment.accepted());
        let Some(choice) = moment.choice else { return };
        match choice.named {
            Some(index) => self.had[index] += 1,
            None => self.unnamed += 1,
        }
        for (index, wait) in self.waits.iter_mut().enumerate() {
            *wait = if moment.before[index].due.is_some() { *wait + 1 } else { 0 };
            self.longest = self.longest.max(*wait);
            if choice.named == Some(index) {
                *wait = 0;
            }
        }
    }

    pub fn is_empty(&self) -> bool {
        self.named() + self.unnamed == 0
    }

    /// How many a node had.
    pub fn of(&self, index: usize) -> usize {
        self.had[index]
    }

    /// How many choices named a node.
    fn named(&self) -> usize {
        self.had.iter().sum()
    }

    pub fn words(&self) -> String {
        let (named, unnamed) = (self.named(), self.unnamed);
        let choices = words::count(named + unnamed, "choice", "choices");
        if named == 0 {
            return format!("{choices} named nobody: no node had a due frame.");
        }
        let longest = words::count(self.longest, "choice", "choices");
        format!(
            "{choices}: {named} named a node, {unnamed} nobody{}.\n\
             A node with a due frame waited for {longest} at most, its own turn among them; \
             request A.8 allows {PLACES}.",
            self.refused_words()
        )
    }

    fn refused_words(&self) -> String {
        match self.refused {
            0 => String::new(),
            1 => "; 1 of the sends was refused".into(),
            refused => format!("; {refused} of the sends were refused"),
        }
    }
}
