//! Power-ons that were refused because the Node ID is in use at another index (request A.6): which node has it, and in which lines
//! of the script it stands.

use crate::card::{Answer, Seen, State, PLACES};
use crate::expand::Expanded;
use crate::hex::dotted_id;
use crate::watch::Moment;
use crate::words;

/// The refusal's number.
const NUMBER: u64 = 15;

/// One of them.
#[derive(Clone, Copy, Debug, PartialEq, Eq)]
pub struct InUse {
    /// The place in the script's bytes at which it comes.
    pub at: usize,
    /// The node that was to be powered on, and is as it was.
    pub index: usize,
    pub node: Seen,
    /// The node that has the Node ID.
    pub user: usize,
    pub used: Seen,
}

impl InUse {
    pub fn of(moment: &Moment) -> Option<InUse> {
        let id = moment.command()?.powers_on()?;
        let index = moment.node().filter(|_| moment.played.answer == Answer::Refused(NUMBER))?;
        let seen = &moment.after;
        let user = (0..PLACES).find(|&other| seen[other].id == id)?;
        Some(InUse { at: moment.played.at, index, node: seen[index], user, used: seen[user] })
    }

    /// Which node has the Node ID and how that stands, and what becomes of the other.
    pub fn words(&self) -> String {
        let InUse { index, node, user, used, .. } = self;
        let then = match node.state {
            State::Off => "stays Off until it is powered on with one of its own".into(),
            _ => format!("goes on as it was, {}", words::standing(node)),
        };
        let used = words::standing(used);
        format!("the Node ID is in use at node {user}, {used}; node {index} {then}")
    }
}

/// All of a run, each with the place in the script's bytes at which the Node ID came into use.
#[derive(Default)]
pub struct AllInUse {
    all: Vec<(InUse, usize)>,
    /// Where each node came to its Node ID. A power-on with the same again does not count.
    since: [usize; PLACES],
}

impl AllInUse {
    pub fn note(&mut self, moment: &Moment) {
        for index in (0..PLACES).filter(|&i| moment.before[i].id != moment.after[i].id) {
            self.since[index] = moment.played.at;
        }
        self.all.extend(InUse::of(moment).map(|in_use| (in_use, self.since[in_use.user])));
    }

    pub fn is_empty(&self) -> bool {
        self.all.is_empty()
    }

    pub fn words(&self) -> String {
        let refused = words::count(self.all.len(), "power-on was", "power-ons were");
        format!("{refused} refused because {}", words::refusal(NUMBER))
    }

    /// Each with the lines of the script that have the Node ID.
    pub fn lines<'a>(&'a self, script: &'a Expanded) -> impl ExactSizeIterator<Item = String> + 'a {
        self.all.iter().map(|(in_use, since)| {
            let InUse { at, index, user, used, .. } = in_use;
            let (line, first) = (script.line_of(*at), script.line_of(*since));
            let id = dotted_id(used.id);
            format!("line {line}: node {index} with {id}, which node {user} took in line {first}")
        })
    }
}
