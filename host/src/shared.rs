//! An alias that more than one node uses: which nodes, and by which command it came to that.

use crate::watch::Moment;
use crate::words;

#[derive(Clone, Debug, PartialEq, Eq)]
pub struct Shared {
    pub alias: u16,
    /// All that use it then, in order.
    pub nodes: Vec<usize>,
    pub tick: usize,
    pub count: usize,
}

impl Shared {
    /// By one command one node at most begins to use an alias.
    pub fn of(moment: &Moment) -> Option<Shared> {
        let (before, after) = (&moment.before, &moment.after);
        let begins = |i: &usize| !before[*i].state.uses_alias() && after[*i].state.uses_alias();
        let alias = after[(0..after.len()).find(begins)?].alias;
        let uses = |i: &usize| after[*i].state.uses_alias() && after[*i].alias == alias;
        let nodes: Vec<usize> = (0..after.len()).filter(uses).collect();
        let (tick, count) = (moment.tick, moment.played.count);
        (nodes.len() > 1).then_some(Shared { alias, nodes, tick, count })
    }

    pub fn words(&self) -> String {
        let Shared { alias, nodes, tick, count } = self;
        format!("{} use alias {alias:03X} at tick {tick} (command {count})", words::nodes(nodes))
    }
}
