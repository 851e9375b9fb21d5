//! A node that was told its link state, and what is seen of that.

use crate::frame::Frame;
use crate::link::Link;
use crate::watch::Moment;
use crate::words;

/// By which command, after how many ticks, and the frame that became due by it.
#[derive(Clone, Copy, Debug, PartialEq, Eq)]
pub struct Told {
    pub index: usize,
    pub link: Link,
    pub tick: usize,
    pub count: usize,
    pub due: Option<Frame>,
}

impl Told {
    /// The link order of a moment, where it was accepted.
    pub fn of(moment: &Moment) -> Option<Told> {
        let link = moment.link().filter(|_| moment.accepted())?;
        let index = moment.node()?;
        let due =
            moment.after[index].due.filter(|_| moment.before[index].due != moment.after[index].due);
        Some(Told { index, link, tick: moment.tick, count: moment.played.count, due })
    }

    pub fn words(&self) -> String {
        let due =
            self.due.map_or(String::new(), |frame| format!("; {} is due", words::short(&frame)));
        format!("node {} at tick {}: {}{due}", self.index, self.tick, self.link.state_name())
    }
}
