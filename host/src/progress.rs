//! How far a run is, on standard error where that is a terminal, once it takes more than a second.

use std::io::{self, IsTerminal, Write};
use std::time::{Duration, Instant};

const FIRST: Duration = Duration::from_secs(1);
const NEXT: Duration = Duration::from_millis(100);

pub struct Progress {
    what: &'static str,
    total: usize,
    next: Instant,
    shown: bool,
    shows: bool,
}

impl Progress {
    /// Of so many of something, as `bytes carried out`.
    pub fn new(total: usize, what: &'static str) -> Progress {
        let shows = io::stderr().is_terminal();
        Progress { what, total, next: Instant::now() + FIRST, shown: false, shows }
    }

    /// So many of them are done.
    pub fn at(&mut self, done: usize) {
        if !self.shows || Instant::now() < self.next {
            return;
        }
        self.next = Instant::now() + NEXT;
        self.shown = true;
        let percent = 100 * done / self.total.max(1);
        let _ = write!(io::stderr(), "\rlcc: {percent} % of {} {}", self.total, self.what);
    }

    /// Leaves nothing on the line.
    pub fn end(&self) {
        if self.shown {
            let _ = write!(io::stderr(), "\r{:72}\r", "");
        }
    }
}
