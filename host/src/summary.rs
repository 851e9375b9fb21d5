//! The table at the end of a run: a row for each exhibit, collisions, link states that were told, Node IDs that were in use,
//! warm starts, turns, whether the list was kept, how old frames became in it, which came with bit 28 as 0, and the lines by which
//! the nodes come back under their aliases.

use crate::ages::Ages;
use crate::bit_28::Bit28;
use crate::card::{Card, ReadOut, Seen, State, PLACES};
use crate::expand::Expanded;
use crate::frame::{Frame, Sort};
use crate::hex::dotted_id;
use crate::in_use::AllInUse;
use crate::paint::Paint;
use crate::save;
use crate::shared::Shared;
use crate::told::Told;
use crate::turn::Turns;
use crate::warm::{state_digits, WarmStarts};
use crate::watch::{Arrival, Late, Moment};
use crate::words;

/// Of collisions, of link orders, of Node IDs in use, of warm starts, and of aliases with bit 28 as 0, so many are named one by one.
const NAMED: usize = 10;

/// When a node came to the alias that it has, and how often it started again.
#[derive(Clone, Copy, Debug, Default, PartialEq, Eq)]
struct Row {
    reserved: Option<usize>,
    permitted: Option<usize>,
    restarts: usize,
}

/// A node that was delivered a frame with its own alias, and gave that alias up.
#[derive(Clone, Copy, Debug, PartialEq, Eq)]
pub struct Collision {
    pub index: usize,
    pub tick: usize,
    pub arrival: Arrival,
    pub after: Seen,
}

impl Collision {
    pub fn of(moment: &Moment) -> Option<Collision> {
        let index = moment.node().filter(|&index| moment.collided(index))?;
        let (arrival, after) = (moment.delivered?, moment.after[index]);
        Some(Collision { index, tick: moment.tick, arrival, after })
    }

    pub fn words(&self) -> String {
        let Collision { index, tick, arrival, after } = self;
        let Arrival { frame, from, .. } = arrival;
        let whose = words::of_sender(frame, *from);
        let name = words::short(frame) + words::bit_28(frame) + &whose;
        let alias = frame.alias();
        let then = match after.state {
            State::Leaving => "it gives the alias up".into(),
            _ => format!("it starts again with {:03X}", after.alias),
        };
        format!("node {index} at tick {tick}: {name} has its alias {alias:03X}; {then}")
    }
}

#[derive(Default)]
pub struct Summary {
    rows: [Row; PLACES],
    collisions: Vec<Collision>,
    shared: Vec<Shared>,
    links: Vec<Told>,
    in_use: AllInUse,
    warm: WarmStarts,
    turns: Turns,
    commands: usize,
    refused: usize,
    ticks: usize,
    frames: usize,
    late: Option<Late>,
    longest: Ages,
    bit_28: Bit28,
}

impl Summary {
    pub fn note(&mut self, moment: &Moment) {
        self.commands += 1;
        self.refused += usize::from(!moment.accepted());
        self.ticks = moment.tick;
        self.frames += usize::from(moment.on_the_bus().is_some());
        self.collisions.extend(Collision::of(moment));
        self.shared.extend(Shared::of(moment));
        self.links.extend(Told::of(moment));
        self.in_use.note(moment);
        self.warm.note(moment);
        self.turns.note(moment);
        self.late = self.late.or(moment.late);
        self.longest = moment.longest;
        self.bit_28.note(moment);
        for (index, row) in self.rows.iter_mut().enumerate() {
            let (before, after) = (moment.before[index].state, moment.after[index].state);
            if moment.restarted(index) {
                *row = Row { restarts: row.restarts + 1, ..Row::default() };
            } else if moment.powered_on() == Some(index) {
                *row = Row::default();
            }
            if before != after {
                row.reserved = row.reserved.or((after == State::Reserved).then_some(moment.tick));
                row.permitted =
                    row.permitted.or((after == State::Permitted).then_some(moment.tick));
            }
        }
    }

    /// The table and what is below it; the script is the one that was played.
    pub fn text(&self, card: &Card, script: &Expanded, paint: Paint) -> String {
        let seen = card.look_at_all();
        let mut text = String::from("\n");
        text += &paint.bold(&self.cells(&COLUMNS.map(|(name, _)| name.into())));
        text += "\n";
        for (from, to) in rows(&seen) {
            text += &self.row(from, to, &seen[from], card.read_out(from), paint);
        }
        text += &format!("\n{}\n", totals(&seen));
        text += &self.collisions_text();
        text += &self.shared_text();
        text += &self.links_text();
        text += &self.in_use_text(script);
        text += &self.warm_text();
        text += &self.turns_text();
        let (commands, refused) =
            (words::count(self.commands, "command", "commands"), self.refused);
        let (ticks, frames) = (words::count(self.ticks, "tick", "ticks"), self.frames);
        text += &format!(
            "{commands}, {refused} of them refused; {ticks}; {} on the bus.\n",
            words::count(frames, "frame", "frames")
        );
        text += &(self.verdict(paint) + "\n");
        text + &self.ages_text(paint) + &self.bit_28_text(paint) + &lines_text(card)
    }

    fn row(
        &self,
        from: usize,
        to: usize,
        seen: &Seen,
        out: Option<ReadOut>,
        paint: Paint,
    ) -> String {
        let index = if from == to { from.to_string() } else { format!("{from}-{to}") };
        let row = &self.rows[from];
        let none = || "-".to_string();
        let at = |tick: Option<usize>| tick.map_or_else(none, |tick| format!("tick {tick}"));
        let off = seen.state == State::Off;
        let cell = |text: String| if off { none() } else { text };
        let line = self.cells(&[
            index,
            cell(dotted_id(seen.id)),
            seen.state.name().into(),
            if seen.alias == 0 { none() } else { format!("{:03X}", seen.alias) },
            out.map_or_else(none, |out| if out.past { "past" } else { "not past" }.into()),
            out.map_or_else(none, |out| state_digits(out.state)),
            at(row.reserved),
            at(row.permitted),
            cell(row.restarts.to_string()),
            seen.due.map_or_else(none, |frame| due(&frame)),
            cell(seen.inbox.to_string()),
            cell(self.turns.of(from).to_string()),
        ]);
        let line = match seen.state {
            State::Permitted => paint.green(&line),
            State::Off | State::Resting => paint.faint(&line),
            State::Leaving | State::Silent => paint.red(&line),
            State::Testing | State::Reserved => line,
        };
        line + "\n"
    }

    /// Cells side by side, that of turns where there are some; without blanks at the end.
    fn cells(&self, cells: &[String; COLUMNS.len()]) -> String {
        let columns = COLUMNS.len() - usize::from(self.turns.is_empty());
        let cells = cells.iter().zip(COLUMNS).take(columns);
        let padded = cells.map(|(cell, (_, width))| format!("{cell:<width$}"));
        padded.collect::<Vec<_>>().join("  ").trim_end().into()
    }

    fn collisions_text(&self) -> String {
        let count = self.collisions.len();
        if count == 0 {
            return "No collisions.\n".into();
        }
        let head = words::count(count, "collision", "collisions");
        named(&head, self.collisions.iter().map(Collision::words))
    }

    /// Where no two nodes came to use one alias there is nothing to say.
    fn shared_text(&self) -> String {
        if self.shared.is_empty() {
            return String::new();
        }
        named("Nodes came to use one alias", self.shared.iter().map(Shared::words))
    }

    /// Where no node was told its link state there is nothing to say.
    fn links_text(&self) -> String {
        let count = self.links.len();
        if count == 0 {
            return String::new();
        }
        let head = format!("{} told", words::count(count, "link state was", "link states were"));
        named(&head, self.links.iter().map(Told::words))
    }

    /// Where no Node ID was in use at another index there is nothing to say.
    fn in_use_text(&self, script: &Expanded) -> String {
        if self.in_use.is_empty() {
            return String::new();
        }
        named(&self.in_use.words(), self.in_use.lines(script))
    }

    /// Where no node was started warm there is nothing to say.
    fn warm_text(&self) -> String {
        if self.warm.is_empty() {
            return String::new();
        }
        named(&self.warm.words(), self.warm.lines())
    }

    /// Where no choice was made there is nothing to say.
    fn turns_text(&self) -> String {
        if self.turns.is_empty() {
            return String::new();
        }
        self.turns.words() + "\n"
    }

    fn verdict(&self, paint: Paint) -> String {
        match &self.late {
            Some(late) => paint.red(&words::late(late)),
            None => paint.green(&format!("kept: {}", words::kept())),
        }
    }

    /// The greatest ages; of a list that is late, also what request A.3 says of them.
    fn ages_text(&self, paint: Paint) -> String {
        let figures = self.longest.words() + "\n";
        if self.late.is_none() {
            return figures;
        }
        let promise = self.longest.promise();
        let single = self.longest.keep_aliases_single();
        figures + &if single { paint.green(&promise) } else { paint.red(&promise) } + "\n"
    }

    /// Where no frame came with bit 28 as 0 there is nothing to say.
    fn bit_28_text(&self, paint: Paint) -> String {
        if self.bit_28.is_empty() {
            return String::new();
        }
        named(&paint.cyan(&self.bit_28.words()), self.bit_28.aliases())
    }
}

/// The first of some things that happened, each in a line.
fn named(head: &str, all: impl ExactSizeIterator<Item = String>) -> String {
    let count = all.len();
    let mut text = format!("{head}:\n");
    for words in all.take(NAMED) {
        text += &format!("  {words}\n");
    }
    if count > NAMED {
        text += &format!("  and {} more\n", count - NAMED);
    }
    text
}

/// Where no node is on there is nothing to come back.
fn lines_text(card: &Card) -> String {
    let lines = save::lines(card);
    if lines.is_empty() {
        return String::new();
    }
    let lines: String = lines.into_iter().map(|line| format!("  {line}\n")).collect();
    format!(
        "To come back under these aliases after a switch-off (--save OUT.lcc writes it):\n{lines}"
    )
}

/// A due frame in the little room of its cell.
fn due(frame: &Frame) -> String {
    match frame.sort() {
        Some(Sort::ErrorReport(number)) => format!("error {number}"),
        _ => words::short(frame),
    }
}

/// The columns, each with its width. The last is there where there are turns.
const COLUMNS: [(&str, usize); 12] = [
    ("node", 5),
    ("Node ID", 17),
    ("state", 9),
    ("alias", 5),
    ("first alias", 11),
    ("generator", 12),
    ("reserved", 10),
    ("Permitted", 10),
    ("restarts", 8),
    ("due", 8),
    ("inbox", 5),
    ("turns", 5),
];

/// The nodes, each a row, but those in a row that are Off together.
fn rows(seen: &[Seen; PLACES]) -> Vec<(usize, usize)> {
    let mut rows: Vec<(usize, usize)> = Vec::new();
    for (index, node) in seen.iter().enumerate() {
        match rows.last_mut() {
            Some((from, to)) if node.state == State::Off && seen[*from].state == State::Off => {
                *to = index
            }
            _ => rows.push((index, index)),
        }
    }
    rows
}

/// How many nodes are on and in which states, and whether two of them use one alias.
pub fn totals(seen: &[Seen; PLACES]) -> String {
    let on = seen.iter().filter(|node| node.state != State::Off).count();
    if on == 0 {
        return "No node is on.".into();
    }
    let states = State::ALL[1..].iter().map(|&state| {
        let count = seen.iter().filter(|node| node.state == state).count();
        (count > 0).then(|| format!("{count} {}", state.name()))
    });
    let states: Vec<String> = states.flatten().collect();
    format!(
        "{} on: {}; {}.",
        words::count(on, "node", "nodes"),
        states.join(", "),
        aliases_in_use(seen)
    )
}

/// How many nodes use how many aliases.
fn aliases_in_use(seen: &[Seen; PLACES]) -> String {
    let users = seen.iter().filter(|node| node.state.uses_alias());
    let mut used: Vec<u16> = users.map(|node| node.alias).collect();
    let users = used.len();
    used.sort_unstable();
    used.dedup();
    match (users, used.len()) {
        (0, _) => "none uses an alias".into(),
        (1, _) => "one uses an alias".into(),
        (users, aliases) if users == aliases => {
            format!("{aliases} aliases in use, no two the same")
        }
        (users, aliases) => {
            format!("{users} use {}: TWO USE ONE", words::count(aliases, "alias", "aliases"))
        }
    }
}
