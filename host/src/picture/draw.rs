//! Puts a drawing together: title, bus, time axis, a row for each exhibit, what collided, what was overdue, legend. A page is A4
//! across.

use std::collections::HashSet;

use super::axis::Axis;
use super::lanes::Lanes;
use super::legend::{self, Signs};
use super::overdue::{self, Line, LineSort};
use super::record::{Band, Record};
use super::room::Room;
use super::rows::Rows;
use super::shared;
use super::style::{class_of, is_dark, styles, DEFINITIONS};
use super::svg::{number, Anchor, Svg};
use super::turns;
use super::warm;
use crate::hex::dotted_id;
use crate::summary::{totals, Collision};
use crate::watch::{Late, Sender};
use crate::words;

const WIDTH: f64 = 1123.0;
const MARGIN: f64 = 24.0;
/// Where the time axis begins and ends; the exhibits' names stand before it, what became of them behind it.
const LEFT: f64 = 168.0;
const RIGHT: f64 = 994.0;
const TOP: f64 = 110.0;
const BAND: f64 = 15.0;
/// The narrowest band that its alias is written on.
const LABEL: f64 = 27.0;
/// About how wide a bold letter is, and what stands below the rows where the list comes to be late.
pub const BOLD: f64 = 7.2;
const LATE: &str = "late from here on";
/// With more letters than these a sentence is long; with more than these, set smaller, it is wider than the page.
const LONG: usize = 140;
const LONGEST: usize = 185;
/// Of collisions, so many are told in words.
const TOLD: usize = 4;
/// With more collisions than these no ways lead to them, since they would cover everything.
const LED_TO: usize = 40;

/// The places of a drawing that go by what was recorded.
pub struct Page<'a> {
    pub record: &'a Record,
    pub axis: Axis,
    lanes: Lanes,
    lines: Vec<Line>,
    pub rows: Rows,
}

/// The drawing of a run of this name.
pub fn draw(record: &Record, name: &str, last: &str) -> String {
    let lines = overdue::lines(record);
    let axis = Axis::new(&overdue::steps(record, &lines), record.ticks, LEFT, RIGHT);
    let lanes = Lanes::new(record, TOP);
    let rows = Rows::new(record, &lines, lanes.bottom() + 26.0);
    let page = Page { record, axis, lanes, lines, rows };
    let mut svg = Svg::default();
    page.title(&mut svg, name, last);
    page.time(&mut svg);
    page.exhibits(&mut svg);
    turns::draw(&mut svg, &page);
    page.lanes.draw(&mut svg, record, &page.axis, &page.hits());
    page.lines.iter().for_each(|line| line.draw(&mut svg, &page));
    page.folds(&mut svg);
    page.late(&mut svg);
    page.aliases(&mut svg);
    page.collisions(&mut svg);
    warm::draw(&mut svg, &page);
    page.links(&mut svg);
    shared::draw(&mut svg, &page);
    page.lines.iter().for_each(|line| line.label(&mut svg, &page));
    let below = page.told(&mut svg);
    let signs = page.drawn_besides();
    let height = below + legend::draw(&mut svg, MARGIN, below, &signs);
    whole(&svg, height, name, &styles(&signs))
}

/// A long sentence is set smaller, so that it stays on the page.
fn late_class(sentence: &str) -> &'static str {
    if sentence.len() > LONG {
        "late-text long"
    } else {
        "late-text"
    }
}

/// A sentence that is too long even then goes on in a second line.
fn on_two_lines(sentence: &str) -> (&str, Option<&str>) {
    let fits = sentence.match_indices(' ').map(|(blank, _)| blank).take_while(|at| *at <= LONGEST);
    match fits.last() {
        Some(blank) if sentence.len() > LONGEST => {
            (&sentence[..blank], Some(&sentence[blank + 1..]))
        }
        _ => (sentence, None),
    }
}

/// The whole text; more styles than all drawings have may stand in it.
fn whole(svg: &Svg, height: f64, name: &str, styles: &str) -> String {
    let (width, high) = (number(WIDTH), number(height));
    let name = super::svg::escaped(name);
    format!(
        "<svg xmlns=\"http://www.w3.org/2000/svg\" viewBox=\"0 0 {width} {high}\" width=\"{width}\" height=\"{high}\">\n\
         <title>{name}</title>\n{DEFINITIONS}{styles}<rect width=\"{width}\" height=\"{high}\" class=\"paper\"/>\n{}</svg>\n",
        svg.body
    )
}

/// Two jagged strokes, as where a line is left out.
pub fn fold_mark(svg: &mut Svg, x: f64, top: f64, bottom: f64) {
    let teeth = ((bottom - top) / 8.0).ceil().max(2.0);
    let side = |shift: f64| {
        let at = move |k: usize| {
            (
                x + shift + if k.is_multiple_of(2) { -2.0 } else { 2.0 },
                top + (bottom - top) * k as f64 / teeth,
            )
        };
        (0..=teeth as usize).map(at).collect::<Vec<(f64, f64)>>()
    };
    let (left, mut right) = (side(-3.0), side(3.0));
    right.reverse();
    let mut around = left.clone();
    around.extend(&right);
    svg.path(&around, "paper");
    svg.path(&left, "fold");
    svg.path(&right, "fold");
}

impl Page<'_> {
    /// Where the words stand that say from where on the list is late.
    pub fn late_words(&self) -> f64 {
        self.rows.bottom() + 12.0
    }

    /// Whether those words reach this place.
    pub fn late_words_reach(&self, x: f64) -> bool {
        let from = self.record.late.map(|late| self.axis.at(late.count));
        from.is_some_and(|from| x > from && x < from + 8.0 + BOLD * LATE.len() as f64)
    }

    /// The signs that not every drawing has.
    fn drawn_besides(&self) -> Signs {
        Signs {
            bit_28: self.record.frames.iter().any(|on_bus| on_bus.frame.has_bit_28_as_0()),
            warm: !self.record.warm.is_empty(),
            links: !self.record.links.is_empty(),
            turns: !self.record.turns.is_empty(),
            lines: LineSort::all_of(self.lines.iter()),
            shared: !self.record.shared.is_empty(),
        }
    }

    /// The commands whose frames collided with a node's alias.
    fn hits(&self) -> HashSet<usize> {
        self.record.collisions.iter().map(|(_, collision)| collision.arrival.count).collect()
    }

    fn title(&self, svg: &mut Svg, name: &str, last: &str) {
        let record = self.record;
        svg.text(MARGIN, 36.0, "title", Anchor::Start, name);
        let collisions = words::count(record.collisions.len(), "collision", "collisions");
        let frames = words::count(record.frames.len(), "frame", "frames");
        let turns = match record.turns.len() {
            0 => String::new(),
            turns => words::count(turns, "turn", "turns") + ", ",
        };
        let ticks = words::count(record.ticks, "tick", "ticks");
        let totals = totals(&record.seen);
        let line = format!("{totals} {collisions}, {frames} on the bus, {turns}{ticks} of 1 ms.");
        svg.text(MARGIN, 56.0, "subtitle", Anchor::Start, &line);
        let (class, verdict) = match &record.late {
            Some(late) => (late_class(&words::late(late)), words::late(late)),
            None => ("subtitle", format!("{last}: {}", words::kept())),
        };
        let (line, more) = on_two_lines(&verdict);
        svg.text(MARGIN, 74.0, class, Anchor::Start, line);
        more.into_iter().for_each(|more| svg.text(MARGIN, 85.0, class, Anchor::Start, more));
    }

    /// The ticks, with a number where there is room for it.
    fn time(&self, svg: &mut Svg) {
        let y = self.lanes.bottom() + 14.0;
        svg.text(LEFT - 8.0, y, "small", Anchor::End, "tick");
        let mut free = f64::MIN;
        for &(tick, x) in &self.axis.ticks {
            svg.line((x, TOP), (x, self.rows.bottom()), "tick");
            let wide = 6.0 * tick.to_string().len() as f64 + 6.0;
            if x >= free {
                svg.text(x + 2.0, y, "small", Anchor::Start, &tick.to_string());
                free = x + wide;
            }
        }
    }

    fn exhibits(&self, svg: &mut Svg) {
        if self.rows.nodes().next().is_none() {
            svg.text(LEFT, self.rows.top + 14.0, "", Anchor::Start, "No node was powered on.");
        }
        for index in self.rows.nodes() {
            let y = self.rows.middle(index);
            let seen = &self.record.seen[index];
            svg.text(MARGIN + 16.0, y + 3.8, "strong", Anchor::End, &index.to_string());
            svg.text(LEFT - 8.0, y + 3.4, "mono", Anchor::End, &dotted_id(seen.id));
            svg.line((LEFT, y), (RIGHT, y), "row");
            for band in &self.record.bands[index] {
                self.band(svg, index, band);
            }
            let alias = if seen.alias == 0 { "---".into() } else { format!("{:03X}", seen.alias) };
            svg.text(RIGHT + 8.0, y + 3.6, "on-band", Anchor::Start, &alias);
            svg.text(RIGHT + 34.0, y + 3.6, "", Anchor::Start, seen.state.name());
        }
        for &(count, index) in &self.record.restarts {
            let (x, y) = (self.axis.at(count), self.rows.middle(index));
            svg.circle(x, y, 5.5, "restart");
            svg.text(x, y + 3.2, "small", Anchor::Middle, "R");
        }
    }

    fn band(&self, svg: &mut Svg, index: usize, band: &Band) {
        let (from, to) = (self.axis.at(band.from), self.axis.at_or_end(band.to));
        let y = self.rows.middle(index);
        let alias = if band.alias == 0 { String::new() } else { format!("{:03X}", band.alias) };
        let title = format!("node {index}: {} {alias}", band.state.name());
        svg.rect_with(
            [from, y - BAND / 2.0, to - from, BAND],
            class_of(band.state),
            title.trim_end(),
        );
    }

    /// The alias on each band that has room for it, beside the folds and the signs.
    fn aliases(&self, svg: &mut Svg) {
        for index in self.rows.nodes() {
            let mut room = self.room(index);
            for band in self.record.bands[index].iter().filter(|band| band.alias != 0) {
                self.alias(svg, self.rows.middle(index), band, &mut room);
            }
        }
    }

    /// The row of a node with folds, link orders, and marks of nodes that use one alias.
    fn room(&self, index: usize) -> Room {
        let mut room = Room::default();
        let folds = self.axis.folds.iter().map(|fold| fold.left + fold.width / 2.0);
        let links = self.record.links.iter().filter(|told| told.index == index);
        let shared = self.record.shared.iter().map(|shared| shared.count);
        let counts = links.map(|told| told.count).chain(shared);
        for middle in folds.chain(counts.map(|count| self.axis.at(count))) {
            room.take(middle - 5.0, middle + 7.0);
        }
        room
    }

    /// What crosses the rows between two heights: folds, the mark of a late list, ways to collisions and between nodes that use
    /// one alias.
    pub fn crossed(&self, heights: (f64, f64)) -> Room {
        let mut room = Room::default();
        for fold in &self.axis.folds {
            let middle = fold.left + fold.width / 2.0;
            room.take(middle - 6.0, middle + 6.0);
        }
        let late = self.record.late.iter().map(|late| self.late_mark(late));
        let shared = self.record.shared.iter().map(|shared| shared::way(self, shared));
        let leads = self.leads();
        let leads = leads.iter().flat_map(|lead| lead.windows(2)).map(|ends| [ends[0], ends[1]]);
        for ends in late.chain(shared).chain(leads) {
            room.take_stroke(ends, heights, 2.0);
        }
        room
    }

    fn alias(&self, svg: &mut Svg, y: f64, band: &Band, room: &mut Room) {
        let (from, to) = (self.axis.at(band.from), self.axis.at_or_end(band.to));
        let Some(x) = room.find(from + 7.0, to, LABEL) else { return };
        room.take(x, x + LABEL);
        let alias = format!("{:03X}", band.alias);
        if is_dark(band.state) {
            svg.text(x + 2.0, y + 3.6, "on-dark", Anchor::Start, &alias);
        } else {
            svg.rect(x, y - 5.5, LABEL - 5.0, 11.0, "plate");
            svg.text(x + 2.0, y + 3.6, "on-band", Anchor::Start, &alias);
        }
    }

    /// Where ticks are left out, over everything else.
    fn folds(&self, svg: &mut Svg) {
        let y = self.lanes.bottom() + 14.0;
        for fold in &self.axis.folds {
            let middle = fold.left + fold.width / 2.0;
            fold_mark(svg, middle, TOP, self.lanes.bottom());
            fold_mark(svg, middle, self.rows.top, self.rows.bottom());
            let text = format!("{} ticks", fold.ticks);
            if fold.width >= 5.5 * text.len() as f64 {
                svg.text(middle, y, "small", Anchor::Middle, &text);
            }
        }
    }

    /// From where on the list is late.
    fn late(&self, svg: &mut Svg) {
        if let Some(late) = &self.record.late {
            let [from, to] = self.late_mark(late);
            svg.line(from, to, "late");
            svg.text(from.0 + 4.0, self.late_words(), "late-text", Anchor::Start, LATE);
        }
    }

    fn late_mark(&self, late: &Late) -> [(f64, f64); 2] {
        let x = self.axis.at(late.count);
        [(x, TOP), (x, self.rows.bottom())]
    }

    /// A cross at each collision. While they are few, a way leads there from the frame, by its sender's row.
    fn collisions(&self, svg: &mut Svg) {
        for lead in self.leads() {
            svg.path(&lead, "lead");
            if let [_, (x, y), _] = lead[..] {
                svg.circle(x, y, 3.4, "ring");
            }
        }
        for (count, collision) in &self.record.collisions {
            let size = if self.few() { 4.5 } else { 2.5 };
            svg.cross(self.axis.at(*count), self.rows.middle(collision.index), size);
        }
    }

    /// Whether collisions are so few that ways lead to them.
    fn few(&self) -> bool {
        self.record.collisions.len() <= LED_TO
    }

    /// The letter of each link state that a node was told.
    fn links(&self, svg: &mut Svg) {
        for told in &self.record.links {
            let (x, y) = (self.axis.at(told.count), self.rows.middle(told.index));
            let title = format!("{}, command {}", told.words(), told.count);
            legend::link_sign(svg, x, y, told.link.state, &title);
        }
    }

    /// The ways to the collisions, each from a frame, by the row of its sender, where that is a node.
    fn leads(&self) -> Vec<Vec<(f64, f64)>> {
        let collisions = self.record.collisions.iter().filter(|_| self.few());
        let lead = |(count, collision): &(usize, Collision)| {
            let on_bus = self.record.frame_of(collision.arrival.count)?;
            let x = self.axis.at(on_bus.count);
            let mut way = vec![(x, self.lanes.middle(&on_bus.frame) + 4.0)];
            if let Sender::Node(index) = on_bus.from {
                way.push((x, self.rows.middle(index)));
            }
            way.push((self.axis.at(*count), self.rows.middle(collision.index)));
            Some(way)
        };
        collisions.filter_map(lead).collect()
    }

    /// The first collisions in words; gives the place below them.
    fn told(&self, svg: &mut Svg) -> f64 {
        let collisions = &self.record.collisions;
        let mut y = self.rows.bottom() + 24.0;
        if !self.record.shared.is_empty() {
            y += shared::HEIGHT;
        }
        let told = &collisions[..collisions.len().min(TOLD)];
        // Words on bit 28 are too long for half a page.
        let is_long = told.iter().any(|(_, collision)| collision.arrival.frame.has_bit_28_as_0());
        let columns: &[f64] = if is_long { &[MARGIN] } else { &[MARGIN, WIDTH / 2.0] };
        for row in told.chunks(columns.len()) {
            for ((_, collision), x) in row.iter().zip(columns) {
                svg.cross(x + 6.0, y - 3.5, 3.2);
                svg.text(x + 18.0, y, "", Anchor::Start, &collision.words());
            }
            y += 15.0;
        }
        if collisions.len() > TOLD {
            svg.text(
                MARGIN + 18.0,
                y,
                "",
                Anchor::Start,
                &format!("and {} more collisions", collisions.len() - TOLD),
            );
            y += 15.0;
        }
        y
    }
}
