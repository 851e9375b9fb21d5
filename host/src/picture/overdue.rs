//! What stood or waited too long, as lines below a node's bands. Frames that stood in one inbox at one time are one line.

use super::draw::Page;
use super::record::{Overdue, Record, Step};
use super::rows::TRACK;
use super::svg::{Anchor, Svg};
use crate::watch::Aged;
use crate::words;

/// How thick a line is, and the strokes at its ends; how high these are.
const THICK: f64 = 3.0;
const END: (f64, f64) = (1.6, 8.0);
/// How much of a line is to be seen before and behind its text, where there is room; about how wide a letter of that is.
const SEEN: f64 = 8.0;
const LETTER: f64 = 5.0;

/// The two sorts of lines, in the order of their tracks.
#[derive(Clone, Copy, PartialEq, Eq)]
pub enum LineSort {
    Stood,
    Waited,
}

impl LineSort {
    /// Those of some lines, in order.
    pub fn all_of<'a>(lines: impl Iterator<Item = &'a Line> + Clone) -> Vec<LineSort> {
        let is_there = |sort: &LineSort| lines.clone().any(|line| line.sort() == *sort);
        [LineSort::Stood, LineSort::Waited].into_iter().filter(is_there).collect()
    }

    /// The class of its lines.
    fn class(self) -> &'static str {
        match self {
            LineSort::Stood => "stood",
            LineSort::Waited => "waited",
        }
    }

    /// What it shows, for the legend.
    pub fn words(self) -> &'static str {
        match self {
            LineSort::Stood => "an inbox frame stood",
            LineSort::Waited => "a reply RID or AMR waited",
        }
    }

    /// A line around a height, with a stroke at each end: another line may begin there.
    pub fn line(self, svg: &mut Svg, (from, to): (f64, f64), y: f64, title: &str) {
        svg.rect_with([from, y - THICK / 2.0, to - from, THICK], self.class(), title);
        let (wide, high) = END;
        for x in [from, to - wide] {
            svg.rect(x, y - high / 2.0, wide, high, &format!("{}-end", self.class()));
        }
    }
}

/// Frames of one node: the first of them, how many, where the last of them ended, and their least and greatest age.
pub struct Line {
    pub index: usize,
    first: Aged,
    frames: usize,
    end: Option<(usize, usize)>,
    ages: (usize, usize),
}

/// The lines of a drawing.
pub fn lines(record: &Record) -> Vec<Line> {
    let mut lines: Vec<Line> = Vec::new();
    for (index, overdue) in record.overdue.iter().enumerate() {
        let (stood, waited): (Vec<_>, Vec<_>) =
            overdue.iter().partition(|one| is_in_an_inbox(&one.frame));
        for frames in [stood, waited] {
            let before = lines.len();
            for one in frames {
                let line = Line::of(index, one, record.ticks);
                match lines[before..].last_mut() {
                    Some(last) if last.reaches(&line) => last.join(&line),
                    _ => lines.push(line),
                }
            }
        }
    }
    lines
}

/// The steps of a drawing, with those at which its lines begin and end.
pub fn steps(record: &Record, lines: &[Line]) -> Vec<Step> {
    let mut steps = record.steps.clone();
    let ends = lines.iter().flat_map(|line| [Some(line.first.since()), line.end]);
    for (tick, count) in ends.flatten() {
        if let Err(place) = steps.binary_search_by_key(&count, |step| step.count) {
            steps.insert(place, Step { count, tick, weight: 1.0 });
        }
    }
    steps
}

fn is_in_an_inbox(frame: &Aged) -> bool {
    matches!(frame, Aged::Inbox(_))
}

impl Line {
    fn of(index: usize, overdue: &Overdue, ticks: usize) -> Line {
        let Overdue { frame, end } = *overdue;
        let age = frame.age(end.map_or(ticks, |(tick, _)| tick));
        Line { index, first: frame, frames: 1, end, ages: (age, age) }
    }

    /// Whether a line that begins later begins before this one has ended.
    fn reaches(&self, later: &Line) -> bool {
        self.end.is_none_or(|(_, count)| later.first.since().1 < count)
    }

    fn join(&mut self, later: &Line) {
        self.frames += later.frames;
        self.end = later.end;
        self.ages = (self.ages.0.min(later.ages.0), self.ages.1.max(later.ages.1));
    }

    pub fn sort(&self) -> LineSort {
        if is_in_an_inbox(&self.first) {
            LineSort::Stood
        } else {
            LineSort::Waited
        }
    }

    fn title(&self) -> String {
        let (index, (least, greatest)) = (self.index, self.ages);
        let what = match (self.first, self.frames) {
            (Aged::Inbox(arrival), 1) => {
                let (frame, from) = (words::frame(&arrival.frame), words::sender(arrival.from));
                format!("{frame}, from {from}, stood in the inbox of node {index}")
            }
            (Aged::Inbox(_), frames) => {
                format!("{frames} frames stood in the inbox of node {index}")
            }
            (Aged::Due(owed), _) => {
                format!("{}, waited at node {index}", words::frame(&owed.frame))
            }
        };
        let ages =
            if least == greatest { greatest.to_string() } else { format!("{least} to {greatest}") };
        let place = |(tick, count): (usize, usize)| format!("tick {tick} (command {count})");
        let end = self.end.map_or("the end".into(), place);
        format!("{what} for {ages} ticks, from {} to {end}", place(self.first.since()))
    }

    /// From where to where it goes.
    fn reach(&self, page: &Page) -> (f64, f64) {
        let end = self.end.map(|(_, count)| count);
        (page.axis.at(self.first.since().1), page.axis.at_or_end(end))
    }

    pub fn draw(&self, svg: &mut Svg, page: &Page) {
        self.sort().line(svg, self.reach(page), self.middle(page), &self.title());
    }

    /// How many ticks it was, in the line: beside what crosses its track, else over that, where the line is long enough.
    pub fn label(&self, svg: &mut Svg, page: &Page) {
        let text = self.text();
        let (width, (from, to), y) =
            (LETTER * text.len() as f64, self.reach(page), self.middle(page));
        let (top, bottom) = (y - TRACK / 2.0, y + TRACK / 2.0);
        let beside = page.crossed((top, bottom)).find(from + SEEN, to - SEEN, width);
        let over = (to - from >= width + 2.0 * END.0).then_some((from + to - width) / 2.0);
        let Some(x) = beside.or(over) else { return };
        svg.rect(x, top, width, bottom - top, "paper");
        let class = format!("{}-text", self.sort().class());
        svg.text(x + width / 2.0, y + 3.2, &class, Anchor::Middle, &text);
    }

    fn text(&self) -> String {
        let (least, greatest) = self.ages;
        let up_to = if least == greatest { "" } else { "up to " };
        format!("{up_to}{greatest} ticks")
    }

    /// The middle of its track.
    fn middle(&self, page: &Page) -> f64 {
        page.rows.track(self.index, self.sort())
    }
}
