//! The rows: one for each node that was ever on. A row has the node's bands, and below them a strip for its turns, where the drawing
//! has some, and a track for each sort of lines that the node has, so that nothing lies on a band.

use super::overdue::{Line, LineSort};
use super::record::Record;

/// How high the bands' part of a row is, how high the strip of turns, how high a track, and what parts tracks from the next row.
const BANDS: f64 = 20.0;
pub const STRIP: f64 = 5.0;
pub const TRACK: f64 = 11.0;
const APART: f64 = 5.0;

struct Row {
    index: usize,
    top: f64,
    has_strip: bool,
    tracks: Vec<LineSort>,
}

impl Row {
    /// Where its tracks begin.
    fn tracks_top(&self) -> f64 {
        self.top + BANDS + if self.has_strip { STRIP } else { 0.0 }
    }

    fn bottom(&self) -> f64 {
        let apart = if self.tracks.is_empty() { 0.0 } else { APART };
        self.tracks_top() + TRACK * self.tracks.len() as f64 + apart
    }
}

pub struct Rows {
    rows: Vec<Row>,
    pub top: f64,
}

impl Rows {
    pub fn new(record: &Record, lines: &[Line], top: f64) -> Rows {
        let mut rows = Rows { rows: Vec::new(), top };
        let has_strip = !record.turns.is_empty();
        for index in record.rows() {
            let tracks = LineSort::all_of(lines.iter().filter(|line| line.index == index));
            let top = rows.rows.last().map_or(top, Row::bottom);
            rows.rows.push(Row { index, top, has_strip, tracks });
        }
        rows
    }

    /// The nodes in order.
    pub fn nodes(&self) -> impl Iterator<Item = usize> + '_ {
        self.rows.iter().map(|row| row.index)
    }

    /// Where the rows end; without any there is room for a sentence.
    pub fn bottom(&self) -> f64 {
        self.rows.last().map_or(self.top + BANDS, Row::bottom)
    }

    fn row(&self, index: usize) -> &Row {
        let mut rows = self.rows.iter();
        rows.find(|row| row.index == index).expect("what is drawn is of a node that was on")
    }

    /// The middle of the bands of a node.
    pub fn middle(&self, index: usize) -> f64 {
        self.row(index).top + BANDS / 2.0
    }

    /// The top of the strip of a node's turns, close to its bands.
    pub fn strip(&self, index: usize) -> f64 {
        self.row(index).top + BANDS - 1.5
    }

    /// The middle of the track of a node's lines of this sort.
    pub fn track(&self, index: usize, sort: LineSort) -> f64 {
        let row = self.row(index);
        let before = row.tracks.iter().take_while(|other| **other != sort).count();
        row.tracks_top() + TRACK * (before as f64 + 0.5)
    }
}
