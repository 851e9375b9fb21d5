//! The bus above the exhibits: a lane for each sort of frame that was seen.

use std::collections::HashSet;

use super::axis::Axis;
use super::record::{OnBus, Record, WIDE};
use super::svg::{Anchor, Svg};
use crate::frame::Frame;
use crate::watch::Sender;
use crate::words;

pub const LANE: f64 = 11.0;
/// Half the width of a frame of an exhibit.
const HALF: f64 = 1.0;
/// Half the width and half the height of a frame that came with bit 28 as 0, where there is room.
pub const DIAMOND: (f64, f64) = (4.2, 5.0);

/// The lanes' names from top to bottom, those alone of which a frame was seen.
pub struct Lanes {
    names: Vec<String>,
    top: f64,
}

impl Lanes {
    pub fn new(record: &Record, top: f64) -> Lanes {
        let mut lanes: Vec<(usize, String)> = Vec::new();
        for on_bus in &record.frames {
            let lane = (order(&on_bus.frame), words::short(&on_bus.frame));
            if !lanes.contains(&lane) {
                lanes.push(lane);
            }
        }
        lanes.sort();
        Lanes { names: lanes.into_iter().map(|(_, name)| name).collect(), top }
    }

    pub fn bottom(&self) -> f64 {
        self.top + LANE * self.names.len().max(1) as f64
    }

    /// The middle of the lane of a frame.
    pub fn middle(&self, frame: &Frame) -> f64 {
        let name = words::short(frame);
        let lane = self.names.iter().position(|lane| *lane == name).unwrap_or(0);
        self.top + LANE * (lane as f64 + 0.5)
    }

    /// The lanes with their names and frames; `hits` are the commands whose frames met a node of the same alias.
    pub fn draw(&self, svg: &mut Svg, record: &Record, axis: &Axis, hits: &HashSet<usize>) {
        svg.text(24.0, self.top - 6.0, "strong", Anchor::Start, "frames on the bus");
        for (lane, name) in self.names.iter().enumerate() {
            let y = self.top + LANE * (lane as f64 + 0.5);
            svg.line((axis.left, y), (axis.right, y), "lane");
            svg.text(axis.left - 8.0, y + 3.2, "small", Anchor::End, name);
        }
        // Frames with bit 28 as 0 lie over the others, so that none of them is covered.
        for as_0 in [false, true] {
            let frames = record.frames.iter().filter(|f| f.frame.has_bit_28_as_0() == as_0);
            self.marks(svg, frames, axis, hits);
        }
    }

    fn marks<'a>(
        &self,
        svg: &mut Svg,
        frames: impl Iterator<Item = &'a OnBus>,
        axis: &Axis,
        hits: &HashSet<usize>,
    ) {
        let (size, mut last) = (narrowed(axis), (f64::MIN, f64::MIN));
        for on_bus in frames {
            let place = (axis.at(on_bus.count), self.middle(&on_bus.frame));
            let hit = hits.contains(&on_bus.count);
            // Marks that would cover one another are drawn once.
            if hit || place.1 != last.1 || place.0 - last.0 > 0.7 {
                mark(svg, on_bus, place, hit, size);
                last = place;
            }
        }
    }
}

/// Half the width and half the height of a diamond: no wider than its step on the axis, so that the frames beside it are seen, and no
/// narrower than a frame of an exhibit.
fn narrowed(axis: &Axis) -> (f64, f64) {
    let (wide, high) = DIAMOND;
    (wide.min(WIDE * axis.unit / 2.0).max(HALF), high)
}

fn mark(svg: &mut Svg, on_bus: &OnBus, (x, y): (f64, f64), hit: bool, size: (f64, f64)) {
    let OnBus { count, frame, from } = on_bus;
    let whose = words::of_sender(frame, *from);
    let title = format!("{}{whose}, command {count}", words::frame(frame));
    if frame.has_bit_28_as_0() {
        return diamond(svg, (x, y), size, if hit { "bit28-hit" } else { "bit28" }, &title);
    }
    let (half, high) = (if hit { 1.6 } else { HALF }, LANE - 3.0);
    let place = [x - half, y - high / 2.0, 2.0 * half, high];
    match (on_bus.from, hit) {
        (Sender::Node(_), false) => svg.rect_with(place, "frame", &title),
        (Sender::Node(_), true) => svg.rect_with(place, "hit", &title),
        (Sender::Foreign, false) => svg.rect_with([x - 2.5, y - 4.0, 5.0, 8.0], "foreign", &title),
        (Sender::Foreign, true) => {
            svg.rect_with([x - 2.5, y - 4.0, 5.0, 8.0], "foreign-hit", &title)
        }
    }
}

/// A frame that came with bit 28 as 0; half its width, and half its height.
pub fn diamond(
    svg: &mut Svg,
    (x, y): (f64, f64),
    (wide, high): (f64, f64),
    class: &str,
    title: &str,
) {
    svg.shape_with(&[(x, y - high), (x + wide, y), (x, y + high), (x - wide, y)], class, title);
}

/// The order of lanes: the way of an alias from CID 7 on, then messages, then frames without effect.
fn order(frame: &Frame) -> usize {
    use crate::frame::Sort;
    match frame.sort() {
        Some(Sort::Cid(number, _)) => usize::from(7 - number),
        Some(Sort::Rid) => 10,
        Some(Sort::Amd) => 11,
        Some(Sort::Ame) => 12,
        Some(Sort::Amr) => 13,
        Some(Sort::Message(_)) if frame.is_duplicate_report() => 15,
        Some(Sort::Message(_)) => 14,
        Some(Sort::ErrorReport(_)) => 16,
        Some(Sort::Reserved(_)) => 17,
        None => 18,
    }
}
