//! Marks in a strip below the bands of a node: its turns. One shape where it sends, another where its send is refused.

use super::draw::Page;
use super::rows::STRIP;
use super::svg::{Anchor, Svg};

/// Half the width of a mark, where it has room, and at the least.
const HALF: f64 = 2.8;
const LEAST: f64 = 0.8;
/// How high the mark of a send that is refused is; the other is as high as the strip.
const FLAT: f64 = 1.8;
/// A mark that is nearer to the last one would cover it.
const NEAR: f64 = 0.7;

pub fn draw(svg: &mut Svg, page: &Page) {
    if page.record.turns.is_empty() {
        return;
    }
    for index in page.rows.nodes() {
        let (left, right, top) = (page.axis.left, page.axis.right, page.rows.strip(index));
        svg.rect(left, top, right - left, STRIP, "paper");
        marks(svg, page, index, top);
    }
}

/// The marks of a node: no wider than half the way to the next, and not each of them where they would cover one another.
fn marks(svg: &mut Svg, page: &Page, index: usize, top: f64) {
    let turns = page.record.turns.iter().filter(|turn| turn.index == index);
    let turns: Vec<_> = turns.map(|turn| (page.axis.at(turn.count), turn)).collect();
    let place = |at: usize| turns.get(at).map(|(x, _)| *x);
    let mut last = (f64::MIN, true);
    for (at, (x, turn)) in turns.iter().enumerate() {
        if x - last.0 > NEAR || turn.sends != last.1 {
            let beside = [at.checked_sub(1).and_then(place), place(at + 1)];
            let room = beside.into_iter().flatten().map(|other| (other - x).abs() / 2.0);
            let half = room.fold(HALF, f64::min).max(LEAST);
            let title = format!("{}, command {}", turn.words(), turn.count);
            mark(svg, (*x, top), half, turn.sends, &title);
            last = (*x, turn.sends);
        }
    }
}

/// At the top of a strip, so wide on either side.
fn mark(svg: &mut Svg, (x, top): (f64, f64), half: f64, sends: bool, title: &str) {
    let bottom = top + STRIP;
    if sends {
        svg.shape_with(&[(x, top), (x + half, bottom), (x - half, bottom)], "turn", title);
    } else {
        let y = (top + bottom - FLAT) / 2.0;
        svg.rect_with([x - half, y, 2.0 * half, FLAT], "turn-refused", title);
    }
}

/// What the marks mean, for the legend.
pub fn signs(svg: &mut Svg, left: f64, y: f64) {
    let signs = [
        (8.0, true, "turn of this node: it sends"),
        (198.0, false, "turn of this node, but its send is refused"),
    ];
    for (x, sends, text) in signs {
        mark(svg, (left + x, y - STRIP / 2.0), HALF, sends, text);
        svg.text(left + x + 12.0, y + 4.0, "", Anchor::Start, text);
    }
    svg.text(left + 462.0, y + 4.0, "small", Anchor::Start, "nobody's turns have no mark");
}
