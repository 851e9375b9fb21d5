//! Marks where nodes come to use one alias: a sign on the row of each, a way between them, and words below the rows.

use super::draw::{Page, BOLD};
use super::room::Room;
use super::svg::{Anchor, Svg};
use crate::shared::Shared;

/// How high the words are.
pub const HEIGHT: f64 = 12.0;

pub fn draw(svg: &mut Svg, page: &Page) {
    let mut room = Room::default();
    for shared in &page.record.shared {
        let [from, (x, bottom)] = way(page, shared);
        let is_told = words(svg, page, shared, &mut room);
        let end = if is_told && !page.late_words_reach(x) { foot(page) } else { bottom };
        svg.line(from, (x, end), "shared-way");
        for &index in &shared.nodes {
            sign(svg, x, page.rows.middle(index), shared.nodes.len(), &shared.words());
        }
    }
}

/// The way from the first node that uses the alias, by the others, to below the rows. Where it has words, it goes on to them.
pub fn way(page: &Page, shared: &Shared) -> [(f64, f64); 2] {
    let x = page.axis.at(shared.count);
    [(x, page.rows.middle(shared.nodes[0])), (x, page.rows.bottom())]
}

/// Where the words stand.
fn foot(page: &Page) -> f64 {
    page.late_words() + HEIGHT
}

/// How many nodes use the alias.
pub fn sign(svg: &mut Svg, x: f64, y: f64, nodes: usize, title: &str) {
    svg.rect_with([x - 5.0, y - 5.5, 10.0, 11.0], "shared", title);
    svg.text(x, y + 3.4, "shared-text", Anchor::Middle, &nodes.to_string());
}

/// Beside the way, on the side that has more room, unless words stand there already; gives whether they are written.
fn words(svg: &mut Svg, page: &Page, shared: &Shared, room: &mut Room) -> bool {
    let nodes = if shared.nodes.len() == 2 { "two".into() } else { shared.nodes.len().to_string() };
    let text = format!("{nodes} nodes come to use alias {:03X}", shared.alias);
    let (x, width) = (page.axis.at(shared.count), BOLD * text.len() as f64);
    let (left, place, anchor) = if x < (page.axis.left + page.axis.right) / 2.0 {
        (x, x + 4.0, Anchor::Start)
    } else {
        (x - width, x - 4.0, Anchor::End)
    };
    let is_free = room.find(left, left + width, width).is_some();
    if is_free {
        room.take(left, left + width);
        svg.text(place, foot(page), "late-text", anchor, &text);
    }
    is_free
}
