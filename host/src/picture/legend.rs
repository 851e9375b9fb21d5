//! What the signs of a drawing mean.

use super::draw::fold_mark;
use super::lanes;
use super::overdue::LineSort;
use super::shared;
use super::style::class_of;
use super::svg::{Anchor, Svg};
use super::turns;
use super::warm;
use crate::ages::KEPT;
use crate::card::State;
use crate::link::STATES;

const HEIGHT: f64 = 50.0;
const ROW: f64 = 20.0;

/// Which signs are drawn besides those of every drawing.
pub struct Signs {
    /// Frames that came with bit 28 as 0.
    pub bit_28: bool,
    pub warm: bool,
    pub links: bool,
    pub turns: bool,
    /// The sorts of lines of what was overdue.
    pub lines: Vec<LineSort>,
    pub shared: bool,
}

impl Signs {
    pub fn overdue(&self) -> bool {
        !self.lines.is_empty()
    }
}

/// Two rows: the states, then the other signs; one more where frames came with bit 28 as 0, one where warm starts are drawn, one where
/// link orders are, one where turns are, and one where something was overdue. Gives how high they are.
pub fn draw(svg: &mut Svg, left: f64, top: f64, drawn: &Signs) -> f64 {
    let mut x = left;
    for state in &State::ALL[1..] {
        svg.rect(x, top, 26.0, 14.0, class_of(*state));
        svg.text(x + 32.0, top + 11.0, "", Anchor::Start, state.name());
        x += 112.0;
    }
    svg.text(
        x + 6.0,
        top + 11.0,
        "small",
        Anchor::Start,
        "three digits on a band: the alias in test or in use",
    );
    signs(svg, left, top + 30.0);
    let mut below = 0.0;
    if drawn.bit_28 {
        below += ROW;
        bit_28_sign(svg, left, top + 30.0 + below);
    }
    if drawn.warm {
        below += ROW;
        warm::meaning(svg, left, top + 30.0 + below);
    }
    if drawn.links {
        below += ROW;
        link_signs(svg, left, top + 30.0 + below);
    }
    if drawn.turns {
        below += ROW;
        turns::signs(svg, left, top + 30.0 + below);
    }
    if drawn.overdue() {
        below += ROW;
        overdue_signs(svg, left, top + 30.0 + below, drawn);
    }
    HEIGHT + below
}

/// Two nodes use one alias only where something was overdue.
fn overdue_signs(svg: &mut Svg, left: f64, y: f64, drawn: &Signs) {
    let mut x = left;
    for sort in &drawn.lines {
        let text = format!("{} for more than {KEPT} ticks", sort.words());
        sort.line(svg, (x, x + 26.0), y, &text);
        svg.text(x + 32.0, y + 4.0, "", Anchor::Start, &text);
        x += 350.0;
    }
    if drawn.shared {
        shared::sign(svg, x + 6.0, y, 2, "two nodes come to use one alias");
        svg.text(x + 18.0, y + 4.0, "", Anchor::Start, "two nodes come to use one alias");
    }
}

fn bit_28_sign(svg: &mut Svg, left: f64, y: f64) {
    let text = "foreign frame that came with bit 28 as 0";
    lanes::diamond(svg, (left + 8.0, y), lanes::DIAMOND, "bit28", text);
    svg.text(left + 20.0, y + 4.0, "", Anchor::Start, text);
}

/// The sign of a link order, with the letter of the link state.
pub fn link_sign(svg: &mut Svg, x: f64, y: f64, state: u8, title: &str) {
    let letter = STATES.get(usize::from(state)).map_or("?", |(word, _)| &word[..1]);
    svg.rect_with([x - 5.0, y - 5.5, 10.0, 11.0], "link", title);
    svg.text(x, y + 3.2, "small", Anchor::Middle, &letter.to_uppercase());
}

fn link_signs(svg: &mut Svg, left: f64, y: f64) {
    svg.text(left, y + 4.0, "", Anchor::Start, "the host tells the node its link state:");
    let mut x = left + 225.0;
    for (state, (_, name)) in (0..).zip(STATES) {
        link_sign(svg, x, y, state, name);
        svg.text(x + 11.0, y + 4.0, "", Anchor::Start, name);
        x += 106.0;
    }
}

fn signs(svg: &mut Svg, left: f64, y: f64) {
    let text = |svg: &mut Svg, x: f64, text: &str| svg.text(x, y + 4.0, "", Anchor::Start, text);
    svg.cross(left + 8.0, y, 4.5);
    text(svg, left + 20.0, "collision: a frame with its alias was delivered");
    svg.rect(left + 271.0, y - 4.0, 3.2, 8.0, "hit");
    svg.line((left + 274.0, y), (left + 286.0, y), "lead");
    svg.circle(left + 290.0, y, 3.4, "ring");
    text(svg, left + 300.0, "that frame, and its sender");
    svg.circle(left + 462.0, y, 5.5, "restart");
    svg.text(left + 462.0, y + 3.2, "small", Anchor::Middle, "R");
    text(svg, left + 474.0, "starts again otherwise");
    svg.rect(left + 614.0, y - 4.0, 2.0, 8.0, "frame");
    text(svg, left + 622.0, "frame of an exhibit");
    svg.rect(left + 736.0, y - 4.0, 5.0, 8.0, "foreign");
    text(svg, left + 747.0, "foreign frame");
    fold_mark(svg, left + 846.0, y - 8.0, y + 8.0);
    text(svg, left + 858.0, "ticks in which nothing happens");
}
