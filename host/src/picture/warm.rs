//! Signs where a node is started warm, on its row: a white W on black. A cold start has no sign.

use super::draw::Page;
use super::svg::{Anchor, Svg};

/// A label before it ends so far from it, and one behind it begins farther off: none lies upon it.
const RADIUS: f64 = 5.0;
/// Signs of a row that are nearer to each other would cover one another; the first of them is drawn.
const NEAR: f64 = 2.0 * RADIUS;

pub fn draw(svg: &mut Svg, page: &Page) {
    for index in page.rows.nodes() {
        let mut last = f64::MIN;
        for start in page.record.warm.iter().filter(|start| start.index == index) {
            let x = page.axis.at(start.count);
            if x - last >= NEAR {
                let title = format!("{}, command {}", start.words(), start.count);
                sign(svg, x, page.rows.middle(index), &title);
                last = x;
            }
        }
    }
}

fn sign(svg: &mut Svg, x: f64, y: f64, title: &str) {
    svg.circle_with(x, y, RADIUS, "warm", title);
    svg.text(x, y + 2.9, "warm-text", Anchor::Middle, "W");
}

/// What the sign means, for the legend.
pub fn meaning(svg: &mut Svg, left: f64, y: f64) {
    let text = "started warm: it tests the alias that it is given back";
    sign(svg, left + 8.0, y, text);
    svg.text(left + 20.0, y + 4.0, "", Anchor::Start, text);
    let cold = "a start without this sign is cold: it tests the first alias of its Node ID";
    svg.text(left + 320.0, y + 4.0, "small", Anchor::Start, cold);
}
