//! Shapes of a drawing as text of SVG.

#[derive(Default)]
pub struct Svg {
    pub body: String,
}

/// How a text stands to its place.
#[derive(Clone, Copy)]
pub enum Anchor {
    Start,
    Middle,
    End,
}

/// A number with one digit after the point at most.
pub fn number(value: f64) -> String {
    let text = format!("{value:.1}");
    let text = text.strip_suffix(".0").unwrap_or(&text);
    if text == "-0" { "0" } else { text }.into()
}

/// A text without signs that mean something in SVG.
pub fn escaped(text: &str) -> String {
    let text =
        text.replace('&', "&amp;").replace('<', "&lt;").replace('>', "&gt;").replace('"', "&quot;");
    text.chars().map(|c| if c.is_control() { '?' } else { c }).collect()
}

/// Places, one after another.
fn points(places: &[(f64, f64)]) -> String {
    let points = places.iter().map(|&(x, y)| format!("{},{}", number(x), number(y)));
    points.collect::<Vec<_>>().join(" ")
}

impl Svg {
    pub fn rect(&mut self, x: f64, y: f64, width: f64, height: f64, class: &str) {
        let (x, y, width, height) = (number(x), number(y), number(width), number(height));
        self.body += &format!(
            "<rect x=\"{x}\" y=\"{y}\" width=\"{width}\" height=\"{height}\" class=\"{class}\"/>\n"
        );
    }

    /// A rectangle that says more where the pointer rests on it.
    pub fn rect_with(&mut self, place: [f64; 4], class: &str, title: &str) {
        let [x, y, width, height] = place.map(number);
        let title = escaped(title);
        self.body += &format!(
            "<rect x=\"{x}\" y=\"{y}\" width=\"{width}\" height=\"{height}\" class=\"{class}\"><title>{title}</title></rect>\n"
        );
    }

    pub fn line(&mut self, from: (f64, f64), to: (f64, f64), class: &str) {
        let [x1, y1, x2, y2] = [from.0, from.1, to.0, to.1].map(number);
        self.body +=
            &format!("<line x1=\"{x1}\" y1=\"{y1}\" x2=\"{x2}\" y2=\"{y2}\" class=\"{class}\"/>\n");
    }

    pub fn path(&mut self, places: &[(f64, f64)], class: &str) {
        let points = points(places);
        self.body += &format!("<polyline points=\"{points}\" class=\"{class}\"/>\n");
    }

    /// A shape with these corners that says more where the pointer rests on it.
    pub fn shape_with(&mut self, corners: &[(f64, f64)], class: &str, title: &str) {
        let (points, title) = (points(corners), escaped(title));
        self.body += &format!(
            "<polygon points=\"{points}\" class=\"{class}\"><title>{title}</title></polygon>\n"
        );
    }

    pub fn circle(&mut self, x: f64, y: f64, radius: f64, class: &str) {
        let [x, y, radius] = [x, y, radius].map(number);
        self.body += &format!("<circle cx=\"{x}\" cy=\"{y}\" r=\"{radius}\" class=\"{class}\"/>\n");
    }

    /// A circle that says more where the pointer rests on it.
    pub fn circle_with(&mut self, x: f64, y: f64, radius: f64, class: &str, title: &str) {
        let ([x, y, radius], title) = ([x, y, radius].map(number), escaped(title));
        self.body += &format!(
            "<circle cx=\"{x}\" cy=\"{y}\" r=\"{radius}\" class=\"{class}\"><title>{title}</title></circle>\n"
        );
    }

    pub fn text(&mut self, x: f64, y: f64, class: &str, anchor: Anchor, text: &str) {
        let anchor = match anchor {
            Anchor::Start => "",
            Anchor::Middle => " text-anchor=\"middle\"",
            Anchor::End => " text-anchor=\"end\"",
        };
        let (x, y, text) = (number(x), number(y), escaped(text));
        self.body +=
            &format!("<text x=\"{x}\" y=\"{y}\" class=\"{class}\"{anchor}>{text}</text>\n");
    }

    /// Two strokes that cross, on white ones that part them from what is below.
    pub fn cross(&mut self, x: f64, y: f64, size: f64) {
        for class in ["cross-below", "cross"] {
            self.line((x - size, y - size), (x + size, y + size), class);
            self.line((x - size, y + size), (x + size, y - size), class);
        }
    }
}
