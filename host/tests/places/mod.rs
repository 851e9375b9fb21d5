//! Where the shapes and texts of a drawing stand.

use crate::shapes::of_class;

/// An attribute of a shape that is a number.
pub fn number(shape: &str, name: &str) -> f64 {
    attribute(shape, name).parse().expect("a number")
}

fn attribute<'a>(shape: &'a str, name: &str) -> &'a str {
    let (_, rest) = shape.split_once(&format!(" {name}=\"")).expect("it has that attribute");
    rest.split_once('"').expect("it ends").0
}

/// The places that a path or a shape leads by.
fn points(path: &str) -> Vec<(f64, f64)> {
    let points = attribute(path, "points").split(' ').map(|point| {
        let (x, y) = point.split_once(',').expect("across and down");
        (x.parse().expect("a number"), y.parse().expect("a number"))
    });
    points.collect()
}

/// The places of all shapes and texts of some classes.
pub fn places(picture: &str, classes: &[&str]) -> Vec<Place> {
    let all = classes.iter().flat_map(|class| of_class(picture, class));
    all.flat_map(Place::all_of).collect()
}

/// No two of some places meet, nor any of them one of the others.
pub fn are_apart(places: &[Place], others: &[Place], list: &str) {
    for (at, place) in places.iter().enumerate() {
        for other in places[..at].iter().chain(others) {
            assert!(!place.meets(other), "{place:?} {other:?}:\n{list}");
        }
    }
}

/// From where to where a shape or a text goes, across and down.
#[derive(Clone, Copy, Debug)]
pub struct Place {
    pub left: f64,
    pub right: f64,
    pub top: f64,
    pub bottom: f64,
}

impl Place {
    /// The places that a line of a drawing takes: one for a shape, one for each stroke of a path, none where it draws nothing.
    pub fn all_of(line: &str) -> Vec<Place> {
        match line.split_once(' ').map(|(name, _)| name) {
            Some("<rect") if line.contains(" x=") => vec![Place::of_rect(line)],
            Some("<line") => vec![Place::around(
                (number(line, "x1"), number(line, "y1")),
                (number(line, "x2"), number(line, "y2")),
            )],
            Some("<polyline") => Place::of_path(line),
            Some("<polygon") => vec![Place::of_shape(line)],
            Some("<circle") => {
                let (x, y, r) = (number(line, "cx"), number(line, "cy"), number(line, "r"));
                vec![Place::around((x - r, y - r), (x + r, y + r))]
            }
            Some("<text") => vec![Place::of_text(line)],
            _ => Vec::new(),
        }
    }

    fn around(one: (f64, f64), other: (f64, f64)) -> Place {
        Place {
            left: one.0.min(other.0),
            right: one.0.max(other.0),
            top: one.1.min(other.1),
            bottom: one.1.max(other.1),
        }
    }

    pub fn of_rect(rect: &str) -> Place {
        let (left, top) = (number(rect, "x"), number(rect, "y"));
        Place::around((left, top), (left + number(rect, "width"), top + number(rect, "height")))
    }

    fn of_path(path: &str) -> Vec<Place> {
        points(path).windows(2).map(|ends| Place::around(ends[0], ends[1])).collect()
    }

    /// Around all corners of a shape.
    fn of_shape(shape: &str) -> Place {
        let corners = points(shape).into_iter().map(|corner| Place::around(corner, corner));
        let both = |one: Place, other: Place| Place {
            left: one.left.min(other.left),
            right: one.right.max(other.right),
            top: one.top.min(other.top),
            bottom: one.bottom.max(other.bottom),
        };
        corners.reduce(both).expect("a shape has corners")
    }

    /// About so wide and high are the letters of each class.
    fn of_text(text: &str) -> Place {
        let (wide, high) = match attribute(text, "class") {
            "title" => (12.0, 18.0),
            "subtitle" => (6.6, 12.0),
            "late-text" | "strong" => (7.2, 11.0),
            "late-text long" => (5.6, 9.0),
            "small" | "stood-text" | "waited-text" => (5.0, 9.0),
            "mono" | "on-band" | "on-dark" => (6.1, 10.0),
            _ => (5.3, 10.0),
        };
        let written = text.split_once('>').expect("it begins").1;
        let written = written.strip_suffix("</text>").expect("it ends");
        let (x, y, width) = (number(text, "x"), number(text, "y"), wide * written.len() as f64);
        let left = match text.split_once(" text-anchor=\"").map(|(_, anchor)| &anchor[..3]) {
            Some("end") => x - width,
            Some("mid") => x - width / 2.0,
            _ => x,
        };
        // Letters such as p reach below the line on which they stand.
        Place::around((left, y - 0.8 * high), (left + width, y + 0.2 * high))
    }

    /// Numbers are written with one digit, so that some tenths do not count.
    pub fn meets(&self, other: &Place) -> bool {
        let meet = |a: f64, b: f64, c: f64, d: f64| a + 0.25 < d && c + 0.25 < b;
        let across = meet(self.left, self.right, other.left, other.right);
        across && meet(self.top, self.bottom, other.top, other.bottom)
    }
}
