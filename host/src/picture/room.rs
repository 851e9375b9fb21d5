//! What of a row or a track is taken, so that a text is put beside it and not upon it.

#[derive(Default)]
pub struct Room {
    /// From where to where, from left to right.
    taken: Vec<(f64, f64)>,
}

impl Room {
    pub fn take(&mut self, from: f64, to: f64) {
        let place = self.taken.partition_point(|&(other, _)| other <= from);
        self.taken.insert(place, (from, to));
    }

    /// Takes what a stroke crosses between two heights, and so much on either side of it.
    pub fn take_stroke(&mut self, ends: [(f64, f64); 2], (top, bottom): (f64, f64), beside: f64) {
        let [(x, y), (to_x, to_y)] = ends;
        let (high, low) = (y.min(to_y), y.max(to_y));
        if high < bottom && low > top {
            let slope = if high < low { (to_x - x) / (to_y - y) } else { 0.0 };
            let crossed = [top, bottom].map(|height| x + slope * (height.clamp(high, low) - y));
            self.take(crossed[0].min(crossed[1]) - beside, crossed[0].max(crossed[1]) + beside);
        }
    }

    /// The first place between two at which something so wide has room.
    pub fn find(&self, from: f64, to: f64, width: f64) -> Option<f64> {
        let mut x = from;
        for &(left, right) in &self.taken {
            if x < right && x + width > left {
                x = right;
            }
        }
        (x + width <= to).then_some(x)
    }
}
