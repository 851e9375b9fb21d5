//! The time axis: a place for each step, ticks as they come, and stretches in which nothing happens folded.

use super::record::Step;

/// A stretch without any step: where it is drawn, and how many ticks it has.
pub struct Fold {
    pub left: f64,
    pub width: f64,
    pub ticks: usize,
}

pub struct Axis {
    pub left: f64,
    pub right: f64,
    /// The room of a step of weight 1.
    pub unit: f64,
    /// The commands that are drawn, with their places.
    steps: Vec<(usize, f64)>,
    /// The ticks that are drawn, with where they begin.
    pub ticks: Vec<(usize, f64)>,
    pub folds: Vec<Fold>,
}

/// The widest a fold is drawn, and the most of the axis that all folds take together.
const FOLD: f64 = 64.0;
const FOLDS_SHARE: f64 = 0.4;

enum Part {
    /// A tick with its steps, from one to before another.
    Tick(usize, usize, usize),
    Fold(usize),
}

impl Axis {
    /// An axis over so many ticks between two places.
    pub fn new(steps: &[Step], ticks: usize, left: f64, right: f64) -> Axis {
        let parts = parts(steps, ticks);
        let units: f64 = parts.iter().map(|part| units(part, steps)).sum();
        let folds = parts.iter().filter(|part| matches!(part, Part::Fold(_))).count() as f64;
        let fold = FOLD.min(FOLDS_SHARE * (right - left) / folds.max(1.0));
        let unit = (right - left - fold * folds) / units.max(1.0);
        let mut axis =
            Axis { left, right, unit, steps: Vec::new(), ticks: Vec::new(), folds: Vec::new() };
        let mut x = left;
        for part in &parts {
            x = axis.put(part, steps, x, fold);
        }
        axis
    }

    /// Puts a part at this place; gives the place after it.
    fn put(&mut self, part: &Part, steps: &[Step], x: f64, fold: f64) -> f64 {
        let unit = self.unit;
        match *part {
            Part::Fold(ticks) => {
                self.folds.push(Fold { left: x, width: fold, ticks });
                x + fold
            }
            Part::Tick(tick, from, to) => {
                self.ticks.push((tick, x));
                let mut x = x + unit / 2.0;
                for step in &steps[from..to] {
                    self.steps.push((step.count, x + step.weight * unit / 2.0));
                    x += step.weight * unit;
                }
                x + unit / 2.0
            }
        }
    }

    /// Where a command stands that is drawn.
    pub fn at(&self, count: usize) -> f64 {
        self.steps[self.steps.partition_point(|&(step, _)| step < count)].1
    }

    /// Where a command stands, or the end of the axis.
    pub fn at_or_end(&self, count: Option<usize>) -> f64 {
        count.map_or(self.right, |count| self.at(count))
    }
}

/// Half a unit of room stands before and after the steps of a tick.
fn units(part: &Part, steps: &[Step]) -> f64 {
    match *part {
        Part::Tick(_, from, to) => {
            1.0 + steps[from..to].iter().map(|step| step.weight).sum::<f64>()
        }
        Part::Fold(_) => 0.0,
    }
}

/// The ticks in order. Two or more in a row without any step are folded.
fn parts(steps: &[Step], ticks: usize) -> Vec<Part> {
    let mut parts = Vec::new();
    let (mut tick, mut from) = (0, 0);
    while tick <= ticks {
        let to = from + steps[from..].iter().take_while(|step| step.tick == tick).count();
        let next = steps.get(to).map_or(ticks + 1, |step| step.tick);
        parts.push(Part::Tick(tick, from, to));
        match next - tick - 1 {
            0 => {}
            1 => parts.push(Part::Tick(tick + 1, to, to)),
            idle => parts.push(Part::Fold(idle)),
        }
        (tick, from) = (next, to);
    }
    parts
}
