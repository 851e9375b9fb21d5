//! A drawing of a run: a line for each exhibit over time, its states as bands, the frames on the bus above.

mod axis;
mod draw;
mod lanes;
mod legend;
mod overdue;
mod record;
mod room;
mod rows;
mod shared;
mod style;
mod svg;
mod turns;
mod warm;

pub use draw::draw;
pub use record::Record;
