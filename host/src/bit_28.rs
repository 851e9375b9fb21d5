//! Frames that came onto the bus with bit 28 as 0: how many, and under which aliases.

use std::cmp::Reverse;
use std::collections::BTreeMap;

use crate::watch::Moment;
use crate::words;

#[derive(Default)]
pub struct Bit28 {
    /// How many came under each alias.
    frames: BTreeMap<u16, usize>,
}

impl Bit28 {
    pub fn note(&mut self, moment: &Moment) {
        let came = moment.on_the_bus().map(|(frame, _)| frame);
        if let Some(frame) = came.filter(|frame| frame.has_bit_28_as_0()) {
            *self.frames.entry(frame.alias()).or_default() += 1;
        }
    }

    pub fn is_empty(&self) -> bool {
        self.frames.is_empty()
    }

    pub fn words(&self) -> String {
        let frames = words::count(self.frames.values().sum(), "frame", "frames");
        let aliases = words::count(self.frames.len(), "alias", "aliases");
        format!("{frames} came with bit 28 as 0, under {aliases}")
    }

    /// Each alias with its frames, those with most frames first.
    pub fn aliases(&self) -> impl ExactSizeIterator<Item = String> + '_ {
        let mut aliases: Vec<(&u16, &usize)> = self.frames.iter().collect();
        aliases.sort_by_key(|&(_, count)| Reverse(count));
        let frames = |count| words::count(count, "frame", "frames");
        let named =
            move |(alias, count): (&u16, &usize)| format!("alias {alias:03X}: {}", frames(*count));
        aliases.into_iter().map(named)
    }
}
