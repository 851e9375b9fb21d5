//! What the comparison of GridConnect text (A.7) must meet, and how often it did.

use reference::generate::grid_faults::Fault;
use reference::generate::grid_texts::Letters;
use reference::header::{ALIAS_MAX, HEADER_MAX, RESERVED_BIT};
use std::collections::BTreeMap;

/// Frames have 0 to 8 data bytes.
const LENGTHS: usize = 9;

/// A call on which both sides agree.
#[derive(Clone, Copy, Debug, PartialEq, Eq, PartialOrd, Ord)]
pub enum GridMark {
    /// A frame of this length is written into a buffer that is exactly long enough.
    WrittenExactly(u64),
    /// Into a longer one.
    WrittenIntoMore(u64),
    /// It is refused by 17, since the buffer is one byte too short.
    OneShort(u64),
    /// Refused by 9: what is out of range; and whether the buffer is too short besides, which is tested last.
    Malformed { header: bool, length: bool, short: bool },
    /// A text of so many data bytes is read, its letters written so.
    Read(u64, Letters),
    /// A header is read with this bit 28, with alias 0 or another.
    Header { bit_28: bool, alias_zero: bool },
    /// A text is refused by 16, since this is wrong with it.
    Refused(Fault),
}

impl GridMark {
    pub fn all() -> Vec<GridMark> {
        let mut all = Vec::new();
        for len in 0..LENGTHS as u64 {
            all.extend([GridMark::WrittenExactly(len), GridMark::WrittenIntoMore(len), GridMark::OneShort(len)]);
            all.extend(Letters::ALL.map(|letters| GridMark::Read(len, letters)));
        }
        for one in [false, true] {
            for (header, length) in [(true, false), (false, true), (true, true)] {
                all.push(GridMark::Malformed { header, length, short: one });
            }
            all.extend([false, true].map(|alias_zero| GridMark::Header { bit_28: one, alias_zero }));
        }
        all.extend(Fault::ALL.map(GridMark::Refused));
        all
    }

    /// Of a frame that was refused or written, in so much room.
    fn of_frame(code: u64, room: usize, header: u32, len: u8) -> Option<GridMark> {
        let needed = length_of_text(len);
        match code {
            0 if room == needed => Some(GridMark::WrittenExactly(len.into())),
            0 => Some(GridMark::WrittenIntoMore(len.into())),
            17 if room + 1 == needed => Some(GridMark::OneShort(len.into())),
            9 => Some(GridMark::Malformed { header: header > HEADER_MAX, length: len > 8, short: room < needed }),
            _ => None,
        }
    }
}

/// `:X`, eight digits, `N`, two digits for each byte, `;`.
fn length_of_text(len: u8) -> usize {
    12 + 2 * usize::from(len)
}

/// How many calls agree, what they met, and how many round trips of A.7 there are among them.
#[derive(Debug, Default)]
pub struct Counts {
    pub written: usize,
    pub malformed: usize,
    pub short: usize,
    pub read: usize,
    pub refused: usize,
    /// Frames that were written, and read as themselves, by their length.
    pub read_again: [usize; LENGTHS],
    /// Texts that were read, and written back with their letters raised, by the length of their frame.
    pub written_back: [usize; LENGTHS],
    marks: BTreeMap<GridMark, usize>,
}

impl Counts {
    /// Adds the writing of a frame, answered so, into so much room.
    pub fn add_frame(&mut self, code: u64, room: usize, header: u32, len: u8) {
        self.written += usize::from(code == 0);
        self.malformed += usize::from(code == 9);
        self.short += usize::from(code == 17);
        self.mark(GridMark::of_frame(code, room, header, len));
    }

    /// Adds a text that was read as this header and length.
    pub fn add_read(&mut self, text: &[u8], header: u64, len: u64) {
        let (bit_28, alias) = (header & u64::from(RESERVED_BIT) != 0, header & u64::from(ALIAS_MAX));
        self.read += 1;
        self.mark(Letters::of(text).map(|letters| GridMark::Read(len, letters)));
        self.mark(Some(GridMark::Header { bit_28, alias_zero: alias == 0 }));
    }

    /// Adds a text that was refused.
    pub fn add_refused(&mut self, text: &[u8]) {
        self.refused += 1;
        self.mark(Fault::of(text).map(GridMark::Refused));
    }

    fn mark(&mut self, mark: Option<GridMark>) {
        mark.into_iter().for_each(|mark| *self.marks.entry(mark).or_default() += 1);
    }

    pub fn missing(&self) -> Vec<GridMark> {
        GridMark::all().into_iter().filter(|mark| !self.marks.contains_key(mark)).collect()
    }
}

#[cfg(test)]
mod tests {
    use super::*;

    #[test]
    fn what_was_never_met_is_missed() {
        let mut counts = Counts::default();
        assert_eq!(counts.missing(), GridMark::all());
        counts.add_frame(0, 12, 0x1705_0263, 0);
        counts.add_frame(17, 27, 0x1705_0263, 8);
        counts.add_read(b":X17050000N;", 0x1705_0000, 0);
        counts.add_read(b":X17050263Nab;", 0x1705_0263, 1);
        counts.add_refused(b":X17050263N;\n");
        let met = [
            GridMark::WrittenExactly(0),
            GridMark::OneShort(8),
            GridMark::Header { bit_28: true, alias_zero: true },
            GridMark::Header { bit_28: true, alias_zero: false },
            GridMark::Read(1, Letters::Lower),
            GridMark::Refused(Fault::Trailing),
        ];
        assert_eq!(counts.missing(), GridMark::all().into_iter().filter(|mark| !met.contains(mark)).collect::<Vec<_>>());
        let Counts { written, malformed, short, read, refused, .. } = counts;
        assert_eq!([written, malformed, short, read, refused], [1, 0, 1, 2, 1]);
    }

    #[test]
    fn a_room_that_is_more_than_one_short_is_no_mark() {
        assert_eq!(GridMark::of_frame(17, 26, 0, 8), None);
        assert_eq!(GridMark::of_frame(17, 0, 0, 0), None);
        assert_eq!(GridMark::of_frame(0, 29, 0, 8), Some(GridMark::WrittenIntoMore(8)));
    }

    #[test]
    fn refusal_9_is_told_by_what_is_out_of_range() {
        let mark = |header, length, short| Some(GridMark::Malformed { header, length, short });
        assert_eq!(GridMark::of_frame(9, 28, HEADER_MAX + 1, 8), mark(true, false, false));
        assert_eq!(GridMark::of_frame(9, 29, HEADER_MAX, 9), mark(false, true, true));
        assert_eq!(GridMark::of_frame(9, 0, u32::MAX, 255), mark(true, true, true));
    }
}
