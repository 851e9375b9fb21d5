//! Two proved tables with one list, or two maps with the same notes: for the second, bit 28 of every foreign frame is turned. Nodes
//! and maps ignore it (A.5), so both answer and show the same, and inboxes differ in that bit alone.

use super::map::Note;
use super::operation::Operation;
use super::seen::{self, Seen};
use super::{alike, put_out};
use crate::card::{Card, ProvedMap};
use reference::header::RESERVED_BIT;
use reference::{Segment, State};

const NAMES: [&str; 2] = ["as it is", "with bit 28 turned"];

/// The states in which some frame changes a node.
const HEARING: [State; 3] = [State::Testing, State::Reserved, State::Permitted];

/// What was compared of tables.
#[derive(Clone, Copy, Debug, Default, PartialEq, Eq)]
pub struct Counts {
    pub commands: usize,
    /// Foreign frames that were taken, with bit 28 turned in the second table.
    pub turned: usize,
    /// Frames that were delivered, and stood with another bit 28 in the second table.
    pub delivered: usize,
    /// Those of them that changed their node, by its state before.
    heard: [usize; HEARING.len()],
}

impl Counts {
    /// Adds the delivery of a frame with another bit 28 in the second table.
    fn add_delivery(&mut self, before: Seen, after: Seen) {
        self.delivered += 1;
        let changed = seen::without_inbox(before) != seen::without_inbox(after);
        for (state, count) in HEARING.into_iter().zip(&mut self.heard) {
            *count += usize::from(changed && seen::is_in(state, &before));
        }
    }

    /// Each state in which some frame changes a node, with how many did.
    pub fn heard(&self) -> impl Iterator<Item = (State, usize)> {
        HEARING.into_iter().zip(self.heard)
    }
}

/// Compares both tables from all nodes Off over a list, or says what differs.
pub fn compare(list: &[Operation], counts: &mut Counts) -> Result<(), String> {
    let mut twins = Twins::default();
    for (number, operation) in (1..).zip(list) {
        twins.step(operation, counts).map_err(|what| format!("operation {number}: {what}"))?;
    }
    Ok(())
}

#[derive(Default)]
struct Twins {
    card: Card,
    turned: Card,
}

impl Twins {
    fn step(&mut self, operation: &Operation, counts: &mut Counts) -> Result<(), String> {
        let turned = operation.twin();
        let next = self.next_apart(operation);
        let answers = [operation.proved(&mut self.card), turned.proved(&mut self.turned)];
        alike(|| format!("{operation} answers"), NAMES, answers)?;
        self.look().map_err(|what| format!("after {operation} {what}"))?;
        counts.commands += 1;
        counts.turned += usize::from(turned != *operation && answers[0].0 == 0);
        if let Some((index, before)) = next {
            counts.add_delivery(before, seen::shown(&self.card, index));
        }
        Ok(())
    }

    /// The node to which a frame is delivered next that has another bit 28 in the second table, as it is seen before.
    fn next_apart(&self, operation: &Operation) -> Option<(usize, Seen)> {
        let Operation::Deliver { index } = *operation else { return None };
        let [(0, frame), (0, other)] = self.frames(index, 0) else { return None };
        (frame != other).then(|| (index, seen::shown(&self.card, index)))
    }

    /// What both tables answer of a place in an inbox.
    fn frames(&self, index: usize, place: usize) -> [(u64, [u64; 4]); 2] {
        [&self.card, &self.turned].map(|card| put_out(|frame| card.inbox(index, place, frame)))
    }

    /// Looks at everything.
    fn look(&self) -> Result<(), String> {
        let cards = [&self.card, &self.turned];
        alike(|| "late".to_string(), NAMES, cards.map(Card::is_late))?;
        for index in 0..Segment::PLACES {
            let looks = cards.map(|card| seen::shown(card, index));
            alike(|| format!("card_look(table, {index}, seen)"), NAMES, looks)?;
            let reads = cards.map(|card| put_out(|out| card.read_out(index, out)));
            alike(|| format!("card_read_out(table, {index}, out)"), NAMES, reads)?;
            (0..seen::inbox(&looks[0])).try_for_each(|place| self.look_in(index, place))?;
        }
        Ok(())
    }

    /// Two frames in one place may differ in bit 28 alone.
    fn look_in(&self, index: usize, place: usize) -> Result<(), String> {
        let frames = self.frames(index, place);
        let bit = u64::from(RESERVED_BIT);
        let [one, other] = frames.map(|(code, [kind, header, len, bytes])| (code, [kind, header & !bit, len, bytes]));
        if one == other {
            return Ok(());
        }
        alike(|| format!("card_inbox(table, {index}, {place}, frame)"), NAMES, frames)
    }
}

/// What was compared of maps.
#[derive(Clone, Copy, Debug, Default, PartialEq, Eq)]
pub struct MapCounts {
    pub notes: usize,
    /// Notes that changed the map, with bit 28 turned in the second one.
    pub changes: usize,
}

/// Compares two maps, from empty, after each of these notes. The same words look up the same.
pub fn compare_maps(notes: &[Note], counts: &mut MapCounts) -> Result<(), String> {
    let mut twins = TwinMaps::default();
    notes.iter().try_for_each(|note| twins.step(note, counts))
}

#[derive(Default)]
struct TwinMaps {
    map: ProvedMap,
    turned: ProvedMap,
}

impl TwinMaps {
    fn step(&mut self, note: &Note, counts: &mut MapCounts) -> Result<(), String> {
        let (before, turned) = (self.map.words().to_vec(), note.twin());
        let answers = [note.proved(&mut self.map), turned.proved(&mut self.turned)];
        alike(|| format!("{note} answers"), NAMES, answers)?;
        let [words, others] = [&self.map, &self.turned].map(ProvedMap::words);
        for (at, (word, other)) in words.iter().zip(others).enumerate() {
            alike(|| format!("after {note} map[{at}]"), NAMES, [word, other])?;
        }
        counts.notes += 1;
        counts.changes += usize::from(turned != *note && words != before);
        Ok(())
    }
}

#[cfg(test)]
mod tests {
    use super::*;

    const ON: Operation = Operation::PowerOn { index: 3, id: 0x0501_0101_0101 };
    const DELIVER: Operation = Operation::Deliver { index: 3 };

    const fn foreign(kind: u8, header: u32) -> Operation {
        Operation::Foreign { kind, header, len: 0, bytes: 0 }
    }

    fn counted(list: &[Operation]) -> Counts {
        let mut counts = Counts::default();
        compare(list, &mut counts).expect("both tables agree");
        counts
    }

    #[test]
    fn frames_of_29_bits_are_turned_in_the_second_table() {
        let [rid, other, short] = [foreign(0, 0x0070_0263), foreign(0, 0x0070_0264), foreign(2, 0x263)];
        let counts = |commands, turned, delivered| Counts { commands, turned, delivered, ..Counts::default() };
        assert_eq!(counted(&[ON, rid, Operation::Tick]), counts(3, 1, 0), "it is not delivered");
        assert_eq!(counted(&[rid]), counts(1, 1, 0), "no inbox takes it");
        assert_eq!(counted(&[ON, other, DELIVER]), counts(3, 1, 1), "it has no effect");
        assert_eq!(counted(&[ON, short, DELIVER]), counts(3, 0, 0), "it has no bit 28");
        assert_eq!(counted(&[ON, foreign(0, 0x2000_0000), DELIVER]), counts(3, 0, 0), "it is malformed");
        let testing = Counts { heard: [1, 0, 0], ..counts(3, 1, 1) };
        assert_eq!(counted(&[ON, rid, DELIVER]), testing, "the node starts again");
        assert_eq!(testing.heard().collect::<Vec<_>>(), [(State::Testing, 1), (State::Reserved, 0), (State::Permitted, 0)]);
    }

    /// Both tables with node 3 on.
    fn on() -> Twins {
        let mut twins = Twins::default();
        twins.step(&ON, &mut Counts::default()).expect("both tables agree");
        twins
    }

    #[test]
    fn what_only_one_table_does_is_found() {
        let alone: [fn(&mut Card); 4] = [
            |card| _ = card.send(3, &mut [0; 3]),
            |card| _ = card.fail(3),
            |card| _ = card.foreign(0, 0x1070_0263, 0, 0),
            |card| _ = card.power_on(9, 1),
        ];
        for act in alone {
            let mut twins = on();
            act(&mut twins.turned);
            assert!(twins.look().is_err());
        }
    }

    #[test]
    fn another_answer_is_found_by_itself() {
        let mut twins = on();
        twins.turned.power_on(9, 1);
        let what = twins.step(&Operation::Fail { index: 9 }, &mut Counts::default()).expect_err("it is on in one of them");
        assert!(what.starts_with("card_fail(table, 9); answers: as it is (2, "), "{what}");
    }

    /// A frame that stands in both inboxes, for longer in one.
    #[test]
    fn lateness_is_found_by_itself() {
        let mut twins = on();
        twins.step(&foreign(0, 0x1070_0001), &mut Counts::default()).expect("both tables agree");
        (0..41).for_each(|_| _ = twins.turned.tick());
        let what = twins.look().expect_err("one of them is late");
        assert_eq!(what, "late: as it is false, with bit 28 turned true");
    }

    #[test]
    fn a_frame_that_differs_in_more_than_bit_28_is_found_and_shown_as_it_stands() {
        for (header, other) in [(0x1070_0263, 0x1070_0262), (0x1070_0263, 0x0870_0263)] {
            let mut twins = on();
            twins.card.foreign(0, header, 0, 0);
            twins.turned.foreign(0, other, 0, 0);
            let what = twins.look().expect_err("the frames differ");
            let expected = format!("as it is (0, [0, {header:X}, 0, 0]), with bit 28 turned (0, [0, {other:X}, 0, 0])");
            assert_eq!(what, format!("card_inbox(table, 3, 0, frame): {expected}"));
        }
    }

    /// An AMD for an alias with the Node ID 9.
    const fn amd(kind: u8, header: u32) -> Note {
        Note { kind, header, len: 6, bytes: 9 << 16 }
    }

    #[test]
    fn notes_that_change_the_map_are_counted_with_bit_28_turned() {
        let counted = |note| {
            let mut counts = MapCounts::default();
            compare_maps(&[note], &mut counts).expect("both maps agree");
            counts.changes
        };
        let noted = [amd(0, 0x1070_1007), amd(0, 0x0070_1007), amd(2, 0x007), amd(1, 0x1070_1007), amd(0, 0x1070_2007)];
        assert_eq!(noted.map(counted), [1, 1, 0, 0, 0]);
    }

    #[test]
    fn what_only_one_map_notes_is_found() {
        let mut twins = TwinMaps::default();
        assert_eq!(amd(0, 0x1070_1007).proved(&mut twins.turned), 0);
        assert!(twins.step(&amd(2, 0x007), &mut MapCounts::default()).is_err());
    }
}
