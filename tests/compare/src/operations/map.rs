//! The map: frames noted by chance, and after each the look-ups of every entry, either way, and of others.

use super::{answered, put_out, same, Answered};
use crate::card::ProvedMap;
use reference::generate::changes::Change;
use reference::generate::prng::Prng;
use reference::generate::twin::twin;
use reference::header::{self, Header, AMD, AMR};
use reference::{Alias, AliasMap, Frame, Refusal};
use std::collections::{BTreeMap, BTreeSet};
use std::fmt;

/// A frame to be noted.
#[derive(Clone, Copy, Debug, PartialEq, Eq)]
pub struct Note {
    pub kind: u8,
    pub header: u32,
    pub len: u8,
    pub bytes: u64,
}

/// The call in C.
impl fmt::Display for Note {
    fn fmt(&self, out: &mut fmt::Formatter) -> fmt::Result {
        write!(out, "map_note(map, {}, 0x{:08X}, {}, 0x{:016X});", self.kind, self.header, self.len, self.bytes)
    }
}

impl Note {
    fn frame(&self) -> Frame {
        Frame { kind: self.kind, header: self.header, len: self.len, data: self.bytes.to_be_bytes() }
    }

    /// The same with bit 28 turned.
    pub fn twin(&self) -> Note {
        Note { header: twin(&self.frame()).header, ..*self }
    }

    /// By the proved library: 0, or the refusal's number.
    pub fn proved(&self, map: &mut ProvedMap) -> u64 {
        map.note(self.kind, self.header, self.len, self.bytes)
    }
}

/// Aliases and Node IDs are few, so that entries meet; more than the map has room for, so that it gets full.
const FEW: usize = 90;

/// What was answered: how often accepted, and how often by each refusal.
#[derive(Default)]
pub struct Counts {
    pub notes: usize,
    pub malformed: usize,
    pub full: usize,
    /// How often each change was made, by frames with bit 28 as 0 and as 1.
    changes: BTreeMap<(Change, bool), usize>,
    pub by_alias: LookUps,
    pub by_id: LookUps,
}

impl Counts {
    /// Adds a note on which both sides agree, which made the second map of the first.
    fn add(&mut self, note: &Note, answer: Result<(), Refusal>, before: &AliasMap, after: &AliasMap) {
        self.notes += 1;
        self.malformed += usize::from(answer == Err(Refusal::Malformed));
        self.full += usize::from(answer == Err(Refusal::MapFull));
        if let (Some(change), Ok(parts)) = (Change::of(before.entries(), after.entries()), header::read(note.header)) {
            *self.changes.entry((change, parts.bit_28)).or_default() += 1;
        }
    }

    /// How often frames with this bit 28 made each change.
    pub fn changed(&self, bit_28: bool) -> [usize; 3] {
        Change::ALL.map(|change| *self.changes.get(&(change, bit_28)).unwrap_or(&0))
    }
}

/// Look-ups one way: how many, how many of them found, and at which places, the oldest at 1.
#[derive(Default)]
pub struct LookUps {
    pub done: usize,
    pub found: usize,
    pub places: BTreeSet<u64>,
}

impl LookUps {
    /// Adds a look-up on which both sides agree.
    fn add(&mut self, (code, [_, compared]): Answered<2>) {
        self.done += 1;
        if code == 0 {
            self.found += 1;
            self.places.insert(compared);
        }
    }

    /// The places of the map that were never hit.
    pub fn never_hit(&self) -> Vec<u64> {
        (1..=AliasMap::ROOM as u64).filter(|place| !self.places.contains(place)).collect()
    }
}

/// Notes by chance, with bit 28 as 0 and as 1: AMDs of an alias with its own Node ID or with another's, AMRs, and frames of any sort.
pub fn notes(rng: &mut Prng, count: usize) -> Vec<Note> {
    let (others, amrs) = (rng.pick(&[0, 3, 30, 100]), rng.pick(&[0, 2, 20, 45]));
    (0..count).map(|_| note(rng, others, amrs)).collect()
}

fn note(rng: &mut Prng, others: usize, amrs: usize) -> Note {
    let alias = rng.below(FEW);
    let id = if rng.percent(others) { rng.below(FEW) } else { alias } as u64;
    let field = if rng.percent(amrs) { AMR } else { AMD };
    let parts = Header { bit_28: rng.percent(70), message: false, field, alias: Alias(alias as u16) };
    let any = rng.number();
    let mut note = Note { kind: 0, header: header::join(parts), len: 6, bytes: id << 16 | any & 0xFFFF };
    match rng.below(40) {
        0 => note.kind = rng.pick(&[1, 2, 3, 255]),
        1 => note.len = rng.pick(&[0, 5, 7, 8, 9, 255]),
        2 => note.header = any as u32,
        3 => note.header ^= 1 << rng.below(32),
        4 => note.bytes = any,
        _ => {}
    }
    note
}

/// Compares a list of notes from an empty map, or says what differs.
pub fn compare(notes: &[Note], counts: &mut Counts) -> Result<(), String> {
    let (mut proved, mut plain) = (ProvedMap::new(), AliasMap::new());
    let mut words = proved.words().to_vec();
    for note in notes {
        let before = plain.clone();
        let code = note.proved(&mut proved);
        let answer = plain.note(&note.frame());
        same(|| format!("{note} answers"), code, answered(answer, |()| []).0)?;
        if code != 0 && proved.words() != words {
            return Err(format!("{note} is refused and changes the map"));
        }
        words.copy_from_slice(proved.words());
        counts.add(note, answer, &before, &plain);
        look_ups(&proved, &plain, note, counts)?;
        if proved.words() != words || !proved.guards_hold() {
            return Err(format!("after {note}: a look-up changes the map, or a word beside it has changed"));
        }
    }
    Ok(())
}

/// What a look-up answered, as it is told: what was found in hex, and the count as it is counted.
#[derive(PartialEq)]
struct Told(Answered<2>);

impl fmt::Debug for Told {
    fn fmt(&self, out: &mut fmt::Formatter) -> fmt::Result {
        match self.0 {
            (0, [value, compared]) => write!(out, "found 0x{value:X}, {compared} compared"),
            (code, words) => write!(out, "refused by {code}, with {words:X?} in the buffer"),
        }
    }
}

/// Every alias and Node ID of an entry, those that are few, what the note had, and operands that no entry can have.
fn look_ups(proved: &ProvedMap, plain: &AliasMap, note: &Note, counts: &mut Counts) -> Result<(), String> {
    let others = [note.header as u16 & 0xFFF, note.header as u16, 0xFFF, 0x1000, u16::MAX];
    let aliases = plain.entries().iter().map(|entry| entry.alias.0);
    for alias in aliases.chain(0..FEW as u16).chain(others) {
        let found = put_out(|found| proved.id_of(alias, found));
        let expected = answered(plain.node_id_of(Alias(alias)), |hit| [hit.value, hit.compared as u64]);
        same(|| format!("after {note} map_id_of(map, 0x{alias:03X}, found)"), Told(found), Told(expected))?;
        counts.by_alias.add(found);
    }
    let others = [note.bytes >> 16, note.bytes, 1 << 48, u64::MAX];
    let ids = plain.entries().iter().map(|entry| entry.id);
    for id in ids.chain(0..FEW as u64).chain(others) {
        let found = put_out(|found| proved.alias_of(id, found));
        let expected = answered(plain.alias_of(id), |hit| [hit.value.0.into(), hit.compared as u64]);
        same(|| format!("after {note} map_alias_of(map, 0x{id:X}, found)"), Told(found), Told(expected))?;
        counts.by_id.add(found);
    }
    Ok(())
}

#[cfg(test)]
mod tests {
    use super::*;
    use crate::card::MARK;

    const NOTE: Note = Note { kind: 0, header: 0x1070_1007, len: 6, bytes: 9 << 16 };

    #[test]
    fn what_only_one_side_notes_is_found() {
        let (mut proved, mut plain) = (ProvedMap::new(), AliasMap::new());
        assert_eq!(look_ups(&proved, &plain, &NOTE, &mut Counts::default()), Ok(()));
        assert_eq!(NOTE.proved(&mut proved), 0);
        assert!(look_ups(&proved, &plain, &NOTE, &mut Counts::default()).is_err());
        plain.note(&Frame::with_node_id(NOTE.header, 9)).expect("room");
        assert_eq!(look_ups(&proved, &plain, &NOTE, &mut Counts::default()), Ok(()));
    }

    /// The same entries in another order: they are found on both sides, after other numbers of entries.
    #[test]
    fn what_only_differs_by_its_place_is_found() {
        let other = Note { header: NOTE.header + 1, bytes: 10 << 16, ..NOTE };
        let (mut proved, mut plain) = (ProvedMap::new(), AliasMap::new());
        for (first, second) in [(NOTE, other), (other, NOTE)] {
            assert_eq!(first.proved(&mut proved), 0);
            plain.note(&Frame::with_node_id(second.header, second.bytes >> 16)).expect("room");
        }
        let what = look_ups(&proved, &plain, &NOTE, &mut Counts::default()).expect_err("the counts differ");
        assert!(
            what.ends_with("map_id_of(map, 0x008, found): proved found 0xA, 2 compared, plain Rust found 0xA, 1 compared"),
            "{what}"
        );
    }

    #[test]
    fn notes_fill_the_map_and_look_ups_hit_everywhere() {
        let mut counts = Counts::default();
        for seed in 0..20 {
            compare(&notes(&mut Prng::new(seed), 400), &mut counts).expect("both sides agree");
        }
        assert!(counts.full > 20 && counts.malformed > 20);
        assert!([false, true].map(|bit_28| counts.changed(bit_28)).concat().iter().all(|&count| count > 20));
        for look_ups in [&counts.by_alias, &counts.by_id] {
            assert_eq!(look_ups.never_hit(), []);
            assert!(look_ups.done > look_ups.found && look_ups.found > 64);
        }
    }

    #[test]
    fn a_place_that_was_never_hit_is_missed() {
        let mut look_ups = LookUps::default();
        (1..63).for_each(|place| look_ups.add((0, [7, place])));
        look_ups.add((13, [MARK, MARK]));
        assert_eq!(look_ups.never_hit(), [63, 64]);
        [63, 64].into_iter().for_each(|place| look_ups.add((0, [7, place])));
        assert_eq!(look_ups.never_hit(), []);
        assert_eq!((look_ups.done, look_ups.found), (65, 64));
    }
}
