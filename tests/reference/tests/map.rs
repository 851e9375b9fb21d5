//! The map of foreign aliases.

use reference::generate::corpus;
use reference::generate::map_corpus::{self, MapOp};
use reference::map::Entry;
use reference::{Alias, AliasMap, Found, Frame, Refusal};

fn amd(alias: u32, id: u64) -> Frame {
    Frame::with_node_id(0x1070_1000 | alias, id)
}

fn amr(alias: u32) -> Frame {
    Frame::extended(0x1070_3000 | alias, &[])
}

fn entry(alias: u16, id: u64) -> Entry {
    Entry { alias: Alias(alias), id }
}

fn map_of(count: u32) -> AliasMap {
    let mut map = AliasMap::new();
    for n in 1..=count {
        map.note(&amd(n, 100 + u64::from(n))).unwrap();
    }
    map
}

fn found<T>(value: T, compared: usize) -> Result<Found<T>, Refusal> {
    Ok(Found { value, compared })
}

/// The map has these entries, and looking each up, either way, compares as many as its place says.
fn assert_places(map: &AliasMap, entries: &[Entry]) {
    assert_eq!(map.entries(), entries);
    for (entry, place) in entries.iter().zip(1..) {
        assert_eq!(map.node_id_of(entry.alias), found(entry.id, place));
        assert_eq!(map.alias_of(entry.id), found(entry.alias, place));
    }
}

#[test]
fn looks_up_either_way() {
    let map = map_of(64);
    assert_eq!(map.node_id_of(Alias(64)), found(164, 64));
    assert_eq!(map.alias_of(101), found(Alias(1), 1));
    assert_eq!(map.node_id_of(Alias(65)), Err(Refusal::Absent));
    assert_eq!(map.node_id_of(Alias(0x1001)), Err(Refusal::Absent));
    assert_eq!(map.alias_of(0), Err(Refusal::Absent));
}

#[test]
fn a_hit_in_a_map_of_one_compares_one() {
    let map = map_of(1);
    assert_eq!(map.node_id_of(Alias(1)), found(101, 1));
    assert_eq!(map.alias_of(101), found(Alias(1), 1));
}

#[test]
fn a_hit_at_each_place_of_a_full_map_compares_as_many() {
    let map = map_of(64);
    for n in 1..=64 {
        assert_eq!(map.node_id_of(Alias(n)), found(100 + u64::from(n), n.into()));
        assert_eq!(map.alias_of(100 + u64::from(n)), found(Alias(n), n.into()));
    }
}

#[test]
fn what_is_absent_has_no_count() {
    for map in [0, 1, 10, 64].map(map_of) {
        assert_eq!(map.node_id_of(Alias(0xFFF)), Err(Refusal::Absent));
        assert_eq!(map.alias_of(99), Err(Refusal::Absent));
    }
}

#[test]
fn the_corpus_has_the_count_after_what_was_found() {
    let mut map = map_of(64);
    let mut line = |op: MapOp| op.answer(&mut map);
    assert_eq!(line(MapOp::ByAlias(1)), "ok 000000000065 1");
    assert_eq!(line(MapOp::ByAlias(64)), "ok 0000000000A4 64");
    assert_eq!(line(MapOp::ByNodeId(110)), "ok 00A 10");
    assert_eq!(line(MapOp::ByAlias(65)), "refused 13");
    assert_eq!(line(MapOp::ByNodeId(165)), "refused 13");
    assert_eq!(line(MapOp::Note(amr(9))), "ok");
    assert_eq!(line(MapOp::ByNodeId(110)), "ok 00A 9");
}

/// So a look-up has one hit at most, whichever end it starts from.
#[test]
fn no_alias_and_no_node_id_stands_twice() {
    let mut map = AliasMap::new();
    for op in map_corpus::ops(corpus::SEED) {
        op.answer(&mut map);
        for (place, entry) in map.entries().iter().enumerate() {
            let older = &map.entries()[..place];
            assert!(older.iter().all(|other| other.alias != entry.alias && other.id != entry.id));
        }
    }
}

#[test]
fn entries_after_a_removed_one_come_nearer() {
    let mut map = map_of(6);
    map.note(&amr(1)).unwrap();
    map.note(&amr(4)).unwrap();
    assert_places(&map, &[entry(2, 102), entry(3, 103), entry(5, 105), entry(6, 106)]);
    map.note(&amr(6)).unwrap();
    assert_places(&map, &[entry(2, 102), entry(3, 103), entry(5, 105)]);
    assert_eq!(map.node_id_of(Alias(4)), Err(Refusal::Absent));
    assert_eq!(map.alias_of(104), Err(Refusal::Absent));
}

#[test]
fn entries_after_a_renewed_or_replaced_one_come_nearer() {
    let mut map = map_of(4);
    map.note(&amd(2, 102)).unwrap();
    assert_places(&map, &[entry(1, 101), entry(3, 103), entry(4, 104), entry(2, 102)]);
    map.note(&amd(1, 999)).unwrap();
    assert_places(&map, &[entry(3, 103), entry(4, 104), entry(2, 102), entry(1, 999)]);
    map.note(&amd(3, 102)).unwrap();
    assert_places(&map, &[entry(4, 104), entry(1, 999), entry(3, 102)]);
}

#[test]
fn a_refused_note_changes_no_count() {
    let mut map = map_of(64);
    let before = map.entries().to_vec();
    let refused = [
        (amd(65, 165), Refusal::MapFull),
        (Frame { len: 9, ..amd(1, 101) }, Refusal::Malformed),
        (Frame { kind: 3, ..amr(1) }, Refusal::Malformed),
    ];
    for (frame, refusal) in refused {
        assert_eq!(map.note(&frame), Err(refusal));
        assert_places(&map, &before);
    }
}

#[test]
fn an_amd_replaces_by_alias_and_by_node_id_and_stands_last() {
    let mut map = map_of(4);
    map.note(&amd(1, 999)).unwrap();
    assert_eq!(map.entries(), [entry(2, 102), entry(3, 103), entry(4, 104), entry(1, 999)]);
    map.note(&amd(9, 102)).unwrap();
    assert_eq!(map.entries(), [entry(3, 103), entry(4, 104), entry(1, 999), entry(9, 102)]);
    map.note(&amd(3, 999)).unwrap();
    assert_eq!(map.entries(), [entry(4, 104), entry(9, 102), entry(3, 999)]);
    map.note(&amd(4, 104)).unwrap();
    assert_eq!(map.entries(), [entry(9, 102), entry(3, 999), entry(4, 104)]);
}

#[test]
fn a_full_map_refuses_by_12_and_is_unchanged() {
    let mut map = map_of(64);
    let before = map.entries().to_vec();
    assert_eq!(map.note(&amd(65, 165)), Err(Refusal::MapFull));
    assert_eq!(map.entries(), before);
    assert_eq!(map.note(&amd(65, 101)), Ok(()));
    assert_eq!(map.note(&amd(2, 165)), Ok(()));
    assert_eq!(map.entries().len(), 64);
    assert_eq!(map.note(&amd(3, 104)), Ok(()));
    assert_eq!(map.entries().len(), 63);
    assert_eq!(map.note(&amd(70, 170)), Ok(()));
    assert_eq!(map.note(&amd(71, 171)), Err(Refusal::MapFull));
}

#[test]
fn an_extended_amr_removes_whatever_its_data() {
    let mut map = map_of(4);
    map.note(&amr(2)).unwrap();
    map.note(&Frame::with_node_id(0x0070_3003, 77)).unwrap();
    assert_eq!(map.entries(), [entry(1, 101), entry(4, 104)]);
    map.note(&amr(0)).unwrap();
    map.note(&amr(9)).unwrap();
    map.note(&Frame { kind: 1, ..amr(1) }).unwrap();
    assert_eq!(map.entries(), [entry(1, 101), entry(4, 104)]);
}

#[test]
fn other_frames_change_nothing() {
    let mut map = map_of(2);
    let before = map.entries().to_vec();
    for len in [0, 1, 2, 3, 4, 5, 7, 8] {
        map.note(&Frame { len, ..amd(1, 500) }).unwrap();
    }
    for frame in [amd(0, 500), amd(3, 0), amd(0, 101), amd(1, 0)] {
        map.note(&frame).unwrap();
    }
    for header in [0x1070_0001, 0x1070_2001, 0x1070_4001, 0x1071_0001, 0x1870_1001, 0x1170_1001] {
        map.note(&Frame::with_node_id(header, 500)).unwrap();
    }
    map.note(&Frame { header: 0x701, kind: 2, ..amd(1, 500) }).unwrap();
    map.note(&Frame { kind: 1, len: 0, ..amd(1, 500) }).unwrap();
    assert_eq!(map.entries(), before);
}

#[test]
fn malformed_frames_are_9() {
    let mut map = map_of(64);
    let before = map.entries().to_vec();
    let malformed = [
        Frame { kind: 3, ..amd(65, 1) },
        Frame { len: 9, ..amd(65, 1) },
        Frame { kind: 1, ..amd(65, 1) },
        Frame { header: 0x3070_1001, ..amd(65, 1) },
        Frame { kind: 2, ..amd(65, 1) },
        Frame { kind: 2, header: 0x800, ..amr(1) },
    ];
    for frame in malformed {
        assert_eq!(map.note(&frame), Err(Refusal::Malformed));
    }
    assert_eq!(map.entries(), before);
}
