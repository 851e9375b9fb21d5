//! Request A.5 of document 02: a reading tells bit 28 as it came, a header is written with it, and
//! nodes and map ignore it.

mod common;

use common::seed;
use reference::generate::cases::Case;
use reference::generate::changes::Change;
use reference::generate::coverage::{index_of, Row};
use reference::generate::map_corpus::{self, MapOp};
use reference::generate::prng::Prng;
use reference::generate::twin::{twin, twin_command};
use reference::generate::{corpus, link_lists};
use reference::header::{self, Header, FIELD_MAX, HEADER_MAX};
use reference::{whole_commands, Alias, AliasMap, Command, Frame, Given, Node, Refusal, Segment};
use std::collections::BTreeSet;
use std::sync::LazyLock;

#[test]
fn a_reading_tells_bit_28_as_it_came() {
    for header in (0..=HEADER_MAX).step_by(0x0101) {
        assert_eq!(header::read(header).unwrap().bit_28, header >= 1 << 28, "{header:08X}");
    }
}

#[test]
fn reading_after_writing_returns_the_parts() {
    for (bit_28, message) in [(false, false), (false, true), (true, false), (true, true)] {
        for alias in [1, 0x263, 0x800, 0xFFF].map(Alias) {
            for field in 0..=FIELD_MAX {
                let parts = Header { bit_28, message, field, alias };
                let written = header::write(parts).unwrap();
                assert_eq!(header::read(written), Ok(parts));
            }
        }
    }
}

/// Every field with both types and both bits: with its own bit 28 it is the same header, and with 1
/// the one with that bit set, as document 01 has it.
#[test]
fn writing_back_a_reading_returns_the_header_unless_its_alias_is_0() {
    for above in 0..=HEADER_MAX >> 12 {
        for alias in [0, 1, 0x263, 0x800, 0xFFF] {
            let header = above << 12 | alias;
            let read = header::read(header).unwrap();
            let or_9 = |header| if alias == 0 { Err(Refusal::Malformed) } else { Ok(header) };
            assert_eq!(header::write(read), or_9(header), "{header:08X}");
            let set = Header { bit_28: true, ..read };
            assert_eq!(header::write(set), or_9(header | 1 << 28), "{header:08X}");
        }
    }
}

#[test]
fn only_an_eleven_bit_frame_has_no_twin_but_itself() {
    let frame = |kind| Frame { header: 0x0000_0263, kind, ..Frame::EMPTY };
    let turned = |kind| twin(&frame(kind)).header;
    assert_eq!([0, 1, 2].map(turned), [0x1000_0263, 0x1000_0263, 0x0000_0263]);
    assert_eq!([0, 1, 2].map(|kind| twin(&twin(&frame(kind)))), [0, 1, 2].map(frame));
}

/// The stored scripts, and the lists with link orders and choices: together they meet every row.
static LISTS: LazyLock<Vec<Vec<Command>>> = LazyLock::new(|| {
    let scripts = corpus::scripts(corpus::SEED);
    let mut lists: Vec<_> = scripts.iter().map(|script| whole_commands(script).collect()).collect();
    lists.extend(link_lists::lists(corpus::SEED));
    lists
});

/// The foreign frame of a command, some of them malformed.
fn foreign(command: &Command) -> Option<Frame> {
    match command {
        Command::Foreign { frame } => Some(*frame),
        _ => None,
    }
}

/// What a frame makes of a node, and how it is answered.
fn heard(mut node: Node, frame: &Frame) -> (Result<(), Refusal>, Node) {
    (node.receives(frame), node)
}

#[test]
fn a_frame_and_its_twin_do_the_same_to_a_node_in_every_state() {
    let mut rng = Prng::new(seed());
    let (mut rows, mut changed) = (BTreeSet::new(), 0);
    for list in LISTS.iter() {
        let mut segment = Segment::new();
        for command in list {
            let place = index_of(command).filter(|&place| place < Segment::PLACES).unwrap_or(0);
            let node = *segment.node(place);
            rows.insert(Row::of(&node));
            let frames = Case::ALL.map(|case| case.frame(&node, &mut rng));
            for frame in frames.into_iter().chain(foreign(command)) {
                let after = heard(node, &frame);
                assert_eq!(heard(node, &twin(&frame)), after, "{frame:X?}");
                changed += usize::from(after.1 != node);
            }
            let _ = segment.carry_out(command);
        }
    }
    assert_eq!(rows.into_iter().collect::<Vec<_>>(), Row::all());
    assert!(changed > 0);
}

/// In how many frames two inboxes differ, which they may by bit 28 alone.
fn bits_apart(segment: &Segment, other: &Segment, place: usize) -> usize {
    let mut apart = 0;
    assert_eq!(other.inbox_len(place), segment.inbox_len(place));
    for ((one, age), (two, same_age)) in segment.inbox(place).zip(other.inbox(place)) {
        assert!(one == two || twin(one) == *two, "{one:X?} {two:X?}");
        assert_eq!(same_age, age);
        apart += usize::from(one != two);
    }
    apart
}

#[test]
fn a_list_and_its_twin_come_to_the_same() {
    let mut apart = 0;
    for list in LISTS.iter() {
        let (mut segment, mut other) = (Segment::new(), Segment::new());
        for command in list {
            let answer = segment.carry_out(command);
            assert_eq!(other.carry_out(&twin_command(command)), answer);
            for place in 0..Segment::PLACES {
                assert_eq!(other.node(place), segment.node(place));
                apart += bits_apart(&segment, &other, place);
            }
            assert_eq!(other.is_late(), segment.is_late());
        }
    }
    assert!(apart > 0);
}

#[test]
fn nodes_send_bit_28_as_1() {
    let mut sent = 0;
    for list in LISTS.iter() {
        let mut segment = Segment::new();
        for command in list {
            if let Ok(Given::Sent(frame)) = segment.carry_out(command) {
                assert!(header::read(frame.header).unwrap().bit_28);
                sent += 1;
            }
        }
    }
    assert!(sent > 0);
}

#[test]
fn a_frame_and_its_twin_do_the_same_to_a_map() {
    let (mut map, mut changes) = (AliasMap::new(), BTreeSet::new());
    for op in map_corpus::ops(corpus::SEED) {
        let before = map.clone();
        op.answer(&mut map);
        if let MapOp::Note(frame) = op {
            let (mut one, mut two) = (before.clone(), before.clone());
            assert_eq!(two.note(&twin(&frame)), one.note(&frame));
            assert_eq!(two.entries(), one.entries());
            changes.extend(Change::of(before.entries(), two.entries()));
        }
    }
    assert_eq!(changes.into_iter().collect::<Vec<_>>(), Change::ALL);
}
