//! The checked examples P1 to P13 of document 01, with bit 28 as A.5 has it, and its sample script.

use reference::header::{self, Header, Kind, Section, RID};
use reference::{first_alias, next_alias, run, Alias, Frame, Node, Refusal, State};

const ID: u64 = 0x0501_0101_0101;
const OWN: Alias = Alias(0x263);

fn control(field: u16, alias: Alias) -> Frame {
    Frame::extended(header::write(parts(1, false, field, alias)).unwrap(), &[])
}

/// The parts of a header with this bit 28.
fn parts(bit: u8, message: bool, field: u16, alias: Alias) -> Header {
    Header { bit_28: bit == 1, message, field, alias }
}

fn due_header(node: &Node) -> Option<u32> {
    node.due().map(|frame| frame.header)
}

/// A node alone that has sent its four CIDs.
fn waiting_node() -> Node {
    let mut node = Node::power_on(ID).unwrap();
    for _ in 0..4 {
        node.leaves().unwrap();
    }
    node
}

fn permitted_node() -> Node {
    let mut node = waiting_node();
    for _ in 0..201 {
        node.tick();
    }
    node.leaves().unwrap();
    node.leaves().unwrap();
    assert_eq!(node.state(), State::Permitted);
    node
}

#[test]
fn p1_rid() {
    assert_eq!(header::write(parts(1, false, RID, OWN)), Ok(0x1070_0263));
}

#[test]
fn p2_cid_6() {
    let mut node = Node::power_on(ID).unwrap();
    assert_eq!(node.leaves().unwrap().header, 0x1705_0263);
    assert_eq!(node.leaves().unwrap().header, 0x1610_1263);
}

#[test]
fn p3_rid_with_bit_28_as_0() {
    let read = header::read(0x0070_0263).unwrap();
    assert_eq!((read, read.kind()), (parts(0, false, RID, OWN), Kind::Rid));
}

#[test]
fn p4_message() {
    assert_eq!(header::write(parts(1, true, 0x15B4, OWN)), Ok(0x195B_4263));
}

#[test]
fn p5_cid_1() {
    let read = header::read(0x1123_4263).unwrap();
    assert_eq!(read, parts(1, false, 0x1234, OWN));
    assert_eq!(read.kind(), Kind::Cid(1, Section(0x234)));
}

#[test]
fn p6_reserved() {
    let read = header::read(0x1070_4263).unwrap();
    assert_eq!((read, read.kind()), (parts(1, false, 0x0704, OWN), Kind::Reserved));
}

#[test]
fn p7_first_and_next() {
    assert_eq!(first_alias(ID), Ok(OWN));
    assert_eq!(next_alias(ID).unwrap().0, Alias(0x4F8));
}

#[test]
fn p8_neighbours() {
    assert_eq!(first_alias(0x0501_017F_FFFF), Ok(Alias(0x951)));
    assert_eq!(first_alias(0x0501_0180_0000), Ok(Alias(0x952)));
}

#[test]
fn p9_edges() {
    assert_eq!(first_alias(0xFFF), Ok(Alias(1)));
    assert_eq!(first_alias(0xFFE), Ok(Alias(0xFFF)));
}

#[test]
fn p10_the_wait() {
    let mut node = waiting_node();
    for _ in 0..200 {
        assert_eq!(node.due(), None);
        node.tick();
    }
    assert_eq!(node.due(), None);
    node.tick();
    assert_eq!(due_header(&node), Some(0x1070_0263));
}

#[test]
fn p11_permitted_answers_a_cid() {
    let mut node = permitted_node();
    node.receives(&control(0x7050, OWN)).unwrap();
    assert_eq!(node.state(), State::Permitted);
    assert_eq!(due_header(&node), Some(0x1070_0263));
}

#[test]
fn p12_permitted_leaves_for_a_message() {
    let mut node = permitted_node();
    let message = Frame::extended(header::write(parts(1, true, 0x15B4, OWN)).unwrap(), &[]);
    node.receives(&message).unwrap();
    assert_eq!(node.state(), State::Leaving);
    assert_eq!(node.due(), Some(Frame::with_node_id(0x1070_3263, ID)));
}

#[test]
fn p13_testing_restarts_for_a_cid() {
    let mut node = Node::power_on(ID).unwrap();
    node.receives(&control(0x7050, OWN)).unwrap();
    assert_eq!(due_header(&node), Some(0x1705_04F8));
}

#[test]
fn sample_script() {
    let script = [0x01, 0x00, 5, 1, 1, 1, 1, 1, 0x04, 0x00, 0x02, 0x00, 0x02, 0x18];
    let mut out = Vec::new();
    run(&script, &mut out);
    let expected = "1 01 ok\n2 04 refused 6\n3 02 ok 17050263\n4 02 refused 1\nkept\n";
    assert_eq!(String::from_utf8(out).unwrap(), expected);
}

#[test]
fn data_follow_the_header() {
    let mut script = vec![0x01, 0x00, 5, 1, 1, 1, 1, 1];
    script.extend([0x02, 0x00].repeat(4));
    script.extend([0x05].repeat(201));
    script.extend([0x02, 0x00].repeat(2));
    let mut out = Vec::new();
    run(&script, &mut out);
    let out = String::from_utf8(out).unwrap();
    assert!(out.ends_with("206 05 ok\n207 02 ok 10700263\n208 02 ok 10701263 050101010101\nkept\n"));
}

#[test]
fn kinds_by_ranges() {
    for field in 0..=0x7FFF {
        assert_eq!(header::kind_of(true, field), Kind::Message);
        let expected = match field {
            0x0700 => Kind::Rid,
            0x0701 => Kind::Amd,
            0x0702 => Kind::Ame,
            0x0703 => Kind::Amr,
            0x0710..=0x0713 => Kind::ErrorReport((field - 0x0710) as u8),
            _ if field >= 0x1000 => Kind::Cid((field / 0x1000) as u8, Section(field % 0x1000)),
            _ => Kind::Reserved,
        };
        assert_eq!(header::kind_of(false, field), expected);
    }
}

#[test]
fn header_and_alias_refusals() {
    let nine = Err(Refusal::Malformed);
    for bit in [0, 1] {
        assert_eq!(header::write(parts(bit, false, 0x8000, OWN)), nine);
        assert_eq!(header::write(parts(bit, false, 0, Alias(0))), nine);
        assert_eq!(header::write(parts(bit, true, 0, Alias(0x1000))), nine);
    }
    assert_eq!(header::read(0x2000_0000), Err(Refusal::Malformed));
    assert_eq!(header::read(0x1070_0000).unwrap().alias, Alias(0));
    assert_eq!(first_alias(0), Err(Refusal::BadNodeId));
    assert_eq!(first_alias(1 << 48), Err(Refusal::BadNodeId));
    assert_eq!(next_alias(1 << 48), Err(Refusal::Malformed));
    assert!(first_alias((1 << 48) - 1).is_ok() && next_alias(0).is_ok());
}

#[test]
fn first_aliases_of_neighbours_differ() {
    for base in [1, 0xFF0, 0x0501_0101_0101, 0x0501_017F_FF80, (1 << 48) - 600] {
        for near in 1..=255 {
            assert_ne!(first_alias(base), first_alias(base + near));
        }
    }
}

/// Where the four parts cancel out, the next alias is 1.
#[test]
fn next_alias_is_never_zero() {
    let parts = |x: u64| (x ^ x >> 12 ^ x >> 24 ^ x >> 36) & 0xFFF;
    let state = (ID..).find(|&x| parts(next_alias(x).unwrap().1) == 0).unwrap();
    assert_eq!(next_alias(state).unwrap().0, Alias(1));
}
