//! One node alone: its refusals, their order, and that a refusal changes nothing.

mod common;

use common::{ID, REPORT};
use reference::{Frame, Node, Refusal, State};

fn in_state(state: State) -> Node {
    let mut node = Node::power_on(ID).unwrap();
    let goal = if state == State::Reserved { State::Reserved } else { State::Permitted };
    while state != State::Testing && node.state() != goal {
        node.tick();
        let _ = node.leaves();
    }
    match state {
        State::Off => return Node::OFF,
        State::Leaving => node.release().unwrap(),
        State::Resting => {
            node.release().unwrap();
            node.leaves().unwrap();
        }
        State::Silent => {
            node.receives(&Frame::with_node_id(0x1070_1001, ID)).unwrap();
            node.leaves().unwrap();
        }
        _ => {}
    }
    assert_eq!(node.state(), state);
    node
}

/// Refused by this number, and unchanged.
fn refused<R>(node: Node, number: u8, event: impl FnOnce(&mut Node) -> Result<R, Refusal>) {
    let mut after = node;
    assert_eq!(event(&mut after).err().map(Refusal::number), Some(number), "{node:?}");
    assert_eq!(after, node);
}

fn accepted<R>(mut node: Node, event: impl FnOnce(&mut Node) -> Result<R, Refusal>) {
    assert!(event(&mut node).is_ok());
}

#[test]
fn power_on() {
    assert_eq!(Node::power_on(0), Err(Refusal::BadNodeId));
    assert_eq!(Node::power_on(1 << 48), Err(Refusal::BadNodeId));
    assert!(Node::power_on((1 << 48) - 1).is_ok());
}

#[test]
fn off_refuses_by_2_before_all_else() {
    refused(Node::OFF, 2, Node::leaves);
    refused(Node::OFF, 2, Node::fails);
    refused(Node::OFF, 2, |node| node.receives(&Frame { kind: 9, ..Frame::EMPTY }));
    refused(Node::OFF, 2, |node| node.message(0x8000, 9, [0; 8]));
    refused(Node::OFF, 2, |node| node.enquiry(1, [0; 6]));
    refused(Node::OFF, 2, Node::release);
    refused(Node::OFF, 2, |node| node.link(0));
    refused(Node::OFF, 2, |node| node.link(3));
    let mut node = Node::OFF;
    node.tick();
    assert_eq!(node, Node::OFF);
}

#[test]
fn malformed_frames_and_orders_are_9_in_every_other_state() {
    let malformed = [
        Frame { kind: 3, ..Frame::EMPTY },
        Frame { len: 9, ..Frame::EMPTY },
        Frame { kind: 1, len: 1, ..Frame::EMPTY },
        Frame { header: 1 << 29, ..Frame::EMPTY },
        Frame { header: 1 << 29, kind: 1, ..Frame::EMPTY },
        Frame { header: 0x800, kind: 2, ..Frame::EMPTY },
    ];
    for state in &State::ON {
        let node = in_state(*state);
        for frame in malformed {
            refused(node, 9, |node| node.receives(&frame));
        }
        refused(node, 9, |node| node.message(0x8000, 0, [0; 8]));
        refused(node, 9, |node| node.message(0, 9, [0; 8]));
        for len in [1, 2, 3, 4, 5, 7, 8, 255] {
            refused(node, 9, |node| node.enquiry(len, [1; 6]));
        }
    }
}

#[test]
fn link_states_above_2_are_14_in_every_other_state() {
    for state in State::ON {
        let mut node = in_state(state);
        for before in 0..=2 {
            node.link(before).unwrap();
            (3..=255).for_each(|above| refused(node, 14, |node| node.link(above)));
        }
    }
}

#[test]
fn host_orders_outside_permitted_are_7() {
    for state in State::ON.into_iter().filter(|&s| s != State::Permitted) {
        let node = in_state(state);
        refused(node, 7, |node| node.message(0, 0, [0; 8]));
        refused(node, 7, |node| node.enquiry(6, [1; 6]));
        refused(node, 7, Node::release);
    }
}

#[test]
fn one_host_frame_waits() {
    let mut node = in_state(State::Permitted);
    accepted(node, |node| node.enquiry(6, [0; 6]));
    accepted(node, Node::release);
    node.message(0x7FFF, 3, [1, 2, 3, 4, 5, 6, 7, 8]).unwrap();
    assert_eq!(node.due(), Some(Frame::extended(0x1FFF_F263, &[1, 2, 3])));
    refused(node, 8, |node| node.message(0, 0, [0; 8]));
    refused(node, 8, |node| node.enquiry(0, [0; 6]));
    refused(node, 9, |node| node.message(0, 9, [0; 8]));
    refused(node, 9, |node| node.enquiry(5, [0; 6]));
}

#[test]
fn nothing_due_is_4() {
    for state in [State::Permitted, State::Resting, State::Silent] {
        refused(in_state(state), 4, Node::leaves);
        refused(in_state(state), 4, Node::fails);
    }
    let mut node = in_state(State::Testing);
    for _ in 0..4 {
        accepted(node, Node::fails);
        node.leaves().unwrap();
    }
    for _ in 0..201 {
        refused(node, 4, Node::leaves);
        refused(node, 4, Node::fails);
        node.tick();
    }
    accepted(node, Node::fails);
    accepted(node, Node::leaves);
}

/// A failed send restarts a Testing node and changes no other.
#[test]
fn failed_sends() {
    let mut node = in_state(State::Testing);
    node.fails().unwrap();
    assert_eq!(node.due().unwrap().header, 0x1705_04F8);
    for state in [State::Reserved, State::Leaving] {
        let before = in_state(state);
        let mut after = before;
        after.fails().unwrap();
        assert_eq!(after, before);
    }
}

/// Reply RID, AMD, duplicate report, error report, host frame: in this order, and the duplicate
/// report ends all.
#[test]
fn waiting_frames_leave_in_order() {
    let mut node = in_state(State::Permitted);
    node.enquiry(6, [0; 6]).unwrap();
    node.link(1).unwrap();
    node.receives(&Frame::with_node_id(0x1070_1001, ID)).unwrap();
    node.receives(&Frame::extended(0x0070_2000, &[])).unwrap();
    node.receives(&Frame::extended(0x1123_4263, &[1])).unwrap();
    assert_eq!(node.leaves(), Ok(Frame::extended(0x1070_0263, &[])));
    assert_eq!(node.leaves(), Ok(Frame::with_node_id(0x1070_1263, ID)));
    let mut without_report = in_state(State::Permitted);
    without_report.enquiry(6, [0; 6]).unwrap();
    without_report.link(1).unwrap();
    assert_eq!(without_report.leaves(), Ok(Frame::with_node_id(0x1071_0263, ID)));
    assert_eq!(without_report.leaves(), Ok(Frame::extended(0x1070_2263, &[0; 6])));
    assert_eq!(node.leaves(), Ok(REPORT));
    assert_eq!(node.state(), State::Silent);
    assert_eq!((node.due(), node.used_alias()), (None, None));
}
