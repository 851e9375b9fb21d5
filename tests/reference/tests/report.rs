//! Request A.2 of document 02: the duplicate report has eight data bytes, and all other frames are
//! as before.

mod common;

use common::{in_state, refusal, sent, ID, REPORT};
use reference::generate::draft::Draft;
use reference::{run, Frame, State};

#[test]
fn the_report_leaves_with_eight_bytes_and_makes_silent() {
    let mut draft = in_state(State::Permitted);
    draft.foreign_amd_of(0).deliver(0);
    assert_eq!(draft.segment.view(0).due, Some(REPORT));
    assert_eq!(sent(draft.send(0)), REPORT);
    assert_eq!((draft.state(0), draft.has_due(0)), (State::Silent, false));
}

#[test]
fn it_joins_the_other_inboxes_with_eight_bytes() {
    let mut draft = Draft::permitted(&[ID, ID + 1]);
    let before = *draft.segment.node(1);
    draft.foreign_amd_of(0).drain_all().send(0);
    assert_eq!(draft.segment.view(1).inbox, [REPORT]);
    draft.deliver(1);
    assert_eq!(*draft.segment.node(1), before);
}

#[test]
fn its_line_has_the_eight_bytes_unbroken() {
    let mut draft = in_state(State::Permitted);
    draft.foreign_amd_of(0).deliver(0).send(0);
    let mut out = Vec::new();
    run(&draft.bytes, &mut out);
    let text = String::from_utf8(out).unwrap();
    assert!(text.ends_with(" 02 ok 195B4263 0101000000000201\nkept\n"), "{text}");
}

/// Report by field and data or not, what the host orders is a message: it leaves as it was ordered,
/// and its node stays Permitted.
#[test]
fn a_message_of_the_host_keeps_its_bytes() {
    for bytes in [&[1, 1, 0, 0, 0, 2, 1][..], &REPORT.data] {
        let mut draft = in_state(State::Permitted);
        draft.message(0, 0x15B4, bytes);
        assert_eq!(sent(draft.send(0)), Frame::extended(0x195B_4263, bytes));
        assert_eq!((draft.state(0), refusal(draft.send(0))), (State::Permitted, 4));
    }
}

/// All that a node sends but the report, each frame with its data.
#[test]
fn other_frames_are_as_before() {
    let mut draft = in_state(State::Testing);
    let mut frames = Vec::new();
    let mut send = |draft: &mut Draft| frames.push(sent(draft.send(0)));
    for _ in 0..4 {
        send(&mut draft);
    }
    draft.ticks(201);
    send(&mut draft);
    send(&mut draft);
    draft.message(0, 0x15B4, &[1, 2, 3, 4, 5, 6, 7, 8]).link(0, 1).foreign_ame().foreign_cid(0);
    draft.drain(0);
    for _ in 0..4 {
        send(&mut draft);
    }
    draft.enquiry(0, 6, ID);
    send(&mut draft);
    draft.release(0);
    send(&mut draft);
    let bare = |header| Frame::extended(header, &[]);
    let expected = [
        bare(0x1705_0263),
        bare(0x1610_1263),
        bare(0x1501_0263),
        bare(0x1410_1263),
        bare(0x1070_0263),
        Frame::with_node_id(0x1070_1263, ID),
        bare(0x1070_0263),
        Frame::with_node_id(0x1070_1263, ID),
        Frame::with_node_id(0x1071_0263, ID),
        Frame::extended(0x195B_4263, &[1, 2, 3, 4, 5, 6, 7, 8]),
        Frame::with_node_id(0x1070_2263, ID),
        Frame::with_node_id(0x1070_3263, ID),
    ];
    assert_eq!(frames, expected);
}
