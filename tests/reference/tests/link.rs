//! Request A.1 of document 02: the link order, and the error reports that it makes wait.

mod common;

use common::{in_state, refusal, sent, ID, REPORT};
use reference::generate::draft::Draft;
use reference::{run, Command, Frame, Given, Node, State};

/// A change of the link, and the header of the report that 002, 6.2.7, names for it, alias 263.
const CHANGES: [(u8, u8, Option<u32>); 9] = [
    (0, 0, None),
    (0, 1, Some(0x1071_0263)),
    (0, 2, None),
    (1, 0, Some(0x1071_2263)),
    (1, 1, None),
    (1, 2, None),
    (2, 0, Some(0x1071_3263)),
    (2, 1, Some(0x1071_1263)),
    (2, 2, None),
];

/// All but Permitted in which a node is not Off.
const OTHERS: [State; 5] =
    [State::Testing, State::Reserved, State::Leaving, State::Resting, State::Silent];

/// A Permitted node with nothing due, told this link state while it was Reserved.
fn permitted_with(link: u8) -> Draft {
    let mut draft = in_state(State::Reserved);
    draft.link(0, link).send(0);
    assert_eq!((draft.state(0), draft.has_due(0)), (State::Permitted, false));
    draft
}

fn due(draft: &Draft) -> Option<Frame> {
    draft.segment.view(0).due
}

fn due_header(draft: &Draft) -> Option<u32> {
    due(draft).map(|frame| frame.header)
}

fn link_of(draft: &Draft) -> u8 {
    draft.segment.node(0).link_state().number()
}

/// Brings the node to Permitted from wherever it is.
fn up_again(draft: &mut Draft) {
    draft.bring_all(&[0], State::Permitted);
    assert_eq!(draft.state(0), State::Permitted);
}

/// A frame with the node's own alias that is no CID.
fn collide(draft: &mut Draft) {
    draft.foreign_message(0).deliver(0);
}

#[test]
fn each_change_in_permitted_makes_its_report_wait() {
    for (was, is, header) in CHANGES {
        let mut draft = permitted_with(was);
        assert_eq!(refusal(draft.link(0, is)), 0);
        let data = [5, 1, 1, 1, 1, 1, 0, 0];
        let report = header.map(|header| Frame { header, kind: 0, len: 6, data });
        assert_eq!((due(&draft), link_of(&draft)), (report, is), "{was} to {is}");
        draft.send(0);
        assert_eq!(draft.answer.ok(), report.map(Given::Sent));
        assert_eq!((draft.state(0), draft.has_due(0)), (State::Permitted, false));
        assert_eq!(refusal(draft.send(0)), 4);
        assert_eq!(link_of(&draft), is);
    }
}

/// When the report has left, the node goes on as one that had nothing to report.
#[test]
fn a_report_that_has_left_leaves_no_trace() {
    for (was, is, _) in CHANGES.into_iter().filter(|(_, _, header)| header.is_some()) {
        let mut draft = permitted_with(was);
        draft.link(0, is).send(0);
        assert_eq!(draft.segment.node(0), permitted_with(is).segment.node(0));
    }
}

#[test]
fn a_report_joins_the_other_inboxes_as_any_frame_does() {
    let mut draft = Draft::permitted(&[ID, ID + 1]);
    let before = *draft.segment.node(1);
    draft.link(0, 1).send(0);
    assert_eq!(draft.segment.view(1).inbox, [Frame::with_node_id(0x1071_0263, ID)]);
    assert_eq!(draft.segment.inbox_len(0), 0);
    draft.deliver(1);
    assert_eq!(*draft.segment.node(1), before);
}

#[test]
fn five_frames_wait_and_leave_in_order() {
    let mut draft = in_state(State::Permitted);
    draft.message(0, 0x0123, &[7]).link(0, 1);
    assert_eq!(refusal(draft.message(0, 0x0123, &[7])), 8);
    draft.foreign_amd_of(0).foreign_ame().foreign_cid(0).drain(0);
    assert_eq!(sent(draft.send(0)), Frame::extended(0x1070_0263, &[]));
    assert_eq!(sent(draft.send(0)), Frame::with_node_id(0x1070_1263, ID));
    assert_eq!(sent(draft.send(0)), REPORT);
    assert_eq!((draft.state(0), draft.has_due(0)), (State::Silent, false));
}

/// Without a duplicate, which would end all, in whatever order the host gives its two orders.
#[test]
fn the_report_leaves_before_the_host_frame() {
    for message_first in [true, false] {
        let mut draft = in_state(State::Permitted);
        if message_first {
            draft.message(0, 0x0123, &[7]).link(0, 1);
        } else {
            draft.link(0, 1).message(0, 0x0123, &[7]);
        }
        assert_eq!(refusal(&draft), 0);
        draft.foreign_ame().foreign_cid(0).drain(0);
        let headers = [0x1070_0263, 0x1070_1263, 0x1071_0263, 0x1812_3263];
        for header in headers {
            assert_eq!(sent(draft.send(0)).header, header);
        }
        assert_eq!((draft.state(0), refusal(draft.send(0))), (State::Permitted, 4));
    }
}

#[test]
fn a_later_report_replaces_a_waiting_one() {
    let told: [(&[u8], u32); 8] = [
        (&[1, 0], 0x1071_2263),
        (&[1, 2, 1], 0x1071_1263),
        (&[1, 2, 0], 0x1071_3263),
        (&[1, 0, 1], 0x1071_0263),
        (&[1, 0, 2, 1], 0x1071_1263),
        (&[1, 0, 2, 0], 0x1071_3263),
        (&[1, 2, 1, 0], 0x1071_2263),
        (&[1, 2, 0, 1], 0x1071_0263),
    ];
    for (states, header) in told {
        let mut draft = in_state(State::Permitted);
        for &state in states {
            draft.link(0, state);
        }
        assert_eq!(sent(draft.send(0)), Frame::with_node_id(header, ID), "{states:?}");
        assert_eq!(refusal(draft.send(0)), 4);
    }
}

#[test]
fn bus_off_and_an_unchanged_state_leave_a_waiting_report_as_it_is() {
    for (was, is, header) in CHANGES.into_iter().filter(|(_, _, header)| header.is_some()) {
        let mut draft = permitted_with(was);
        draft.link(0, is);
        for state in [is, is, 2, 2] {
            assert_eq!(refusal(draft.link(0, state)), 0);
            assert_eq!((due_header(&draft), link_of(&draft)), (header, state));
        }
        assert_eq!(refusal(draft.send(0).send(0)), 4);
    }
}

#[test]
fn every_other_state_only_remembers() {
    for state in OTHERS {
        for (was, is, _) in CHANGES {
            let mut draft = in_state(state);
            draft.link(0, was);
            let before = *draft.segment.node(0);
            assert_eq!(refusal(draft.link(0, is)), 0);
            let after = draft.segment.node(0);
            assert_eq!((after.state(), after.waiting()), (before.state(), before.waiting()));
            assert_eq!((after.due(), after.alias()), (before.due(), before.alias()));
            assert_eq!(link_of(&draft), is, "{state:?}");
        }
    }
}

/// What was told before Permitted is not reported; the next change is, from there.
#[test]
fn a_remembered_state_is_where_the_next_change_starts() {
    let told: [fn(&mut Draft, u8); 4] = [
        |draft, state| _ = draft.power_on(0, ID).link(0, state),
        |draft, state| _ = draft.power_on(0, ID).send(0).send(0).send(0).send(0).link(0, state),
        |draft, state| {
            draft.power_on(0, ID).bring_all(&[0], State::Reserved);
            draft.link(0, state);
        },
        |draft, state| {
            draft.power_on(0, ID).bring_all(&[0], State::Permitted);
            collide(draft);
            draft.link(0, state);
        },
    ];
    for tell in told {
        for (was, is, header) in CHANGES {
            let mut draft = Draft::new();
            tell(&mut draft, was);
            up_again(&mut draft);
            assert!(!draft.has_due(0));
            assert_eq!(refusal(draft.send(0)), 4);
            draft.link(0, is);
            let alias = u32::from(draft.alias(0).0);
            assert_eq!(due_header(&draft), header.map(|header| header & !0xFFF | alias));
        }
    }
}

/// By a failed send, by a matching frame in Testing and in Reserved, and after a collision.
#[test]
fn a_restart_keeps_the_link_state() {
    let restarts: [(State, fn(&mut Draft)); 4] = [
        (State::Testing, |draft| _ = draft.fail(0)),
        (State::Testing, |draft| _ = draft.foreign_cid(0).deliver(0)),
        (State::Reserved, collide),
        (State::Permitted, |draft| _ = draft.foreign_message(0).deliver(0).send(0)),
    ];
    for (state, restart) in restarts {
        for link in 0..=2 {
            let mut draft = in_state(state);
            draft.link(0, link);
            restart(&mut draft);
            assert_eq!((draft.state(0), draft.alias(0).0), (State::Testing, 0x4F8));
            assert_eq!(link_of(&draft), link);
            up_again(&mut draft);
            assert_eq!((draft.has_due(0), link_of(&draft)), (false, link));
        }
    }
}

#[test]
fn leaving_resting_and_silent_keep_the_link_state() {
    for link in 0..=2 {
        let mut collided = permitted_with(link);
        collide(&mut collided);
        assert_eq!((collided.state(0), link_of(&collided)), (State::Leaving, link));
        let mut released = permitted_with(link);
        released.release(0);
        assert_eq!((released.state(0), link_of(&released)), (State::Leaving, link));
        released.send(0);
        assert_eq!((released.state(0), link_of(&released)), (State::Resting, link));
        let mut silent = permitted_with(link);
        silent.foreign_amd_of(0).deliver(0).send(0);
        assert_eq!((silent.state(0), link_of(&silent)), (State::Silent, link));
    }
}

#[test]
fn power_on_sets_the_link_state_back_in_every_state() {
    for state in State::ON {
        for link in 1..=2 {
            let mut draft = in_state(state);
            draft.link(0, link).power_on(0, ID);
            assert_eq!(*draft.segment.node(0), Node::power_on(ID).unwrap());
            assert_eq!(link_of(&draft), 0);
            up_again(&mut draft);
            assert_eq!(due_header(draft.link(0, 0)), None);
            assert_eq!(due_header(draft.link(0, 1)), Some(0x1071_0263));
        }
    }
    assert_eq!(link_of(&in_state(State::Testing)), 0);
}

/// A refused power-on sets nothing back.
#[test]
fn a_refused_power_on_keeps_link_state_and_report() {
    let mut draft = in_state(State::Permitted);
    assert_eq!(refusal(draft.link(0, 1).power_on(0, 0)), 3);
    assert_eq!((due_header(&draft), link_of(&draft)), (Some(0x1071_0263), 1));
}

#[test]
fn whatever_leaves_nothing_waiting_drops_the_report() {
    let drops: [(State, fn(&mut Draft)); 4] = [
        (State::Leaving, collide),
        (State::Leaving, |draft| _ = draft.release(0)),
        (State::Silent, |draft| _ = draft.foreign_amd_of(0).deliver(0).send(0)),
        (State::Testing, |draft| _ = draft.power_on(0, ID)),
    ];
    for (state, act) in drops {
        let mut draft = in_state(State::Permitted);
        draft.link(0, 1);
        assert_eq!(due_header(&draft), Some(0x1071_0263));
        act(&mut draft);
        assert_eq!((draft.state(0), draft.segment.node(0).waiting().error), (state, None));
        draft.bring_all(&[0], State::Permitted);
        assert!(!draft.has_due(0));
    }
}

#[test]
fn a_failed_send_of_a_report_changes_nothing() {
    for (was, is, header) in CHANGES.into_iter().filter(|(_, _, header)| header.is_some()) {
        let mut draft = permitted_with(was);
        let before = *draft.link(0, is).segment.node(0);
        assert_eq!(refusal(draft.fail(0)), 0);
        assert_eq!(*draft.segment.node(0), before);
        assert_eq!(due_header(&draft), header);
    }
}

#[test]
fn refusals_are_1_2_14_in_this_order() {
    for state in State::ON {
        let mut draft = in_state(state);
        draft.link(0, 1);
        let before = *draft.segment.node(0);
        for (index, link, number) in
            [(24, 0, 1), (24, 3, 1), (255, 255, 1), (1, 0, 2), (1, 3, 2), (0, 3, 14), (0, 255, 14)]
        {
            assert_eq!(refusal(draft.link(index, link)), number, "{state:?}, {index}, {link}");
        }
        assert_eq!((*draft.segment.node(0), *draft.segment.node(1)), (before, Node::OFF));
        for index in [24, 256, usize::MAX] {
            assert_eq!(draft.segment.link(index, 3).map_err(|refusal| refusal.number()), Err(1));
        }
    }
}

#[test]
fn a_report_has_no_age() {
    let mut draft = in_state(State::Permitted);
    draft.link(0, 1).ticks(100);
    assert_eq!((draft.segment.is_late(), due_header(&draft)), (false, Some(0x1071_0263)));
    assert_eq!(refusal(draft.send(0)), 0);
    assert!(!draft.ticks(100).segment.is_late());
}

/// A reply RID and an AMR keep their ages while the link changes.
#[test]
fn a_link_order_changes_no_age() {
    let mut draft = in_state(State::Permitted);
    draft.foreign_cid(0).deliver(0).ticks(20).link(0, 1).ticks(20).link(0, 0);
    assert_eq!((draft.segment.owed_age(0), draft.segment.is_late()), (Some(40), false));
    assert!(draft.ticks(1).segment.is_late());
    let mut draft = in_state(State::Leaving);
    draft.ticks(40).link(0, 1);
    assert_eq!((draft.segment.owed_age(0), draft.segment.is_late()), (Some(40), false));
    assert!(draft.ticks(1).segment.is_late());
}

#[test]
fn no_script_can_carry_the_order() {
    let mut draft = in_state(State::Permitted);
    let script = draft.bytes.clone();
    draft.link(0, 1).link(0, 9);
    assert_eq!(draft.bytes, script);
    assert_eq!(draft.list[draft.list.len() - 2], Command::Link { index: 0, state: 1 });
    for byte in (0x0B..=0xFF).chain([0x00]) {
        let mut out = Vec::new();
        run(&[byte, 0, 1], &mut out);
        let expected = format!("1 {byte:02X} refused 10\nkept\n");
        assert_eq!(String::from_utf8(out).unwrap(), expected);
    }
}
