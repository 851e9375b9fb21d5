//! Points of document 01 that are easily misread, one test or more for each.

mod common;

use common::{in_state, refusal, sent, ID};
use reference::generate::draft::Draft;
use reference::header::{self, Header, AMD, AME};
use reference::script::INPUT_MAX;
use reference::{run, run_program, Alias, Command, Frame, State};

fn output(script: &[u8]) -> String {
    let mut out = Vec::new();
    run(script, &mut out);
    String::from_utf8(out).unwrap()
}

fn waiting_reply(draft: &Draft) -> bool {
    draft.segment.node(0).waiting().reply
}

#[test]
fn silent_and_resting_nodes_keep_their_inboxes() {
    for state in [State::Silent, State::Resting] {
        let mut draft = in_state(state);
        draft.power_on(1, ID + 1);
        for _ in 0..32 {
            draft.foreign_message(0);
            assert_eq!(refusal(&draft), 0);
            draft.drain(1);
        }
        assert_eq!(refusal(draft.foreign_message(0)), 5);
        assert_eq!(refusal(draft.send(1)), 5);
        assert_eq!(refusal(draft.deliver(0)), 0);
        assert_eq!(draft.state(0), state);
        assert_eq!(refusal(draft.send(1)), 0);
        draft.drain(0);
        assert_eq!((draft.state(0), draft.segment.is_late()), (state, false));
        draft.idle_frame().drain(1).ticks(40);
        assert!(!draft.segment.is_late());
        assert!(draft.ticks(1).segment.is_late());
    }
}

#[test]
fn frames_without_effect_age_like_any_other() {
    let frames = [
        Frame { header: 0x123, kind: 2, ..Frame::EMPTY },
        Frame { header: 0x1070_0001, kind: 1, ..Frame::EMPTY },
        Frame { header: 0x1000_0001, ..Frame::EMPTY },
    ];
    for frame in frames {
        let mut draft = in_state(State::Testing);
        assert!(!draft.foreign(frame).ticks(40).segment.is_late());
        assert!(draft.ticks(1).segment.is_late());
    }
}

#[test]
fn a_restart_keeps_the_inbox_and_power_on_empties_it() {
    let mut draft = in_state(State::Testing);
    draft.foreign_cid(0).idle_frame().idle_frame().deliver(0);
    assert_eq!(draft.alias(0), Alias(0x4F8));
    assert_eq!(draft.segment.inbox_len(0), 2);
    draft.power_on(0, ID);
    assert_eq!(draft.segment.inbox_len(0), 0);
    assert_eq!(refusal(draft.deliver(0)), 6);
}

#[test]
fn power_on_starts_the_generator_anew() {
    let mut draft = in_state(State::Testing);
    draft.fail(0).fail(0).fail(0).power_on(0, ID);
    assert_eq!(draft.alias(0), Alias(0x263));
    draft.fail(0);
    assert_eq!(draft.alias(0), Alias(0x4F8));
}

#[test]
fn a_reply_dropped_by_leaving_starts_the_amr_at_0() {
    for released in [true, false] {
        let mut draft = in_state(State::Permitted);
        draft.foreign_cid(0).deliver(0).ticks(40);
        if released {
            draft.release(0);
        } else {
            draft.foreign_message(0).deliver(0);
        }
        assert_eq!((draft.state(0), waiting_reply(&draft)), (State::Leaving, false));
        assert!(!draft.ticks(40).segment.is_late());
        assert!(draft.ticks(1).segment.is_late());
    }
}

#[test]
fn a_later_cid_renews_no_age() {
    for state in [State::Reserved, State::Permitted, State::Leaving] {
        let mut draft = in_state(state);
        draft.foreign_cid(0).deliver(0).ticks(20);
        draft.foreign_cid(0).deliver(0).ticks(20);
        assert!(!draft.segment.is_late());
        assert!(draft.ticks(1).segment.is_late(), "{state:?}");
    }
}

#[test]
fn failed_replies_and_amrs_change_nothing_and_grow_older() {
    for state in [State::Reserved, State::Permitted, State::Leaving] {
        let mut draft = in_state(state);
        draft.foreign_cid(0).deliver(0).ticks(20);
        let before = draft.segment.view(0);
        assert_eq!(refusal(draft.fail(0)), 0);
        assert_eq!(draft.segment.view(0), before);
        assert!(!draft.ticks(20).segment.is_late());
        assert!(draft.ticks(1).segment.is_late());
    }
}

#[test]
fn a_reply_that_leaves_at_40_is_kept_and_its_age_ends() {
    let mut draft = in_state(State::Permitted);
    draft.foreign_cid(0).deliver(0).ticks(40).send(0);
    assert_eq!(refusal(&draft), 0);
    assert!(!draft.ticks(300).segment.is_late());
    draft.foreign_cid(0).deliver(0).ticks(40).release(0).ticks(40).send(0);
    assert!(!draft.ticks(300).segment.is_late());
}

#[test]
fn the_tick_to_41_makes_the_list_late_for_good() {
    let mut draft = in_state(State::Testing);
    draft.idle_frame().ticks(40);
    assert!(output(&draft.bytes).ends_with("\nkept\n"));
    draft.ticks(1).deliver(0).power_on(0, ID).ticks(3);
    assert!(output(&draft.bytes).ends_with("\nlate\n"));
    for (stop, line) in [(&[0xFF][..], "FF refused 10\nlate\n"), (&[0x02], "02 refused 11\nlate\n")]
    {
        let script = [&draft.bytes, stop].concat();
        assert!(output(&script).ends_with(line));
    }
}

#[test]
fn a_failed_send_with_nothing_due_is_4_and_restarts_nothing() {
    let mut draft = in_state(State::Testing);
    draft.send(0).send(0).send(0).send(0);
    for _ in 0..201 {
        assert_eq!(refusal(draft.fail(0)), 4);
        assert_eq!(draft.alias(0), Alias(0x263));
        draft.ticks(1);
    }
    assert_eq!(refusal(draft.fail(0)), 0);
    assert_eq!(draft.alias(0), Alias(0x4F8));
    for state in [State::Permitted, State::Resting, State::Silent] {
        assert_eq!(refusal(in_state(state).fail(0)), 4);
    }
}

#[test]
fn a_cid_after_the_reply_left_earns_another() {
    for state in [State::Reserved, State::Permitted] {
        let mut draft = in_state(state);
        for _ in 0..3 {
            draft.foreign_cid(0).foreign_cid(0).deliver(0).deliver(0).send(0);
            assert_eq!(sent(&draft), Frame::extended(0x1070_0263, &[]));
            assert!(!waiting_reply(&draft));
        }
        assert_eq!(draft.state(0), state);
    }
}

#[test]
fn low_cids_and_cids_with_data_are_cids() {
    for state in [State::Reserved, State::Permitted] {
        for field in [0x1000, 0x1FFF, 0x2000, 0x3456, 0x4000, 0x7FFF] {
            for data in [&[][..], &[1, 2, 3, 4, 5, 6, 7, 8]] {
                let mut draft = in_state(state);
                draft.control(field, Alias(0x263), data).deliver(0);
                assert_eq!((draft.state(0), waiting_reply(&draft)), (state, true));
            }
        }
    }
}

#[test]
fn messages_and_enquiries_are_refused_in_order() {
    let bad_message = |index| Command::Message { index, field: 0x8000, len: 9, data: [0; 8] };
    let bad_enquiry = |index| Command::Enquiry { index, len: 5, id: [0; 6] };
    let mut draft = in_state(State::Reserved);
    for (index, number) in [(24, 1), (255, 1), (1, 2), (0, 9)] {
        assert_eq!(refusal(draft.push(bad_message(index))), number);
        assert_eq!(refusal(draft.push(bad_enquiry(index))), number);
    }
    assert_eq!(refusal(draft.message(0, 0, &[])), 7);
    assert_eq!(refusal(draft.enquiry(0, 0, 0)), 7);
    draft.send(0).enquiry(0, 6, 0);
    assert_eq!(refusal(&draft), 0);
    assert_eq!(refusal(draft.message(0, 0, &[])), 8);
    assert_eq!(refusal(draft.enquiry(0, 0, 0)), 8);
    assert_eq!(refusal(draft.push(bad_message(0))), 9);
    assert_eq!(refusal(draft.push(bad_enquiry(0))), 9);
    assert_eq!(sent(draft.send(0)), Frame::extended(0x1070_2263, &[0; 6]));
}

#[test]
fn send_is_4_before_5_and_the_own_inbox_does_not_count() {
    let mut draft = in_state(State::Permitted);
    draft.power_on(1, ID + 1);
    for _ in 0..32 {
        draft.idle_frame().deliver(0);
    }
    assert_eq!(refusal(draft.send(0)), 4);
    draft.message(0, 0, &[]);
    assert_eq!(refusal(draft.send(0)), 5);
    assert_eq!(refusal(draft.send(2)), 2);
    assert_eq!(refusal(draft.send(1)), 0);
    assert_eq!(draft.segment.inbox_len(1), 32);
    draft.power_on(1, ID + 1);
    assert_eq!(refusal(draft.send(0)), 0);
}

#[test]
fn foreign_is_9_before_5_and_accepted_with_all_off() {
    let mut draft = Draft::new();
    assert_eq!(refusal(draft.idle_frame()), 0);
    draft.power_on(0, ID);
    for _ in 0..32 {
        assert_eq!(refusal(draft.idle_frame()), 0);
    }
    let malformed = [
        Frame { kind: 3, ..Frame::EMPTY },
        Frame { len: 9, ..Frame::EMPTY },
        Frame { kind: 1, len: 1, ..Frame::EMPTY },
        Frame { header: 1 << 29, ..Frame::EMPTY },
        Frame { kind: 2, header: 0x800, ..Frame::EMPTY },
    ];
    for frame in malformed {
        assert_eq!(refusal(draft.foreign(frame)), 9);
    }
    assert_eq!(refusal(draft.idle_frame()), 5);
    assert_eq!(draft.segment.inbox_len(0), 32);
}

#[test]
fn amd_with_own_alias_and_own_id_makes_leaving_and_no_report() {
    let mut draft = in_state(State::Permitted);
    let bytes = [5, 1, 1, 1, 1, 1];
    draft.control(AMD, Alias(0x263), &bytes).deliver(0);
    assert_eq!(draft.state(0), State::Leaving);
    assert!(!draft.segment.node(0).waiting().report);
}

#[test]
fn alias_0_is_another_alias() {
    let mut draft = in_state(State::Permitted);
    draft.foreign_ame().deliver(0);
    assert!(draft.segment.node(0).waiting().amd);
    draft.foreign_amd_of(0).deliver(0);
    assert!(draft.segment.node(0).waiting().report);
    assert_eq!(draft.state(0), State::Permitted);
}

#[test]
fn near_node_ids_have_no_effect() {
    let own = [5, 1, 1, 1, 1, 1, 0, 0];
    for field in [AME, AMD] {
        for len in [0, 1, 2, 3, 4, 5, 7, 8] {
            let mut draft = in_state(State::Permitted);
            let before = draft.segment.view(0);
            draft.control(field, Alias(1), &own[..len]).deliver(0);
            assert_eq!(draft.segment.view(0) == before, !(field == AME && len == 0));
        }
        for place in 0..6 {
            let mut near = own;
            near[place] ^= 0x80;
            let mut draft = in_state(State::Permitted);
            draft.control(field, Alias(1), &near[..6]).deliver(0);
            assert!(!draft.has_due(0));
        }
    }
}

#[test]
fn unused_data_bytes_are_ignored() {
    let mut draft = in_state(State::Permitted);
    let header = header::join(Header::sent(false, AME, Alias(1)));
    draft.foreign(Frame { header, kind: 0, len: 6, data: [5, 1, 1, 1, 1, 1, 9, 9] });
    assert_eq!(draft.segment.view(0).inbox, [Frame::with_node_id(header, ID)]);
    draft.deliver(0);
    assert!(draft.segment.node(0).waiting().amd);
    draft.push(Command::Message { index: 0, field: 1, len: 2, data: [7; 8] });
    draft.send(0).send(0);
    assert_eq!(sent(&draft), Frame::extended(0x1800_1263, &[7, 7]));
}

#[test]
fn reserved_does_not_remember_an_ame() {
    let mut draft = in_state(State::Reserved);
    draft.foreign_ame().foreign_amd_of(0).deliver(0).deliver(0).send(0);
    assert_eq!(sent(&draft), Frame::with_node_id(0x1070_1263, ID));
    assert_eq!((draft.state(0), draft.has_due(0)), (State::Permitted, false));
}

#[test]
fn the_reason_of_leaving_never_changes() {
    let mut draft = in_state(State::Leaving);
    draft.foreign_message(0).foreign_cid(0).foreign_ame().drain(0);
    assert_eq!(sent(draft.send(0)), Frame::with_node_id(0x1070_3263, ID));
    assert_eq!(draft.state(0), State::Resting);
    let mut draft = in_state(State::Permitted);
    draft.foreign_message(0).deliver(0);
    assert_eq!(refusal(draft.release(0)), 7);
    assert_eq!(sent(draft.send(0)), Frame::with_node_id(0x1070_3263, ID));
    assert_eq!((draft.state(0), draft.alias(0)), (State::Testing, Alias(0x4F8)));
}

#[test]
fn a_command_is_read_whole_before_its_refusals() {
    assert_eq!(output(&[]), "kept\n");
    assert_eq!(output(&[0x01, 0xFF]), "1 01 refused 11\nkept\n");
    assert_eq!(output(&[0x06, 9, 0xFF, 0xFF]), "1 06 refused 11\nkept\n");
    assert_eq!(output(&[0x05, 0x0B]), "1 05 ok\n2 0B refused 10\nkept\n");
    assert_eq!(output(&[0x00, 0x05]), "1 00 refused 10\nkept\n");
    assert_eq!(output(&[0x02]), "1 02 refused 11\nkept\n");
}

#[test]
fn a_command_cut_by_the_65536th_byte_is_11() {
    let mut input = vec![0x05; INPUT_MAX - 1];
    input.extend([0x02, 0x18, 0x05]);
    let mut out = Vec::new();
    run_program(&input, &mut out);
    assert!(out.ends_with(b"65535 05 ok\n65536 02 refused 11\nkept\n"));
    out.clear();
    run(&input, &mut out);
    assert!(out.ends_with(b"65536 02 refused 1\n65537 05 ok\nkept\n"));
    out.clear();
    run_program(&[0x05; INPUT_MAX + 1], &mut out);
    assert!(out.ends_with(b"65536 05 ok\nkept\n"));
}

#[test]
fn an_alias_that_is_drawn_again_is_not_skipped() {
    let again = |id: u64| reference::first_alias(id) == reference::next_alias(id).map(|n| n.0);
    let id = (ID..).find(|&id| again(id)).unwrap();
    let mut draft = Draft::new();
    draft.power_on(0, id);
    let alias = draft.alias(0);
    draft.send(0).foreign_cid(0).deliver(0);
    assert_eq!(draft.alias(0), alias);
    assert_eq!(draft.segment.view(0).due.unwrap().header >> 24, 0x17);
}

/// The wait starts when CID 4 leaves, not when it becomes due.
#[test]
fn the_wait_starts_when_cid_4_leaves() {
    let mut draft = in_state(State::Testing);
    draft.send(0).send(0).send(0).ticks(500);
    assert_eq!(draft.segment.view(0).due.unwrap().header, 0x1410_1263);
    draft.send(0).ticks(200);
    assert!(!draft.has_due(0));
    assert!(draft.ticks(1).has_due(0));
}

#[test]
fn no_reserving_rid_after_a_matching_frame() {
    let mut draft = in_state(State::Testing);
    draft.send(0).send(0).send(0).send(0).ticks(201).foreign_message(0).deliver(0);
    assert_eq!(sent(draft.send(0)), Frame::extended(0x1705_04F8, &[]));
}

#[test]
fn a_message_with_a_high_field_is_no_cid() {
    let mut draft = in_state(State::Permitted);
    draft.foreign(Frame::extended(0x1F05_0263, &[])).deliver(0);
    assert_eq!(draft.state(0), State::Leaving);
}

#[test]
fn off_testing_resting_and_silent_use_no_alias() {
    for state in [State::Testing, State::Resting, State::Silent] {
        assert_eq!(in_state(state).segment.view(0).used_alias, None);
    }
    for state in [State::Reserved, State::Permitted, State::Leaving] {
        assert_eq!(in_state(state).segment.view(0).used_alias, Some(Alias(0x263)));
    }
}
