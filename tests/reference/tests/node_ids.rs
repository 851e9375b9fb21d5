//! Request A.6 of document 02: a Node ID in use at another index is refusal 15 at power-on.

mod common;

use common::{in_state, picture, refusal, seed, ID};
use reference::alias::ALIASES;
use reference::generate::draft::Draft;
use reference::generate::prng::Prng;
use reference::generate::walker::{Temper, Walker};
use reference::inbox::Inbox;
use reference::{run, Command, Refusal, Segment, State};

/// Node 0 in this state, and node 1 with the next Node ID.
fn beside(state: State) -> Draft {
    let mut draft = in_state(state);
    draft.power_on(1, ID + 1);
    draft
}

#[test]
fn a_node_id_in_use_at_another_index_is_15() {
    for state in State::ON {
        let mut draft = in_state(state);
        for index in [1, 12, 23] {
            assert_eq!(refusal(draft.power_on(index, ID)), 15, "{state:?}");
            assert_eq!(draft.state(index), State::Off);
        }
        assert_eq!(draft.state(0), state);
        assert_eq!(refusal(draft.power_on(1, ID + ALIASES)), 0, "one first alias is no Node ID");
    }
}

#[test]
fn every_other_index_is_compared() {
    for holder in 0..Segment::PLACES as u8 {
        for index in 0..Segment::PLACES as u8 {
            let mut draft = Draft::new();
            draft.power_on(holder, ID);
            let expected = if index == holder { 0 } else { 15 };
            assert_eq!(refusal(draft.power_on(index, ID)), expected, "{holder} {index}");
        }
    }
}

#[test]
fn every_bit_is_compared() {
    for bit in 0..48 {
        let mut draft = Draft::new();
        assert_eq!(refusal(draft.power_on(0, ID).power_on(1, ID ^ 1 << bit)), 0, "bit {bit}");
        assert_eq!(refusal(draft.power_on(2, ID ^ 1 << bit)), 15, "bit {bit}");
    }
}

#[test]
fn the_own_earlier_node_id_does_not_count() {
    for state in State::ON {
        let mut draft = beside(state);
        assert_eq!(refusal(draft.idle_frame().power_on(0, ID)), 0);
        assert_eq!((draft.state(0), draft.segment.inbox_len(0)), (State::Testing, 0));
    }
}

#[test]
fn a_node_id_that_was_given_up_is_free() {
    for state in State::ON {
        let mut draft = beside(state);
        assert_eq!(refusal(draft.power_on(0, ID + 2)), 0);
        assert_eq!(refusal(draft.power_on(0, ID + 1)), 15);
        assert_eq!(refusal(draft.power_on(1, ID)), 0);
        assert_eq!(refusal(draft.power_on(0, ID)), 15);
        assert_eq!(refusal(draft.power_on(0, ID + 1)), 0);
    }
}

#[test]
fn tested_after_1_and_3() {
    let mut draft = beside(State::Permitted);
    for index in [24, 25, 255] {
        assert_eq!(refusal(draft.power_on(index, ID)), 1);
    }
    assert_eq!(refusal(draft.power_on(1, 0)), 3);
    let mut segment = draft.segment;
    assert_eq!(segment.power_on(1, 1 << 48 | ID), Err(Refusal::BadNodeId));
    assert_eq!(segment.power_on(usize::MAX, ID), Err(Refusal::NoSuchIndex));
    assert_eq!(segment.power_on(1, ID), Err(Refusal::NodeIdInUse));
}

#[test]
fn a_refused_power_on_leaves_the_node_running() {
    for state in State::ON {
        let mut draft = beside(state);
        draft.link(0, 2).foreign_cid(0).idle_frame().deliver(0).ticks(7);
        let before = picture(&draft.segment);
        assert_eq!(draft.segment.inbox_len(0), 1);
        assert_eq!(refusal(draft.power_on(0, ID + 1)), 15);
        assert!(picture(&draft.segment) == before, "{state:?}");
        assert_eq!(refusal(draft.deliver(0)), 0, "its frame stands there as before");
    }
}

/// Frames go on joining its inbox up to 32, and no Off node's.
#[test]
fn frames_join_after_a_refused_power_on_as_before() {
    for state in State::ON {
        let mut draft = beside(state);
        draft.power_on(0, ID + 1).power_on(2, ID).idle_frame();
        assert_eq!([0, 1, 2].map(|place| draft.segment.inbox_len(place)), [1, 1, 0], "{state:?}");
        for _ in 1..Inbox::ROOM {
            draft.deliver(1).idle_frame();
        }
        assert_eq!(refusal(draft.power_on(0, ID + 1).deliver(1).idle_frame()), 5);
        assert_eq!(refusal(draft.deliver(0).power_on(0, ID + 1).idle_frame()), 0);
    }
}

/// A reply RID grows older through a power-on that is refused.
#[test]
fn a_refused_power_on_ends_no_age() {
    let mut draft = beside(State::Permitted);
    draft.foreign_cid(0).drain_all().ticks(40).power_on(0, ID + 1);
    assert!(!draft.segment.is_late());
    assert!(draft.ticks(1).segment.is_late());
}

/// The wiring list of A.6: the second line is refused, and its exhibit stays Off.
#[test]
fn a_script_says_15() {
    let mut draft = Draft::new();
    draft.power_on(0, ID).power_on(1, ID).send(1).send(0).power_on(24, ID);
    let mut out = Vec::new();
    run(&draft.bytes, &mut out);
    let lines =
        "1 01 ok\n2 01 refused 15\n3 02 refused 2\n4 02 ok 17050263\n5 01 refused 1\nkept\n";
    assert_eq!(String::from_utf8(out).unwrap(), lines);
}

/// A duplicate met in a foreign frame is handled as before: the node reports it and falls silent, and
/// its Node ID stays in use.
#[test]
fn duplicates_in_foreign_frames_are_as_before() {
    let mut draft = beside(State::Permitted);
    draft.foreign_amd_of(0).deliver(0).send(0);
    assert_eq!(draft.state(0), State::Silent);
    assert_eq!(refusal(draft.power_on(1, ID)), 15);
    assert_eq!(refusal(draft.power_on(0, ID)), 0);
}

#[test]
fn node_ids_differ_after_every_command_of_every_list() {
    let (mut late, mut refused) = (0, 0);
    for number in 0..400 {
        let mut rng = Prng::new(seed() ^ 0x6000 ^ number);
        let temper = Temper::random(&mut rng, 1_000);
        let temper = Temper { links: 5, turns: 5, warm: 40, reads: 3, ..temper };
        let mut walker = Walker::new(&mut rng, temper);
        walker.run();
        assert!(!walker.watch.equal_ids, "seed {} list {number}", seed());
        late += usize::from(walker.draft.segment.is_late());
        refused += in_use(&walker.draft.list);
    }
    println!("{late} lists are late; {refused} power-ons were refused by 15");
    assert!(late >= 40 && refused >= 400, "{late} late, {refused} refused");
}

/// How many power-ons of a list are refused by 15.
fn in_use(list: &[Command]) -> usize {
    let mut segment = Segment::new();
    let answers = list.iter().map(|command| segment.carry_out(command));
    answers.filter(|answer| *answer == Err(Refusal::NodeIdInUse)).count()
}
