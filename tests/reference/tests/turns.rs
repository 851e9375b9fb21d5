//! Request A.8 of document 02: the choice of who sends next, and the mark that the table keeps for it.

mod common;

use common::{chosen, in_state, picture, refusal, seed, sent, ID};
use reference::generate::draft::Draft;
use reference::generate::prng::Prng;
use reference::generate::walker::{walk_list, Temper, Walker};
use reference::inbox::Inbox;
use reference::{run, Command, Frame, Given, Segment, State, Turns, Watch};

const PLACES: u8 = Segment::PLACES as u8;

fn id(index: u8) -> u64 {
    ID + u64::from(index)
}

/// Nothing due and the mark at this index, whose node has sent its CIDs; all others are Off.
fn marked(index: u8) -> Draft {
    let mut draft = Draft::new();
    draft.power_on(index, id(index)).choose();
    draft.send(index).send(index).send(index).send(index);
    assert_eq!((draft.segment.mark(), draft.has_due(index)), (index.into(), false));
    draft
}

/// Node 0 in this state, which was chosen where it was due, and node 9 due behind it.
fn beside(state: State) -> Draft {
    let mut draft = in_state(state);
    draft.choose().power_on(9, id(9));
    draft
}

/// 24 Permitted nodes with nothing due.
fn all_permitted() -> Draft {
    Draft::permitted(&(0..PLACES).map(id).collect::<Vec<_>>())
}

#[test]
fn the_mark_is_at_first_23() {
    assert_eq!(Segment::new().mark(), 23);
    let mut draft = Draft::new();
    for index in (0..PLACES).rev() {
        draft.power_on(index, id(index));
    }
    assert_eq!(chosen(draft.choose()), Some(0));
}

#[test]
fn every_node_is_named_from_every_mark() {
    for mark in 0..PLACES {
        for index in 0..PLACES {
            let mut draft = marked(mark);
            draft.power_on(index, id(index));
            assert_eq!(chosen(draft.choose()), Some(index.into()), "mark {mark}");
            assert_eq!(draft.segment.mark(), index.into());
        }
    }
}

/// With any set of nodes due: the distance from the mark is the least, counted around the 24 places.
#[test]
fn the_first_after_the_mark_is_named() {
    let mut rng = Prng::new(seed());
    for number in 0..3_000 {
        let mark = rng.below(24) as u8;
        let mut draft = marked(mark);
        let share = rng.pick(&[5, 20, 50, 90]);
        let due: Vec<u8> = (0..PLACES).filter(|_| rng.percent(share)).collect();
        due.iter().for_each(|&index| _ = draft.power_on(index, id(index)));
        let first = due.iter().copied().min_by_key(|&index| (index + 24 - mark - 1) % 24);
        assert_eq!(chosen(draft.choose()), first.map(usize::from), "{number}: {mark}, {due:?}");
        assert_eq!(draft.segment.mark(), first.unwrap_or(mark).into());
    }
}

#[test]
fn all_have_their_turn_in_order_wrapping_past_23() {
    let mut draft = Draft::new();
    for index in 0..PLACES {
        draft.power_on(index, id(index));
    }
    for round in 0..3 {
        for index in 0..Segment::PLACES {
            assert_eq!(chosen(draft.choose()), Some(index), "round {round}");
        }
    }
}

#[test]
fn where_nobody_is_due_none_is_said_and_the_mark_stays() {
    assert_eq!(chosen(Draft::new().choose().choose()), None);
    for mark in 0..PLACES {
        let mut draft = marked(mark);
        for _ in 0..3 {
            assert_eq!(chosen(draft.choose()), None);
            assert_eq!(draft.segment.mark(), mark.into());
        }
        for index in 0..PLACES {
            draft.power_on(index, id(index));
        }
        assert_eq!(chosen(draft.choose()), Some(usize::from(mark + 1) % 24));
    }
}

#[test]
fn the_node_chosen_last_is_looked_at_last() {
    for mark in 0..PLACES {
        let mut draft = marked(mark);
        draft.power_on(mark, id(mark));
        for _ in 0..3 {
            assert_eq!(chosen(draft.choose()), Some(mark.into()), "it alone is due");
        }
        for other in (0..PLACES).filter(|&other| other != mark) {
            draft.power_on(other, id(other)).choose();
            assert_eq!(chosen(&draft), Some(other.into()), "{mark} is due too");
            draft.send(other).send(other).send(other).send(other).drain_all();
            assert_eq!(chosen(draft.choose()), Some(mark.into()));
        }
    }
}

#[test]
fn a_due_frame_of_every_sort_is_chosen_and_nothing_else() {
    let due = [(State::Testing, true), (State::Reserved, true), (State::Permitted, false)];
    let more = [(State::Leaving, true), (State::Resting, false), (State::Silent, false)];
    for (state, named) in due.into_iter().chain(more) {
        let mut draft = in_state(state);
        assert_eq!(chosen(draft.choose()), named.then_some(0), "{state:?}");
    }
    let waits: [fn(&mut Draft); 6] = [
        |draft| _ = draft.foreign_cid(0).deliver(0),
        |draft| _ = draft.foreign_ame().deliver(0),
        |draft| _ = draft.foreign_amd_of(0).deliver(0),
        |draft| _ = draft.link(0, 1),
        |draft| _ = draft.message(0, 0x05B4, &[1]),
        |draft| _ = draft.enquiry(0, 0, 0),
    ];
    for wait in waits {
        let mut draft = in_state(State::Permitted);
        wait(&mut draft);
        assert_eq!(chosen(draft.choose()), Some(0));
        assert_eq!(chosen(draft.send(0).choose()), None);
    }
}

/// Four CIDs, then nothing until the 201st tick, then the RID.
#[test]
fn the_wait_in_testing_is_passed_over() {
    let mut draft = in_state(State::Testing);
    draft.power_on(1, id(1));
    for _ in 0..4 {
        assert_eq!(chosen(draft.choose()), Some(0));
        assert_eq!(chosen(draft.send(0).choose()), Some(1));
    }
    for _ in 0..201 {
        assert_eq!(chosen(draft.choose()), Some(1));
        draft.ticks(1);
    }
    assert_eq!(chosen(draft.choose()), Some(0));
    assert_eq!(sent(draft.send(0)), Frame::extended(0x1070_0263, &[]));
}

/// A node tells whether a frame is due without making it.
#[test]
fn what_is_due_is_told_as_it_is_made() {
    let mut counts = [0; 2];
    for number in 0..40 {
        let mut rng = Prng::new(seed() ^ 0x8100 ^ number);
        let temper = Temper { links: 10, ..Temper::random(&mut rng, 500) };
        let mut segment = Segment::new();
        for command in walk_list(&mut rng, temper) {
            let _ = segment.carry_out(&command);
            for node in (0..Segment::PLACES).map(|place| segment.node(place)) {
                assert_eq!(node.has_due(), node.due().is_some(), "{node:?}");
                counts[usize::from(node.has_due())] += 1;
            }
        }
    }
    assert!(counts.into_iter().all(|count| count > 10_000), "{counts:?}");
}

/// Of the marked node, of others in every state, and where it is refused.
#[test]
fn power_on_leaves_the_mark() {
    for state in State::ON {
        let mut draft = in_state(state);
        draft.power_on(4, id(4)).choose();
        if chosen(&draft) == Some(0) {
            draft.choose();
        }
        let accepted = [(4, id(4), 0), (4, id(3), 0), (0, ID, 0), (0, id(1), 0), (9, id(9), 0)];
        let refused = [(4, 0, 3), (4, id(9), 15), (24, 1, 1)];
        for (index, id, number) in accepted.into_iter().chain(refused) {
            assert_eq!(refusal(draft.power_on(index, id)), number);
            assert_eq!(draft.segment.mark(), 4, "{state:?}");
        }
        assert_eq!(chosen(draft.choose()), Some(9));
    }
}

/// The mark moves when a node is named, whatever its send then answers.
#[test]
fn a_send_that_is_refused_leaves_the_mark() {
    let mut draft = beside(State::Testing);
    (0..Inbox::ROOM).for_each(|_| _ = draft.idle_frame());
    for (index, other) in [(9, 0), (0, 9), (9, 0)] {
        assert_eq!(chosen(draft.choose()), Some(index));
        assert_eq!(refusal(draft.send(index as u8)), 5);
        assert_eq!(refusal(draft.send(other)), 5);
        assert_eq!(draft.segment.mark(), index);
    }
    assert_eq!(refusal(draft.drain(0).send(9)), 0);
    assert_eq!(draft.segment.mark(), 9);
}

type Act = fn(&mut Draft);

/// Each with node 0, which is marked, and node 9 due behind it: the next choice names that one.
#[test]
fn nothing_but_a_choice_moves_the_mark() {
    let acts: [(State, Act); 14] = [
        (State::Testing, |draft| _ = draft.send(0)),
        (State::Testing, |draft| _ = draft.fail(0)),
        (State::Testing, |draft| _ = draft.foreign_cid(0).deliver(0)),
        (State::Testing, |draft| _ = draft.ticks(300)),
        (State::Testing, |draft| _ = draft.idle_frame().deliver(0).deliver(9)),
        (State::Reserved, |draft| _ = draft.send(0)),
        (State::Reserved, |draft| _ = draft.fail(0)),
        (State::Reserved, |draft| _ = draft.foreign_message(0).deliver(0)),
        (State::Reserved, |draft| _ = draft.send(0).message(0, 0x05B4, &[])),
        (State::Reserved, |draft| _ = draft.send(0).enquiry(0, 0, 0)),
        (State::Reserved, |draft| _ = draft.send(0).link(0, 1)),
        (State::Reserved, |draft| _ = draft.send(0).release(0)),
        (State::Leaving, |draft| _ = draft.send(0)),
        (State::Leaving, |draft| _ = draft.fail(0)),
    ];
    for (number, (state, act)) in acts.into_iter().enumerate() {
        let mut draft = beside(state);
        assert_eq!(draft.segment.mark(), 0);
        act(&mut draft);
        assert_eq!((refusal(&draft), draft.segment.mark()), (0, 0), "act {number}");
        assert_eq!(chosen(draft.choose()), Some(9), "act {number}");
    }
}

/// In random lists the mark is the place that the last choice named which named one, and a choice
/// changes nothing else.
#[test]
fn a_choice_changes_the_mark_alone_and_only_it_does() {
    let (mut moved, mut stayed) = (0, 0);
    for number in 0..60 {
        let mut rng = Prng::new(seed() ^ 0x8200 ^ number);
        let temper = Temper { links: 5, turns: 15, ..Temper::random(&mut rng, 700) };
        let mut segment = Segment::new();
        for command in walk_list(&mut rng, temper) {
            let (places, late, mark) = picture(&segment);
            let expected = match segment.carry_out(&command) {
                Ok(Given::Chosen(Some(place))) => place,
                _ => mark,
            };
            assert_eq!(segment.mark(), expected, "{command:?}");
            if command == Command::Choose {
                assert!(picture(&segment) == (places, late, expected));
                moved += usize::from(expected != mark);
                stayed += usize::from(expected == mark);
            }
        }
    }
    println!("{moved} choices moved the mark, {stayed} did not");
    assert!(moved > 500 && stayed > 500, "{moved}, {stayed}");
}

/// Without its choices a list answers and comes to the same: a choice sends nothing.
#[test]
fn a_list_without_its_choices_comes_to_the_same() {
    let mut choices = 0;
    for number in 0..40 {
        let mut rng = Prng::new(seed() ^ 0x8300 ^ number);
        let temper = Temper { links: 5, turns: 25, ..Temper::random(&mut rng, 500) };
        let (mut segment, mut without) = (Segment::new(), Segment::new());
        for command in walk_list(&mut rng, temper) {
            let answer = segment.carry_out(&command);
            if command == Command::Choose {
                choices += 1;
            } else {
                assert_eq!(without.carry_out(&command), answer);
            }
            let ((places, late, _), (others, other_late, mark)) =
                (picture(&segment), picture(&without));
            assert!(places == others && late == other_late && mark == 23);
        }
    }
    assert!(choices > 1_000, "{choices} choices");
}

/// All 24 are due: each of them is named by the last of 24 choices, and by none of the 23 before.
#[test]
fn of_23_choices_none_may_name_a_node_that_is_due_at_each() {
    for index in 0..Segment::PLACES {
        let mut draft = marked(index as u8);
        for other in 0..PLACES {
            draft.power_on(other, id(other));
        }
        for _ in 0..23 {
            assert_ne!(chosen(draft.choose()), Some(index));
        }
        assert_eq!(chosen(draft.choose()), Some(index));
    }
}

/// Behind any list a node that is due at each of 24 choices is named by one of them, with any commands
/// between them that leave it due. In every other list it is hard for it: it was chosen last, and
/// before each choice the next node comes to be due.
#[test]
fn of_24_choices_one_names_a_node_that_is_due_at_each() {
    let mut by_the_last = 0;
    for number in 0..400 {
        let mut rng = Prng::new(seed() ^ 0x8400 ^ number);
        let temper = Temper { links: 5, turns: 10, ..Temper::random(&mut rng, 400) };
        let mut segment = Segment::new();
        for command in walk_list(&mut rng, temper.clone()) {
            let _ = segment.carry_out(&command);
        }
        let (place, hard) = (rng.below(24), number % 2 == 0);
        make_due(&mut segment, place);
        assert!(!hard || (0..24).any(|_| segment.choose() == Some(place)));
        let mut others = walk_list(&mut rng, Temper { commands: 2_000, ..temper }).into_iter();
        let mut named = Vec::new();
        for _ in 0..24 {
            carry_out_amid(&mut segment, place, others.by_ref().take(rng.below(60)));
            let next = (segment.mark() + 1) % 24;
            if hard && next != place {
                make_due(&mut segment, next);
            }
            named.push(segment.choose());
        }
        assert!(named.contains(&Some(place)), "seed {} list {number}: {named:?}", seed());
        by_the_last += usize::from(!named[..23].contains(&Some(place)));
    }
    println!("{by_the_last} of 400 were named by the last of the 24 alone");
    assert!(by_the_last >= 100);
}

/// Switches a node on, where it has no due frame, under a Node ID that no list has.
fn make_due(segment: &mut Segment, place: usize) {
    if segment.node(place).due().is_none() {
        segment.power_on(place, (1 << 48) - 1 - place as u64).expect("it is free");
    }
}

/// Carries out all of these but choices and what would leave the place without a due frame.
fn carry_out_amid(segment: &mut Segment, place: usize, commands: impl Iterator<Item = Command>) {
    for command in commands.filter(|&command| command != Command::Choose) {
        let before = segment.clone();
        let _ = segment.carry_out(&command);
        if segment.node(place).due().is_none() {
            *segment = before;
        }
    }
}

/// So in random lists, for all nodes and all rows of 24 choices.
#[test]
fn random_lists_are_fair() {
    let mut most = [0; 24];
    for number in 0..400 {
        let mut rng = Prng::new(seed() ^ 0x8500 ^ number);
        let temper = Temper { turns: 30, ..Temper::random(&mut rng, 1_500) };
        let mut walker = Walker::new(&mut rng, temper);
        walker.run();
        assert!(walker.turns.were_fair(), "seed {} list {number}", seed());
        most[walker.turns.most] += 1;
    }
    println!("in so many lists a node was passed 0, 1, .. 23 times in a row: {most:?}");
    assert!(most[10..].iter().sum::<usize>() >= 20);
}

/// The watch finds what is not fair: 24 choices in a row that name another, or nobody.
#[test]
fn an_unfair_row_of_choices_is_found() {
    let due = std::array::from_fn(|place| place < 2);
    for named in [Some(0), None] {
        let mut turns = Turns::default();
        for _ in 0..23 {
            turns.see(due, named);
        }
        assert_eq!((turns.passed(1), turns.most, turns.were_fair()), (23, 23, true));
        let mut in_time = turns;
        in_time.see(due, Some(1));
        assert_eq!((in_time.passed(1), in_time.were_fair()), (0, named.is_some()));
        let mut no_more_due = turns;
        no_more_due.see([false; 24], None);
        assert_eq!((no_more_due.passed(1), no_more_due.were_fair()), (0, true));
        turns.see(due, named);
        assert!(!turns.were_fair());
        turns.see(due, Some(1));
        assert!(!turns.were_fair(), "it was so once");
    }
}

/// A millisecond by turns, under watch: all is delivered, the node sends that a choice names, a tick passes.
fn tick_by_turns(draft: &mut Draft, turns: &mut Turns) {
    draft.drain_all();
    let due = std::array::from_fn(|place| draft.segment.node(place).due().is_some());
    draft.choose();
    turns.see(due, chosen(draft));
    if let Some(place) = chosen(draft) {
        draft.send(place as u8);
        assert_eq!(refusal(draft), 0);
    }
    draft.ticks(1);
}

/// All exhibits on one breaker, two and two with one first alias, on one controller.
#[test]
fn a_breaker_start_by_turns_is_kept_and_has_single_aliases() {
    let mut draft = Draft::new();
    for index in 0..PLACES {
        draft.power_on(index, ID + 4095 * u64::from(index / 2) + u64::from(index));
    }
    let mut turns = Turns::default();
    (0..800).for_each(|_| tick_by_turns(&mut draft, &mut turns));
    assert!(turns.were_fair(), "{turns:?}");
    assert!((0..PLACES).all(|index| draft.state(index) == State::Permitted));
    assert!(!draft.segment.is_late());
    assert!(Watch::of(draft.list).claim_held());
}

/// One exhibit orders a message whenever it can, and foreign CIDs ask for aliases in use: the replies
/// leave within 24 ticks, and no node with a due frame waits for more than 24 choices.
#[test]
fn a_chatty_exhibit_delays_nobody_by_more_than_24_turns() {
    let mut rng = Prng::new(seed());
    let mut draft = all_permitted();
    let (start, mut turns) = (draft.list.len(), Turns::default());
    for _ in 0..2_000 {
        draft.message(7, 0x05B4, &[7]);
        let asked = rng.below(24) as u8;
        draft.foreign_cid(asked).message(rng.below(24) as u8, 0x05B4, &[1]);
        tick_by_turns(&mut draft, &mut turns);
    }
    let sends = draft.list[start..].iter().filter(|c| matches!(c, Command::Send { .. })).count();
    let watch = Watch::of(draft.list);
    assert_eq!(sends, 2_000, "the controller is never idle");
    assert!(watch.claim_held() && watch.greatest.waiting <= 24, "{watch:?}");
    assert!(turns.were_fair(), "{turns:?}");
}

#[test]
fn no_script_can_carry_the_choice() {
    let mut draft = in_state(State::Permitted);
    let script = draft.bytes.clone();
    draft.choose();
    assert_eq!((&draft.bytes, draft.list.last()), (&script, Some(&Command::Choose)));
    assert_eq!(Command::Choose.byte(), None);
    let mut out = Vec::new();
    run(&[0x0B], &mut out);
    assert_eq!(String::from_utf8(out).unwrap(), "1 0B refused 10\nkept\n");
}
