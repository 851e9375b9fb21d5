//! Request A.9 of document 02: read-out, and the power-on that is given what was read out.

mod common;

use common::{in_state, picture, read, refusal, seed, sent, ID};
use reference::alias::{next_alias, MAX_48};
use reference::generate::draft::Draft;
use reference::generate::prng::Prng;
use reference::generate::walker::{walk_list, Temper};
use reference::generate::warm_lists::before;
use reference::generate::{corpus, warm_scripts};
use reference::inbox::Inbox;
use reference::node::Phase;
use reference::{first_alias, run, Alias, Command, Frame, Link, Node, ReadOut, Segment, State};

fn output(script: &[u8]) -> String {
    let mut out = Vec::new();
    run(script, &mut out);
    String::from_utf8(out).unwrap()
}

/// The state and the alias one step after this state.
fn step(state: u64) -> (u64, Alias) {
    let (alias, state) = next_alias(state).unwrap();
    (state, alias)
}

/// The exclusive-or of the four parts, part by part.
fn parts(state: u64) -> u16 {
    (0..4).fold(0, |sum, part| sum ^ (state >> (12 * part)) as u16 & 0xFFF)
}

#[test]
fn what_is_read_of_a_fresh_node_is_its_node_id_and_not_past() {
    for state in State::ON {
        let mut draft = in_state(state);
        let before = picture(&draft.segment);
        assert_eq!(read(draft.read_out(0)), ReadOut { state: ID, past: false }, "{state:?}");
        assert!(picture(&draft.segment) == before);
    }
}

#[test]
fn a_read_out_is_refused_by_1_and_by_2() {
    let mut draft = in_state(State::Testing);
    for (index, number) in [(0, 0), (1, 2), (23, 2), (24, 1), (255, 1)] {
        let before = picture(&draft.segment);
        assert_eq!(refusal(draft.read_out(index)), number);
        assert!(picture(&draft.segment) == before);
    }
    assert_eq!(draft.segment.read_out(usize::MAX).map_err(|r| r.number()), Err(1));
}

/// A restart of every cause makes the first alias past, and no step between does.
#[test]
fn a_restart_of_any_cause_steps_the_generator_and_the_first_alias_is_past() {
    let restarts: [(State, fn(&mut Draft), fn(&mut Draft)); 4] = [
        (State::Testing, |_| (), |draft| _ = draft.fail(0)),
        (State::Testing, |draft| _ = draft.foreign_cid(0), |draft| _ = draft.deliver(0)),
        (State::Reserved, |draft| _ = draft.foreign_message(0), |draft| _ = draft.deliver(0)),
        (State::Permitted, |d| _ = d.foreign_message(0).deliver(0), |draft| _ = draft.send(0)),
    ];
    for (state, first, restart) in restarts {
        let mut draft = in_state(state);
        first(&mut draft);
        assert_eq!(read(draft.read_out(0)), ReadOut { state: ID, past: false });
        restart(&mut draft);
        let once = ReadOut { state: step(ID).0, past: true };
        assert_eq!(read(draft.read_out(0)), once, "{state:?}");
        assert_eq!(draft.alias(0), Alias(0x4F8));
        draft.bring_all(&[0], State::Permitted);
        assert_eq!(read(draft.read_out(0)), once);
        draft.release(0).read_out(0);
        assert_eq!(read(&draft), once);
        draft.send(0).read_out(0);
        assert_eq!((read(&draft), draft.state(0)), (once, State::Resting));
    }
}

#[test]
fn flag_0_does_what_01_does_whatever_the_state() {
    for state in State::ON {
        for given in [0, 1, ID, 0x1234_5678_9ABC, MAX_48, 1 << 48, u64::MAX] {
            for id in [ID, ID + 1] {
                let mut cold = in_state(state);
                cold.power_on(4, ID + 4).choose().link(0, 1).idle_frame();
                let mut other = cold.segment.clone();
                assert_eq!(other.warm_on(0, id, 0, given), Ok(()));
                cold.power_on(0, id);
                assert!(picture(&cold.segment) == picture(&other), "{state:?}");
                assert_eq!(other.read_out(0), Ok(ReadOut { state: id, past: false }));
                assert_eq!(other.node(0).tested_alias(), first_alias(id).ok());
            }
        }
    }
}

#[test]
fn flag_1_draws_the_alias_of_the_given_state_without_a_step() {
    let known =
        [(0, 1), (MAX_48, 1), (0x1234_5678_92FC, 1), (0x1234_5678_9ABC, 0x840), (0xFFF, 0xFFF)];
    for (state, alias) in known {
        let mut draft = Draft::new();
        draft.warm_on(7, ID, 1, state);
        assert_eq!(draft.segment.node(7).tested_alias(), Some(Alias(alias)), "{state:012X}");
    }
    let mut rng = Prng::new(seed());
    for _ in 0..20_000 {
        let (id, state) = (1 + rng.number() % MAX_48, rng.number() & MAX_48);
        let mut draft = Draft::new();
        draft.warm_on(7, id, 1, state);
        assert_eq!(draft.alias(7).0, parts(state).max(1));
        assert_eq!(read(draft.read_out(7)), ReadOut { state, past: true });
        draft.fail(7);
        let (next, alias) = step(state);
        assert_eq!(read(draft.read_out(7)), ReadOut { state: next, past: true });
        assert_eq!((draft.alias(7), draft.phase(7)), (alias, Phase::Check(7)));
    }
}

/// From every state: with an empty inbox, the link Error Active, nothing waiting, and the mark kept.
#[test]
fn a_warm_power_on_starts_the_node_anew_in_every_state() {
    for state in State::ON {
        let mut draft = in_state(state);
        draft.power_on(4, ID + 4).choose().choose().link(0, 2).message(0, 1, &[1]);
        (0..Inbox::ROOM).for_each(|_| _ = draft.idle_frame());
        let mark = draft.segment.mark();
        assert_eq!(refusal(draft.warm_on(0, ID + 1, 1, 0x123)), 0);
        let node = draft.segment.node(0);
        assert_eq!((node.link_state(), node.waiting().any()), (Link::ErrorActive, false));
        assert_eq!((node.phase(), node.id()), (Phase::Check(7), ID + 1));
        assert_eq!((draft.segment.inbox_len(0), draft.segment.mark()), (0, mark), "{state:?}");
        assert_eq!(refusal(draft.drain(4).idle_frame()), 0, "no inbox is full");
    }
}

/// Four CIDs, nothing until the 201st tick, the RID, the AMD.
#[test]
fn the_alias_is_tested_in_full() {
    let mut draft = Draft::new();
    draft.warm_on(0, ID, 1, 0x1234_5678_9ABC);
    for header in [0x1705_0840, 0x1610_1840, 0x1501_0840, 0x1410_1840] {
        assert_eq!(sent(draft.send(0)), Frame::extended(header, &[]));
    }
    for _ in 0..201 {
        assert_eq!(refusal(draft.send(0)), 4);
        assert_eq!(draft.segment.node(0).used_alias(), None);
        draft.ticks(1);
    }
    assert_eq!(sent(draft.send(0)), Frame::extended(0x1070_0840, &[]));
    assert_eq!(draft.segment.node(0).used_alias(), Some(Alias(0x840)));
    assert_eq!(sent(draft.send(0)), Frame::with_node_id(0x1070_1840, ID));
}

#[test]
fn refusals_are_1_3_15_and_18_in_this_order() {
    let mut draft = in_state(State::Permitted);
    draft.power_on(1, ID + 1);
    let far = [2, 3, 128, 255].map(|flag| (flag, 0));
    let bad = far.into_iter().chain([(1, 1 << 48), (1, u64::MAX), (2, u64::MAX)]);
    let good = [(0, 0), (0, 1 << 48), (0, u64::MAX), (1, 0), (1, MAX_48)];
    for (flag, state) in bad.chain(good) {
        let last = if good.contains(&(flag, state)) { 0 } else { 18 };
        let refusals = [(24, 0, 1), (24, ID, 1), (24, 9, 1), (usize::MAX, 9, 1), (0, 0, 3)];
        let more = [(0, 1 << 48, 3), (9, ID, 15), (0, ID + 1, 15), (1, ID + 1, last), (9, 9, last)];
        for (index, id, number) in refusals.into_iter().chain(more) {
            let mut segment = draft.segment.clone();
            let answer = segment.warm_on(index, id, flag, state);
            assert_eq!(answer.map_or_else(|refusal| refusal.number(), |()| 0), number);
            assert!(number == 0 || picture(&segment) == picture(&draft.segment));
        }
    }
}

#[test]
fn of_one_node_alone_they_are_3_and_18_and_2() {
    let number = |answer: Result<Node, reference::Refusal>| answer.map_err(|r| r.number());
    for (id, flag, state, refusal) in [
        (0, 2, 0, 3),
        (1 << 48, 1, u64::MAX, 3),
        (ID, 2, 0, 18),
        (ID, 255, 0, 18),
        (ID, 1, 1 << 48, 18),
    ] {
        assert_eq!(number(Node::warm_on(id, flag, state)), Err(refusal));
    }
    assert_eq!(Node::warm_on(ID, 0, u64::MAX), Node::power_on(ID));
    let node = Node::warm_on(ID, 1, MAX_48).unwrap();
    assert_eq!(node.read_out(), Ok(ReadOut { state: MAX_48, past: true }));
    assert_eq!(Node::OFF.read_out().map_err(|refusal| refusal.number()), Err(2));
}

/// The state tells nothing of whether the first alias is past: it can be the Node ID, given or stepped to.
#[test]
fn the_first_alias_is_past_though_the_generator_stands_at_the_node_id() {
    for id in [1, ID, MAX_48] {
        assert_eq!(step(before(id)).0, id);
        for (given, steps) in [(id, 0), (before(id), 1)] {
            let mut draft = Draft::new();
            draft.warm_on(0, id, 1, given);
            (0..steps).for_each(|_| _ = draft.fail(0));
            assert_eq!(read(draft.read_out(0)), ReadOut { state: id, past: true });
            assert_eq!(draft.alias(0).0, parts(id).max(1));
            draft.power_on(0, id);
            assert_eq!(read(draft.read_out(0)), ReadOut { state: id, past: false });
        }
    }
}

/// Nothing but a power-on and a restart changes what is read out; a restart steps once.
#[test]
fn no_other_event_changes_what_is_read_out() {
    let (mut steps, mut starts) = (0, 0);
    for number in 0..200 {
        let mut rng = Prng::new(seed() ^ 0x9000 ^ number);
        let temper = Temper::random(&mut rng, 800);
        let temper = Temper { links: 5, turns: 5, warm: 50, reads: 5, ..temper };
        let mut segment = Segment::new();
        for command in walk_list(&mut rng, temper) {
            let before: [Node; Segment::PLACES] = std::array::from_fn(|p| *segment.node(p));
            let _ = segment.carry_out(&command);
            for (place, before) in before.iter().enumerate() {
                let after = segment.node(place);
                let (was, is) = (before.read_out(), after.read_out());
                if was == is {
                    continue;
                }
                if let Command::PowerOn { index, .. } | Command::WarmOn { index, .. } = command {
                    assert_eq!(usize::from(index), place);
                    starts += 1;
                } else {
                    let state = step(was.expect("it was on").state).0;
                    assert_eq!(is, Ok(ReadOut { state, past: true }), "{command:?}");
                    assert_eq!(after.phase(), Phase::Check(7));
                    steps += 1;
                }
            }
        }
    }
    assert!(steps > 1_000 && starts > 1_000, "{steps} steps, {starts} starts");
}

/// Read out, any commands, given back at the index that has the Node ID, or at any where none has it: the
/// node has the alias that it had.
#[test]
fn what_is_given_back_brings_the_alias_that_the_node_had() {
    let mut counts = [0; 2];
    for number in 0..300 {
        let mut rng = Prng::new(seed() ^ 0x9100 ^ number);
        let temper = Temper::random(&mut rng, 600);
        let list = walk_list(&mut rng, Temper { warm: 40, reads: 2, ..temper });
        let cut = rng.below(list.len());
        let mut segment = Segment::new();
        list[..cut].iter().for_each(|command| _ = segment.carry_out(command));
        let noted: Vec<Node> = (0..24).map(|place| *segment.node(place)).collect();
        list[cut..].iter().for_each(|command| _ = segment.carry_out(command));
        for node in noted.iter().filter(|node| !node.is_off()) {
            let ReadOut { state, past } = node.read_out().unwrap();
            let mut segment = segment.clone();
            let holder = segment.holders(node.id()).next();
            let index = holder.unwrap_or(rng.below(24));
            assert_eq!(segment.warm_on(index, node.id(), past.into(), state), Ok(()));
            assert_eq!(segment.node(index).tested_alias(), Some(node.alias()));
            assert!(past || Ok(node.alias()) == first_alias(node.id()));
            counts[usize::from(past)] += 1;
        }
    }
    assert!(counts.into_iter().all(|count| count > 200), "{counts:?}");
}

#[test]
fn the_program_takes_0a() {
    let on = |flag: u8, state: u8| {
        [vec![0x0A, 0, 5, 1, 1, 1, 1, 1, flag], vec![state; 6], vec![0x02, 0]].concat()
    };
    assert_eq!(output(&on(0, 0xFF)), "1 0A ok\n2 02 ok 17050263\nkept\n");
    assert_eq!(output(&on(1, 0xFF)), "1 0A ok\n2 02 ok 17050001\nkept\n");
    assert_eq!(output(&on(2, 0)), "1 0A refused 18\n2 02 refused 2\nkept\n");
    let mut given = Vec::new();
    Command::WarmOn { index: 0, id: ID, flag: 1, state: step(ID).0 }.write(&mut given);
    assert_eq!((given.len(), given[0]), (15, 0x0A));
    assert_eq!(output(&[&given[..], &[0x02, 0]].concat()), "1 0A ok\n2 02 ok 170504F8\nkept\n");
    for cut in 1..given.len() {
        assert_eq!(output(&given[..cut]), "1 0A refused 11\nkept\n");
    }
    for byte in (0x0B..=0xFF).chain([0x00]) {
        assert_eq!(output(&[byte; 15]), format!("1 {byte:02X} refused 10\nkept\n"));
    }
}

/// With 0A and flag 0 in place of every 01 a script prints the same but for these bytes.
#[test]
fn scripts_by_01_and_by_0a_print_the_same() {
    let mut power_ons = 0;
    for script in corpus::scripts(corpus::SEED) {
        let whole: Vec<Command> = reference::whole_commands(&script).collect();
        let mut bytes = Vec::new();
        whole.iter().for_each(|command| command.write(&mut bytes));
        let (by_01, by_0a) = (output(&bytes), output(&warm_scripts::by_0a(&bytes)));
        assert_eq!(by_01.lines().count(), by_0a.lines().count());
        for ((command, line), other) in whole.iter().zip(by_01.lines()).zip(by_0a.lines()) {
            let expected = match command {
                Command::PowerOn { .. } => line.replacen(" 01 ", " 0A ", 1),
                _ => line.to_string(),
            };
            assert_eq!(other, expected);
            power_ons += usize::from(matches!(command, Command::PowerOn { .. }));
        }
        assert_eq!(by_01.lines().last(), by_0a.lines().last());
    }
    assert!(power_ons > 1_000, "{power_ons}");
}

#[test]
fn no_script_can_carry_the_read_out() {
    let mut draft = in_state(State::Permitted);
    let script = draft.bytes.clone();
    draft.read_out(0);
    assert_eq!((&draft.bytes, draft.list.last()), (&script, Some(&Command::ReadOut { index: 0 })));
    assert_eq!(Command::ReadOut { index: 0 }.byte(), None);
}
