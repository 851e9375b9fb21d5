//! Choices (A.8), the proved one and the same in plain Rust, by how many nodes they look at and in which states these are; and turns, a
//! choice and a send.

use super::{as_for_c, plain_power_on, Row};
use crate::card::Card;
use crate::operations::operation::Operation;
use crate::operations::put_out;
use crate::operations::seen::words_but_kind;
use crate::operations::turn::chosen_word;
use reference::generate::draft::Draft;
use reference::{Segment, State};
use std::hint::black_box;

const PLACES: u8 = Segment::PLACES as u8;

fn id(index: u8) -> u64 {
    0x0501_0101_0100 + u64::from(index)
}

#[inline(never)]
fn plain_choose(segment: &mut Segment, chosen: &mut [u64; 1]) -> u64 {
    as_for_c(Ok([chosen_word(segment.choose())]), chosen)
}

#[inline(never)]
fn plain_send(segment: &mut Segment, index: usize, sent: &mut [u64; 3]) -> u64 {
    as_for_c(segment.send(index).map(words_but_kind), sent)
}

/// Both tables after a list.
fn tables(draft: Draft) -> (Card, Segment) {
    let mut proved = Card::new();
    for command in draft.list {
        Operation::from(command).proved(&mut proved);
    }
    (proved, draft.segment)
}

/// How many nodes the next choice looks at.
fn looked_at(segment: &Segment) -> usize {
    let mut turn = (1..=Segment::PLACES).filter(|k| segment.node((segment.mark() + k) % Segment::PLACES).due().is_some());
    turn.next().unwrap_or(Segment::PLACES)
}

/// Choices after a list: each of them looks at so many nodes.
fn choosing(name: &'static str, draft: Draft, looks: &[usize]) -> Row {
    let (mut proved, mut plain) = tables(draft);
    let plain_call: fn(&mut Segment, &mut [u64; 1]) -> u64 = black_box(plain_choose);
    for turn in 0..2 * Segment::PLACES {
        assert_eq!(looked_at(&plain), looks[turn % looks.len()], "{name}");
        assert_eq!(put_out(|chosen| proved.choose(chosen)), put_out(|chosen| plain_call(&mut plain, chosen)), "{name}");
    }
    let (mut chosen, mut plain_chosen) = ([0; 1], [0; 1]);
    Row {
        name,
        proved: Box::new(move |_| {
            black_box(proved.choose(black_box(&mut chosen)));
        }),
        plain: Box::new(move |_| {
            black_box(plain_call(&mut plain, black_box(&mut plain_chosen)));
        }),
    }
}

/// Turns of nodes 0 to 7, all others Off: a choice, and the send of the node that it names. Each in order is powered on and has four
/// turns for its CIDs, and then waits until its next power-on, which empties its inbox; so no inbox comes to be full. A power-on is in
/// every fourth.
fn taking_turns(name: &'static str) -> Row {
    let (mut proved, mut plain) = (Card::new(), Segment::new());
    let choose: fn(&mut Segment, &mut [u64; 1]) -> u64 = black_box(plain_choose);
    let send: fn(&mut Segment, usize, &mut [u64; 3]) -> u64 = black_box(plain_send);
    let power_on: fn(&mut Segment, usize, u64) -> u64 = black_box(plain_power_on);
    let operands = |turn: u64| (black_box(turn / 4 % 8) as u8, turn % 4);
    let (mut chosen, mut sent) = ([0; 1], [0; 3]);
    let (mut plain_chosen, mut plain_sent) = ([0; 1], [0; 3]);
    Row {
        name,
        proved: Box::new(move |turn| {
            let (index, sent_already) = operands(turn);
            assert!(sent_already > 0 || proved.power_on(index.into(), id(index)) == 0);
            assert_eq!((proved.choose(&mut chosen), chosen), (0, [index.into()]));
            assert_eq!(proved.send(index.into(), &mut sent), 0);
        }),
        plain: Box::new(move |turn| {
            let (index, sent_already) = operands(turn);
            assert!(sent_already > 0 || power_on(&mut plain, index.into(), id(index)) == 0);
            assert_eq!((choose(&mut plain, &mut plain_chosen), plain_chosen), (0, [index.into()]));
            assert_eq!(send(&mut plain, index.into(), &mut plain_sent), 0);
        }),
    }
}

/// All 24 Permitted, with nothing due.
fn permitted() -> Draft {
    Draft::permitted(&(0..PLACES).map(id).collect::<Vec<_>>())
}

/// So many in the wait of their tests.
fn waiting(count: u8) -> Draft {
    let mut draft = Draft::new();
    for index in 0..count {
        draft.power_on(index, id(index)).send(index).send(index).send(index).send(index).drain_all();
    }
    assert!((0..count).all(|index| draft.state(index) == State::Testing && !draft.has_due(index)));
    draft
}

/// The same with one node due, and chosen last.
fn with_one_due(mut draft: Draft) -> Draft {
    draft.power_on(23, id(23)).choose();
    draft
}

/// The messages of some nodes that their hosts have ordered.
fn with_messages(mut draft: Draft, indexes: &[u8]) -> Draft {
    for &index in indexes {
        draft.message(index, 0x05B4, &[index]);
    }
    draft
}

fn all_due() -> Draft {
    let mut draft = Draft::new();
    (0..PLACES).for_each(|index| _ = draft.power_on(index, id(index)));
    draft
}

/// Choices by what is due: the next node; only the last that is looked at, the others Off, in the wait of their tests or Permitted; some
/// Permitted ones; none. Then turns.
pub fn rows() -> [Row; 8] {
    [
        choosing("choice, the next of 24 due", all_due(), &[1]),
        choosing("choice of the 24th, 23 Off", with_one_due(Draft::new()), &[24]),
        choosing("choice of the 24th, 23 wait", with_one_due(waiting(23)), &[24]),
        choosing("choice of 24th, 23 Permitted", with_messages(permitted(), &[23]), &[24]),
        choosing("choice of the 6th or the 2nd", with_messages(permitted(), &[5, 7, 13, 15, 21, 23]), &[6, 2]),
        choosing("choice, none of 24 that wait", waiting(24), &[24]),
        choosing("choice, none of 24 Permitted", permitted(), &[24]),
        taking_turns("turn, each 4th with power-on"),
    ]
}
