//! Lists with choices, which no script can carry: some written on purpose, and random walks. They
//! are the same at every run, and are made anew, not stored.

use crate::command::Command;
use crate::generate::draft::Draft;
use crate::generate::prng::Prng;
use crate::generate::scenarios::{in_state, ID};
use crate::generate::walker::{walk_list, Temper};
use crate::inbox::Inbox;
use crate::node::State;
use crate::segment::Segment;

const WALKS: usize = 48;

const PLACES: u8 = Segment::PLACES as u8;

/// Lists that together reach every turn cell.
pub fn lists(seed: u64) -> Vec<Vec<Command>> {
    let mut lists = vec![every_mark(), named_last_in_a_row(), named_last_amid_others()];
    lists.extend(between());
    let mut rng = Prng::new(seed);
    for _ in 0..WALKS {
        let links = rng.pick(&[0, 10]);
        let temper = Temper { turns: 20, links, ..Temper::random(&mut rng, 1_000) };
        lists.push(walk_list(&mut rng, temper));
    }
    lists
}

fn ids() -> Vec<u64> {
    (0..PLACES).map(|index| ID + u64::from(index)).collect()
}

/// The host of a node orders a message, which it can in Permitted.
fn order(draft: &mut Draft, index: u8) -> &mut Draft {
    draft.message(index, 0x05B4, &[index])
}

/// 24 Permitted nodes, of which one at a time has a message: each after each, itself too, is named,
/// and then nobody.
fn every_mark() -> Vec<Command> {
    let mut draft = Draft::permitted(&ids());
    for first in 0..PLACES {
        for second in first..PLACES {
            for index in [first, second] {
                order(&mut draft, index).choose().send_and_drain(index).choose();
            }
        }
    }
    draft.list
}

/// 24 nodes are due, and nothing comes between 48 choices.
fn named_last_in_a_row() -> Vec<Command> {
    let mut draft = Draft::new();
    for (index, id) in (0..).zip(ids()) {
        draft.power_on(index, id);
    }
    for _ in 0..2 * PLACES {
        draft.choose();
    }
    draft.list
}

/// A node keeps its message, while each of the others in its turn has one and sends it.
fn named_last_amid_others() -> Vec<Command> {
    let mut draft = Draft::permitted(&ids());
    for index in 0..PLACES {
        order(&mut draft, index).choose();
        for other in (1..PLACES).map(|k| (index + k) % PLACES) {
            order(&mut draft, other).choose().send_and_drain(other).ticks(1);
        }
        draft.choose().send_and_drain(index);
    }
    draft.list
}

type Way = fn(&mut Draft);

/// The state of node 3, which is due and named, and what comes before the next choice.
const BETWEEN: [(State, Way); 22] = [
    (State::Testing, |draft| _ = draft.send(3)),
    (State::Permitted, |draft| _ = draft.send(3)),
    (State::Permitted, jam),
    (State::Testing, |draft| _ = draft.fail(3)),
    (State::Reserved, |draft| _ = draft.fail(3)),
    (State::Testing, |draft| _ = draft.foreign_cid(3).deliver(3)),
    (State::Testing, |draft| _ = draft.idle_frame().deliver(3)),
    (State::Testing, |draft| _ = draft.power_on(3, ID)),
    (State::Permitted, |draft| _ = draft.power_on(3, ID + 1)),
    (State::Permitted, |draft| _ = draft.power_on(3, 0)),
    (State::Permitted, |draft| _ = draft.power_on(3, OTHER)),
    (State::Permitted, |draft| _ = draft.power_on(9, OTHER + 1)),
    (State::Testing, |draft| _ = draft.warm_on(3, ID, 0, 7)),
    (State::Permitted, |draft| _ = draft.warm_on(3, ID, 1, 7)),
    (State::Permitted, |draft| _ = draft.warm_on(3, ID, 2, 7)),
    (State::Permitted, |draft| _ = draft.warm_on(9, OTHER + 1, 1, 7)),
    (State::Permitted, |draft| _ = draft.read_out(3)),
    (State::Permitted, |draft| _ = order(draft, 3)),
    (State::Permitted, |draft| _ = draft.enquiry(3, 0, 0)),
    (State::Permitted, |draft| _ = draft.release(3)),
    (State::Permitted, |draft| _ = draft.link(3, 1)),
    (State::Permitted, quiet),
];

/// The Node ID of node 9, which is due too.
const OTHER: u64 = ID + 9;

/// Every inbox is full, and the send is refused by 5.
fn jam(draft: &mut Draft) {
    for _ in 0..Inbox::ROOM {
        draft.idle_frame();
    }
    draft.send(3);
}

/// All that is due leaves, and a choice names nobody, a tick later too.
fn quiet(draft: &mut Draft) {
    draft.send(3).send(9).send(9).send(9).send(9).choose().ticks(1).choose();
    order(draft, 3);
}

fn between() -> impl Iterator<Item = Vec<Command>> {
    BETWEEN.into_iter().map(|(state, way)| {
        let mut draft = in_state(state);
        draft.foreign_ame().deliver(3).power_on(9, OTHER).choose();
        way(&mut draft);
        draft.choose().choose().choose();
        draft.list
    })
}
