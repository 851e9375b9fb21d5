//! Lists with link orders, which no script can carry: some written on purpose, random walks, and
//! lists that fill the coverage, with choices too. They are the same at every run, and are made anew,
//! not stored.

use crate::command::Command;
use crate::generate::coverage::Coverage;
use crate::generate::draft::Draft;
use crate::generate::filler;
use crate::generate::prng::Prng;
use crate::generate::scenarios::in_state;
use crate::generate::walker::{walk_list, Temper};
use crate::node::State;

const WALKS: usize = 48;

/// Lists that together reach every cell that can be reached, and every link mark.
pub fn lists(seed: u64) -> Vec<Vec<Command>> {
    let mut lists = remembered();
    let mut rng = Prng::new(seed);
    for _ in 0..WALKS {
        let temper = Temper { links: 20, ..Temper::random(&mut rng, 1_000) };
        lists.push(walk_list(&mut rng, temper));
    }
    let mut cover = Coverage::new();
    for list in &lists {
        cover.count_list(list);
    }
    lists.extend(filler::lists(&mut cover, &mut rng));
    lists
}

type Act = fn(&mut Draft);

/// A node in this state; what happens before it is told its link state; and after that.
const WAYS: [(State, Act, Act); 9] = [
    (State::Testing, nothing, nothing),
    (State::Testing, nothing, fail),
    (State::Testing, nothing, collide),
    (State::Reserved, nothing, nothing),
    (State::Reserved, nothing, collide),
    (State::Permitted, nothing, collide),
    (State::Permitted, collide, nothing),
    (State::Permitted, nothing, power_on),
    (State::Permitted, nothing, warm_on),
];

fn nothing(_: &mut Draft) {}

fn fail(draft: &mut Draft) {
    draft.fail(3);
}

fn collide(draft: &mut Draft) {
    draft.foreign_message(3).deliver(3);
}

fn power_on(draft: &mut Draft) {
    draft.power_on(3, 0x0501_0101_0102);
}

fn warm_on(draft: &mut Draft) {
    draft.warm_on(3, 0x0501_0101_0102, 1, 0x0501_0101_0102);
}

/// A link state that a node is told on its way to Permitted, and the next that it is told there.
fn remembered() -> Vec<Vec<Command>> {
    let mut lists = Vec::new();
    for (state, before, after) in WAYS {
        for (told, next) in [(1, 0), (1, 1), (1, 2), (2, 0), (2, 1), (2, 2)] {
            let mut draft = in_state(state);
            before(&mut draft);
            draft.link(3, told);
            after(&mut draft);
            draft.bring_all(&[3], State::Permitted);
            draft.link(3, next).send(3).send(3);
            lists.push(draft.list);
        }
    }
    lists
}
