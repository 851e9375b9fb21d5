//! Lists with read-outs, which no script can carry: some written on purpose, and random walks. They are
//! the same at every run, and are made anew, not stored.

use crate::alias::{self, MAX_48};
use crate::command::Command;
use crate::generate::draft::Draft;
use crate::generate::prng::Prng;
use crate::generate::scenarios::{to_state, ID};
use crate::generate::walker::{walk_list, Temper};
use crate::generate::warm_marks::{Cause, Since};
use crate::generate::warm_scripts::{give_back, read, PARTS_CANCEL};
use crate::node::State;

const WALKS: usize = 48;

/// Lists that together reach every warm mark.
pub fn lists(seed: u64) -> Vec<Vec<Command>> {
    let mut lists = vec![refused()];
    for state in State::ON {
        lists.extend(Since::ALL.map(|since| read_after(since, state)));
        lists.extend([ID, before(ID)].map(|given| node_id_past(given, state)));
    }
    let mut rng = Prng::new(seed);
    for _ in 0..WALKS {
        let links = rng.pick(&[0, 10]);
        let temper = Temper { links, warm: 50, reads: 10, ..Temper::random(&mut rng, 1_000) };
        lists.push(walk_list(&mut rng, temper));
    }
    lists
}

/// The state from which a step of the generator leads to this one.
pub fn before(state: u64) -> u64 {
    let step = |from: u64| alias::next(from).1;
    // A step is 513 times the state and a number more, so bit by bit the lowest decide.
    let mut from = 0;
    for bit in 0..48 {
        from |= (step(from) ^ state) & 1 << bit;
    }
    from & MAX_48
}

/// Node 3 in this state after this, with what is read out of it before and after each step on the way,
/// and given back at another index.
fn read_after(since: Since, state: State) -> Vec<Command> {
    let mut draft = Draft::new();
    start(&mut draft, since);
    draft.read_out(3);
    to_state(&mut draft, state);
    draft.read_out(3).idle_frame().link(3, 1).read_out(3).send(3).read_out(3);
    let read = read(&draft, 3);
    draft.power_on(3, ID + 1);
    give_back(&mut draft, 8, ID, read).read_out(8).send(8).read_out(3);
    draft.list
}

fn start(draft: &mut Draft, since: Since) {
    let warm = PARTS_CANCEL + 0x29;
    match since {
        Since::First { by_0a, after_warm } => {
            if after_warm {
                draft.warm_on(3, ID, 1, warm).send(3);
            }
            _ = if by_0a { draft.warm_on(3, ID, 0, warm) } else { draft.power_on(3, ID) };
        }
        Since::Warm { was_on } => {
            if was_on {
                draft.power_on(3, ID).send(3);
            }
            draft.warm_on(3, ID, 1, warm);
        }
        Since::Restart(cause) => restart(draft, cause),
    }
}

fn restart(draft: &mut Draft, cause: Cause) {
    draft.power_on(3, ID);
    match cause {
        Cause::Failed => drop(draft.send(3).fail(3)),
        Cause::MetInTesting => drop(draft.foreign_cid(3).deliver(3)),
        Cause::MetInReserved => {
            to_state(draft, State::Reserved);
            draft.foreign_message(3).deliver(3);
        }
        Cause::AmrLeft => {
            to_state(draft, State::Permitted);
            draft.foreign_message(3).deliver(3).read_out(3).send(3);
        }
    }
}

/// The generator stands at the Node ID and the first alias is past all the same: it was given so, or a
/// step has led there.
fn node_id_past(given: u64, state: State) -> Vec<Command> {
    let mut draft = Draft::new();
    draft.warm_on(3, ID, 1, given).read_out(3);
    if given != ID {
        draft.fail(3).read_out(3);
    }
    to_state(&mut draft, state);
    draft.read_out(3).send(3).power_on(3, ID).read_out(3).send(3);
    draft.list
}

/// Nodes that are Off, and indexes that no node has.
fn refused() -> Vec<Command> {
    let mut draft = Draft::new();
    for index in [0, 23, 24, 255] {
        draft.read_out(index).power_on(index, ID + u64::from(index)).read_out(index);
    }
    draft.list
}
