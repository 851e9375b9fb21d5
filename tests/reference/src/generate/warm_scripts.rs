//! Scripts with warm power-ons, written on purpose (A.9): flags and states, nodes that come back in
//! every state and at other indexes, refusals in their order; and scripts with 0A in place of 01.

use crate::alias::{ALIASES, MAX_48};
use crate::command::{whole_commands, Command};
use crate::generate::draft::Draft;
use crate::generate::scenarios::{in_state, to_state, ID};
use crate::node::State;
use crate::warm::ReadOut;

/// A state whose four parts have exclusive-or 0.
pub(crate) const PARTS_CANCEL: u64 = 0x123_456_789_2FC;

pub(crate) fn all() -> Vec<Vec<u8>> {
    let mut scripts = vec![given(), refusals(), elsewhere(), in_full(), contested(), breaker()];
    for state in State::ON {
        scripts.extend([false, true].map(|past| back(state, past)));
    }
    scripts
}

/// The same commands with every 01 as a 0A with flag 0, and with states that it shall ignore.
pub fn by_0a(script: &[u8]) -> Vec<u8> {
    let mut bytes = Vec::new();
    for (number, command) in (0..).zip(whole_commands(script)) {
        match command {
            Command::PowerOn { index, id } => {
                let state = [0, MAX_48, id, PARTS_CANCEL + number][number as usize % 4];
                Command::WarmOn { index, id, flag: 0, state }.write(&mut bytes);
            }
            other => other.write(&mut bytes),
        }
    }
    bytes
}

/// What would be read out of a node that is on.
pub(crate) fn read(draft: &Draft, index: u8) -> ReadOut {
    draft.segment.read_out(index.into()).expect("the node is on")
}

/// Gives back what was read out.
pub(crate) fn give_back(draft: &mut Draft, index: u8, id: u64, read: ReadOut) -> &mut Draft {
    draft.warm_on(index, id, read.flag(), read.state)
}

/// Every flag with every state: the first two CIDs show the alias, a failed send the next one.
fn given() -> Vec<u8> {
    let mut draft = Draft::new();
    draft.power_on(9, ID + 9).fail(9).fail(9);
    for flag in [0, 1, 2, 3, 128, 255] {
        for source in 0..7 {
            draft.power_on(3, ID).fail(3);
            let (own, other) = (read(&draft, 3).state, read(&draft, 9).state);
            let state = [0, MAX_48, PARTS_CANCEL, ID, own, other, 1 << 47][source];
            draft.warm_on(3, ID, flag, state).send(3).send(3).fail(3).send(3);
            draft.drain(9).drain(3);
        }
    }
    draft.bytes
}

/// Each refusal alone, and with each that is tested later.
fn refusals() -> Vec<u8> {
    let mut draft = Draft::new();
    draft.power_on(5, ID).fail(5).power_on(6, ID + 6).send(6).send(5);
    for index in [24, 255, 6, 5, 7] {
        for id in [0, ID, ID + 7] {
            for flag in [2, 255, 1, 0] {
                draft.warm_on(index, id, flag, MAX_48);
            }
        }
    }
    draft.send(5).send(6).send(7).deliver(6).deliver(5).deliver(7);
    draft.bytes
}

/// A node comes back in its place, with frames in its inbox and perhaps a reply RID to send.
fn back(state: State, past: bool) -> Vec<u8> {
    let mut draft = Draft::new();
    draft.power_on(3, ID);
    if past {
        draft.fail(3);
    }
    to_state(&mut draft, state);
    draft.foreign_cid(3).deliver(3).foreign_cid(3).idle_frame();
    let read = read(&draft, 3);
    give_back(&mut draft, 3, ID, read).deliver(3).send(3).send(3).fail(3).send(3);
    draft.bytes
}

/// Nodes 3 and 4 come back at indexes 23 and 0, once their own have other Node IDs.
fn elsewhere() -> Vec<u8> {
    let mut draft = Draft::new();
    draft.power_on(3, ID).fail(3).power_on(4, ID + 4).send(3).send(4);
    for (index, id, other) in [(3, ID, 23), (4, ID + 4, 0)] {
        let read = read(&draft, index);
        give_back(&mut draft, other, id, read).power_on(index, id + 100);
        give_back(&mut draft, other, id, read).send(other).send(index);
    }
    draft.drain_all().send(23).send(0);
    draft.bytes
}

/// A node that comes back tests its alias in full: it asks for its RID after every tick.
fn in_full() -> Vec<u8> {
    let mut draft = in_state(State::Permitted);
    draft.foreign_message(3).deliver(3).send(3);
    let read = read(&draft, 3);
    give_back(&mut draft, 3, ID, read).send(3).send(3).send(3).send(3);
    for _ in 0..201 {
        draft.send(3).fail(3).ticks(1);
    }
    draft.send(3).send(3).message(3, 0x05B4, &[1]).send(3);
    draft.bytes
}

/// A node comes back under an alias that another has taken meanwhile; and two with one state.
fn contested() -> Vec<u8> {
    let mut draft = Draft::permitted(&[ID, ID + ALIASES]);
    let taken = u64::from(draft.alias(1).0);
    draft.warm_on(0, ID, 1, taken).send_and_drain(0).send_and_drain(1).send_and_drain(0);
    draft.warm_on(2, ID + 2, 1, taken + 1).warm_on(3, ID + 3, 1, taken + 1);
    draft.bring_all(&[0, 2, 3], State::Permitted);
    draft.bytes
}

/// Exhibits that share their first alias come back from a switch-off, and no test fails.
fn breaker() -> Vec<u8> {
    let ids: Vec<u64> = (0..6).map(|k| ID + ALIASES * k).collect();
    let mut draft = Draft::permitted(&ids);
    for (index, &id) in (0..).zip(&ids) {
        let read = read(&draft, index);
        give_back(&mut draft, index, id, read);
    }
    draft.bring_all(&[0, 1, 2, 3, 4, 5], State::Permitted);
    draft.bytes
}
