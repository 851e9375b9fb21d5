//! The seed of random tests; a node brought to a state, and its report, for the tests of single
//! points; all that a segment holds; what a command answered. Not every test needs all of it.
#![allow(dead_code)]

use reference::generate::draft::Draft;
use reference::{Frame, Given, Node, ReadOut, Refusal, Segment, State, View};

/// Another seed can be given as SEED.
pub fn seed() -> u64 {
    let given = std::env::var("SEED").ok();
    given.map_or(0x0201_2100_0001, |text| text.parse().expect("SEED is a whole number"))
}

pub const ID: u64 = 0x0501_0101_0101;

/// The duplicate report under the first alias of that Node ID, with the data of A.2.
pub const REPORT: Frame = Frame {
    header: 0x195B_4263,
    kind: 0,
    len: 8,
    data: [0x01, 0x01, 0x00, 0x00, 0x00, 0x00, 0x02, 0x01],
};

/// One node at index 0, in this state.
pub fn in_state(state: State) -> Draft {
    let mut draft = Draft::new();
    draft.power_on(0, ID);
    let goal = if state == State::Reserved { State::Reserved } else { State::Permitted };
    if state != State::Testing {
        draft.bring_all(&[0], goal);
    }
    match state {
        State::Leaving => drop(draft.release(0)),
        State::Resting => drop(draft.release(0).send(0)),
        State::Silent => drop(draft.foreign_amd_of(0).deliver(0).send(0)),
        _ => {}
    }
    assert_eq!(draft.state(0), state);
    assert!(!draft.segment.is_late());
    draft
}

/// Everything that can be seen of a place, with ages.
type Picture = (Node, View, Vec<u64>, Option<u64>);

/// Of every place; and whether the list is late; and the mark.
pub fn picture(segment: &Segment) -> (Vec<Picture>, bool, usize) {
    let one = |place| {
        let ages = segment.inbox(place).map(|(_, age)| age).collect();
        (*segment.node(place), segment.view(place), ages, segment.owed_age(place))
    };
    ((0..Segment::PLACES).map(one).collect(), segment.is_late(), segment.mark())
}

/// The refusal of the last command, 0 where it was accepted.
pub fn refusal(draft: &Draft) -> u8 {
    draft.answer.err().map_or(0, Refusal::number)
}

/// The frame that left by the last command.
pub fn sent(draft: &Draft) -> Frame {
    match draft.answer {
        Ok(Given::Sent(frame)) => frame,
        other => panic!("no frame left: {other:?}"),
    }
}

/// The index that the last command chose, if it named one.
pub fn chosen(draft: &Draft) -> Option<usize> {
    match draft.answer {
        Ok(Given::Chosen(chosen)) => chosen,
        other => panic!("it was no choice: {other:?}"),
    }
}

/// What the last command read out.
pub fn read(draft: &Draft) -> ReadOut {
    match draft.answer {
        Ok(Given::ReadOut(read)) => read,
        other => panic!("it was no read-out: {other:?}"),
    }
}
