//! What card_look shows of a node: the words for a node of the other implementation, and the claims by such words.

use super::put_out;
use crate::card::Card;
use reference::{Alias, Frame, Node, State};

/// The words in the order of c/card.h: state, Node ID, alias, whether a frame is due, its header, length and data, inbox.
pub type Seen = [u64; 12];

/// What the proved table shows of a node.
pub fn shown(card: &Card, index: usize) -> Seen {
    put_out(|words| card.look(index, words)).1
}

/// How many frames stand in its inbox.
pub fn inbox(&[_, _, _, _, _, _, _, inbox, ..]: &Seen) -> usize {
    inbox as usize
}

/// The node alone.
pub fn without_inbox(mut seen: Seen) -> Seen {
    let [_, _, _, _, _, _, _, inbox, ..] = &mut seen;
    *inbox = 0;
    seen
}

pub fn is_in(state: State, seen: &Seen) -> bool {
    seen[0] == state_word(state)
}

/// What c/card.h says is seen of a node.
pub fn of(node: &Node, inbox: usize) -> Seen {
    let Alias(alias) = node.tested_alias().or(node.used_alias()).unwrap_or(Alias(0));
    let due = node.due();
    let [_, header, len, bytes] = due.map_or([0; 4], |frame| frame_words(&frame));
    let state = state_word(node.state());
    [state, node.id(), alias.into(), due.is_some().into(), header, len, bytes, inbox as u64, 0, 0, 0, 0]
}

fn state_word(state: State) -> u64 {
    match state {
        State::Off => 0,
        State::Testing => 1,
        State::Reserved => 2,
        State::Permitted => 3,
        State::Leaving => 4,
        State::Resting => 5,
        State::Silent => 6,
    }
}

pub fn frame_words(frame: &Frame) -> [u64; 4] {
    [frame.kind.into(), frame.header.into(), frame.len.into(), u64::from_be_bytes(frame.data)]
}

/// The words of a frame that left, or that was read from a text: header, length, data.
pub fn words_but_kind(frame: Frame) -> [u64; 3] {
    let [_, header, len, bytes] = frame_words(&frame);
    [header, len, bytes]
}

/// The alias that a node is seen to use.
fn used(&[state, _, alias, ..]: &Seen) -> Option<u64> {
    let users = [State::Reserved, State::Permitted, State::Leaving].map(state_word);
    users.contains(&state).then_some(alias)
}

/// The Node ID that a node is seen to have.
pub fn id(seen: &Seen) -> Option<u64> {
    (!is_in(State::Off, seen)).then_some(seen[1])
}

/// The header of the due frame that is seen, and its length and data.
pub fn due(&[_, _, _, due, header, len, bytes, ..]: &Seen) -> Option<(u64, [u64; 2])> {
    (due == 1).then_some((header, [len, bytes]))
}

/// No two nodes are seen to use one alias, or to have due frames with one header and different data.
pub fn claim_holds(nodes: &[Seen]) -> bool {
    let one_alias = |a: &Seen, b: &Seen| used(a).is_some_and(|alias| used(b) == Some(alias));
    let clash = |a: &Seen, b: &Seen| match (due(a), due(b)) {
        (Some((header, data)), Some((other, others))) => header == other && data != others,
        _ => false,
    };
    (0..nodes.len()).all(|p| (0..p).all(|q| !one_alias(&nodes[p], &nodes[q]) && !clash(&nodes[p], &nodes[q])))
}

/// No two nodes that are not Off are seen with one Node ID (A.6).
pub fn node_ids_differ(nodes: &[Seen]) -> bool {
    (0..nodes.len()).all(|p| (0..p).all(|q| id(&nodes[p]).is_none() || id(&nodes[p]) != id(&nodes[q])))
}

#[cfg(test)]
mod tests {
    use super::*;

    #[test]
    fn one_node_id_at_two_is_found() {
        let node = |state, id| [state_word(state), id, 0, 0, 0, 0, 0, 0, 0, 0, 0, 0];
        for state in State::ON {
            for other in State::ON {
                let off = node(State::Off, 0);
                assert!(!node_ids_differ(&[off, node(state, 5), off, node(other, 5)]));
                assert!(node_ids_differ(&[off, node(state, 5), off, node(other, 6)]));
            }
        }
    }

    /// A node in this state, seen with this alias and no due frame.
    fn in_state(state: State, alias: u64) -> Seen {
        [state_word(state), 1, alias, 0, 0, 0, 0, 0, 0, 0, 0, 0]
    }

    #[test]
    fn one_alias_in_use_by_two_is_found() {
        for state in [State::Reserved, State::Permitted, State::Leaving] {
            for (other, holds) in [
                (State::Testing, true),
                (State::Reserved, false),
                (State::Permitted, false),
                (State::Leaving, false),
                (State::Resting, true),
            ] {
                let off = in_state(State::Off, 0);
                assert_eq!(claim_holds(&[off, in_state(state, 0x263), off, in_state(other, 0x263)]), holds);
                assert!(claim_holds(&[off, in_state(state, 0x263), off, in_state(other, 0x264)]));
            }
        }
    }

    #[test]
    fn due_frames_with_one_header_and_different_data_are_found() {
        let due = |header, len, bytes| [1, 1, 0x263, 1, header, len, bytes, 0, 0, 0, 0, 0];
        let amd = due(0x1070_1263, 6, 0x0501_0101_0101_0000);
        assert!(claim_holds(&[amd, amd, in_state(State::Testing, 0x263)]));
        assert!(claim_holds(&[amd, due(0x1070_1264, 6, 0x0501_0101_0102_0000)]));
        assert!(!claim_holds(&[amd, due(0x1070_1263, 6, 0x0501_0101_0102_0000)]));
        assert!(!claim_holds(&[amd, due(0x1070_1263, 8, 0x0501_0101_0101_0000)]));
    }
}
