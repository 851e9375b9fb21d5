//! Choices of the proved table (A.8): whom a word names, who is due before one, what it may change, and the mark, which only choices
//! show.

use super::seen::{self, Seen};
use super::{put_out, Answered};
use crate::card::Card;
use reference::Segment;

/// The word for whom a choice names: the index, 24 for none.
pub fn chosen_word(named: Option<usize>) -> u64 {
    named.unwrap_or(Segment::PLACES) as u64
}

/// Whom such a word names.
pub fn named_by(chosen: u64) -> Option<usize> {
    (0..Segment::PLACES).find(|&index| index as u64 == chosen)
}

/// What a choice answers, in words. The first that it gives says whom it names.
pub fn said<const N: usize>((code, given): Answered<N>) -> String {
    match named_by(given[0]) {
        Some(index) if code == 0 => format!("names {index}"),
        None if (code, given[0]) == (0, chosen_word(None)) => "names nobody".to_string(),
        _ => format!("answers {code} with {}", given[0]),
    }
}

/// Who is chosen next where every node is due: the one after the mark. Nodes that are not due are powered on for that, in a copy of
/// the table; it leaves the mark.
pub fn after_mark(card: &Card) -> Answered<1> {
    let mut copy = card.clone();
    let nodes: [Seen; Segment::PLACES] = std::array::from_fn(|index| seen::shown(card, index));
    let mut free = (1..).filter(|&id| nodes.iter().all(|node| seen::id(node) != Some(id)));
    for (index, node) in nodes.iter().enumerate().filter(|(_, node)| seen::due(node).is_none()) {
        let id = seen::id(node).or_else(|| free.next()).expect("24 nodes have 24 Node IDs at most");
        let code = copy.power_on(index, id);
        if code != 0 {
            return put_out(|_| code);
        }
    }
    put_out(|chosen| copy.choose(chosen))
}

/// Which nodes of the proved table are due.
pub fn due(card: &Card) -> [bool; Segment::PLACES] {
    std::array::from_fn(|index| seen::due(&seen::shown(card, index)).is_some())
}

/// Whether a choice with this mark that named this node, or nobody, may have made the second words of the first: the mark is in one
/// of them, and moves where another node is named.
pub fn may_change(words: &[u64], after: &[u64], mark: usize, named: Option<usize>) -> Result<(), String> {
    let changed = words.iter().zip(after).filter(|(word, after)| word != after).count();
    match named {
        None if changed > 0 => Err("names nobody and changes the table".to_string()),
        Some(index) if changed > usize::from(index != mark) => {
            Err(format!("names {index} after {mark} and changes {changed} words of the table, more than the mark"))
        }
        _ => Ok(()),
    }
}

#[cfg(test)]
mod tests {
    use super::*;

    #[test]
    fn a_choice_is_told_in_words() {
        let told = [(0, [23]), (0, [24]), (0, [25]), (4, [23]), (4, [24])].map(said);
        assert_eq!(told, ["names 23", "names nobody", "answers 0 with 25", "answers 4 with 23", "answers 4 with 24"]);
    }

    /// Node 3, and perhaps others, powered on.
    fn on(others: &[usize]) -> Card {
        let mut card = Card::new();
        for &index in [3].iter().chain(others) {
            assert_eq!(card.power_on(index, 5 + index as u64), 0);
        }
        card
    }

    #[test]
    fn the_mark_is_shown_wherever_it_is() {
        assert_eq!(after_mark(&Card::new()), (0, [0]));
        let mut card = on(&[0, 22, 23]);
        for (named, next) in [(0, 1), (3, 4), (22, 23), (23, 0), (0, 1)] {
            assert_eq!(put_out(|chosen| card.choose(chosen)), (0, [named]));
            assert_eq!(after_mark(&card), (0, [next]));
        }
    }

    /// Nodes that are Off are powered on under Node IDs that no other has.
    #[test]
    fn the_mark_is_shown_beside_low_node_ids() {
        let mut card = Card::new();
        for (index, id) in [(4, 1), (9, 2), (10, 4)] {
            assert_eq!(card.power_on(index, id), 0);
        }
        (0..4).for_each(|_| assert_eq!(card.send(9, &mut [0; 3]), 0));
        assert_eq!(put_out(|chosen| card.choose(chosen)), (0, [4]));
        assert_eq!(after_mark(&card), (0, [5]));
    }

    #[test]
    fn words_that_a_choice_changes_are_counted() {
        let words = on(&[]).words().to_vec();
        let changed = |count: usize, named| {
            let mut after = words.clone();
            after.iter_mut().rev().take(count).for_each(|word| *word += 1);
            may_change(&words, &after, 5, named)
        };
        for (count, named) in [(0, Some(3)), (1, Some(3)), (0, Some(5)), (0, None)] {
            assert_eq!(changed(count, named), Ok(()));
        }
        for (count, named) in [(2, 3), (1, 5)] {
            let what = format!("names {named} after 5 and changes {count} words of the table, more than the mark");
            assert_eq!(changed(count, Some(named)), Err(what));
        }
        assert_eq!(changed(1, None).unwrap_err(), "names nobody and changes the table");
    }
}
