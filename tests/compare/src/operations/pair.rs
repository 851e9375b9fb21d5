//! Both implementations side by side: after each operation all that can be seen of either is compared, what is read out, and the mark.

use super::operation::Operation;
use super::seen::{self, frame_words, words_but_kind, Seen};
use super::turn::{self, chosen_word, said};
use super::warm::{self, Notes};
use super::{answered, put_out, refused, same, told};
use crate::card::{Card, MARK};
use reference::generate::coverage::Coverage;
use reference::{Given, Limits, Refusal, Segment, Turns, Watch};

/// Indexes and places that no node and no frame has.
const NO_INDEX: [usize; 6] = [Segment::PLACES, 25, 255, 256, 1 << 32, usize::MAX];
const NO_PLACE: [usize; 4] = [32, 33, 1 << 32, usize::MAX];

/// A choice, which is told by whom it names.
const CHOICE: &str = "card_choose(table, chosen)";

pub struct Pair {
    card: Card,
    segment: Segment,
    /// The table's words after the last operation.
    words: Vec<u64>,
    operations: usize,
    watch: Watch,
    turns: Turns,
    notes: Notes,
}

impl Default for Pair {
    fn default() -> Self {
        Self::new()
    }
}

/// Compares a list of operations from all nodes Off: its greatest ages, and what it met of A.9; or what differs.
pub fn compare(operations: &[Operation], cover: &mut Coverage) -> Result<(Limits, warm::Counts), String> {
    let mut pair = Pair::new();
    let result = pair.mark().and_then(|()| operations.iter().try_for_each(|operation| pair.step(operation, cover)));
    cover.end_script(&pair.segment);
    result.and_then(|()| pair.round()).map_err(|what| format!("operation {}: {what}", pair.operations))?;
    Ok((pair.watch.greatest, pair.notes.counts))
}

impl Pair {
    pub fn new() -> Pair {
        let card = Card::new();
        let words = card.words().to_vec();
        let (watch, turns, notes) = (Watch::default(), Turns::default(), Notes::default());
        Pair { card, segment: Segment::new(), words, operations: 0, watch, turns, notes }
    }

    /// Carries out an operation on both sides and compares all there is.
    pub fn step(&mut self, operation: &Operation, cover: &mut Coverage) -> Result<(), String> {
        self.operations += 1;
        let before = (*operation == Operation::Choose).then(|| (turn::due(&self.card), self.segment.mark()));
        warm::same_as_01(&self.card, operation)?;
        let proved = operation.proved(&mut self.card);
        let plain = answered(operation.plain(&mut self.segment, cover), given_words);
        if let Some((due, mark)) = before {
            same(|| CHOICE.to_string(), said(proved), said(plain))?;
            self.choice(due, mark, turn::named_by(proved.1[0])).map_err(|what| format!("{operation} {what}"))?;
        }
        same(|| format!("{operation} is"), told(proved.0), told(plain.0))?;
        same(|| format!("{operation} answers"), proved, plain)?;
        if proved.0 != 0 && self.card.words() != self.words {
            return Err(format!("{operation} is refused and changes the table"));
        }
        self.words.copy_from_slice(self.card.words());
        self.notes.see(operation, proved, &self.card).map_err(|what| format!("after {operation} {what}"))?;
        self.watch.see(&self.segment);
        self.claim().map_err(|side| format!("after {operation} the claim fails {side}, with {:?}", self.watch.greatest))?;
        self.look()?;
        self.mark().map_err(|what| format!("after {operation} {what}"))?;
        if !self.card.guards_hold() {
            return Err(format!("{operation} writes beside the table"));
        }
        Ok(())
    }

    /// Whether the claim holds on either side: of Node IDs always, of aliases unless the ages are greater than A.3 allows.
    fn claim(&self) -> Result<(), &'static str> {
        if !self.watch.claim_held() {
            return Err("in plain Rust");
        }
        let seen = self.seen();
        let aliases = !self.watch.greatest.are_allowed() || seen::claim_holds(&seen);
        if !aliases || !seen::node_ids_differ(&seen) {
            return Err("on the proved table");
        }
        Ok(())
    }

    /// Checks a choice by which nodes were due before it, and by the mark then: what it changed, and that every node has its turn.
    fn choice(&mut self, due: [bool; Segment::PLACES], mark: usize, named: Option<usize>) -> Result<(), String> {
        turn::may_change(&self.words, self.card.words(), mark, named)?;
        self.turns.see(due, named);
        if !self.turns.were_fair() {
            return Err("is the last of 24 at each of which some node was due that none of them named".to_string());
        }
        Ok(())
    }

    /// Whether both have one mark, by whom the proved table then chooses.
    fn mark(&self) -> Result<(), String> {
        let next = (self.segment.mark() + 1) % Segment::PLACES;
        let what = || format!("the mark: once every node without a due frame is powered on, {CHOICE}");
        same(what, said(turn::after_mark(&self.card)), said((0, [chosen_word(Some(next))])))
    }

    /// A round of choices, with nothing between them, and one more.
    fn round(&mut self) -> Result<(), String> {
        for number in 1..=Segment::PLACES + 1 {
            let proved = put_out(|chosen| self.card.choose(chosen));
            let plain = (0, [chosen_word(self.segment.choose())]);
            same(|| format!("after the list {CHOICE}, call {number}"), said(proved), said(plain))?;
        }
        Ok(())
    }

    /// What the proved table shows of its nodes.
    fn seen(&self) -> [Seen; Segment::PLACES] {
        std::array::from_fn(|index| seen::shown(&self.card, index))
    }

    /// Looks at everything. That changes nothing.
    fn look(&self) -> Result<(), String> {
        same(|| "late".to_string(), self.card.is_late(), self.segment.is_late())?;
        for index in 0..Segment::PLACES {
            let seen = seen::of(self.segment.node(index), self.segment.inbox_len(index));
            same(|| format!("card_look(table, {index}, seen)"), put_out(|words| self.card.look(index, words)), (0, seen))?;
            self.look_in(index)?;
            self.read_out(index)?;
        }
        let index = NO_INDEX[self.operations % NO_INDEX.len()];
        same(
            || format!("card_look(table, {index}, seen)"),
            put_out(|seen| self.card.look(index, seen)),
            refused(Refusal::NoSuchIndex),
        )?;
        let frame = put_out(|frame| self.card.inbox(index, self.operations % 32, frame));
        same(|| format!("card_inbox(table, {index}, ..)"), frame, refused(Refusal::NoSuchIndex))?;
        self.read_out(index)?;
        if self.card.words() != self.words {
            return Err("looking changes the table".to_string());
        }
        Ok(())
    }

    /// What is read out at an index.
    fn read_out(&self, index: usize) -> Result<(), String> {
        let proved = put_out(|out| self.card.read_out(index, out));
        same(|| format!("card_read_out(table, {index}, out)"), proved, answered(self.segment.read_out(index), warm::words))
    }

    /// Every frame of an inbox, and none behind the last.
    fn look_in(&self, index: usize) -> Result<(), String> {
        let mut count = 0;
        for (frame, _) in self.segment.inbox(index) {
            let proved = put_out(|frame| self.card.inbox(index, count, frame));
            same(|| format!("card_inbox(table, {index}, {count}, frame)"), proved, (0, frame_words(frame)))?;
            count += 1;
        }
        for place in [count, NO_PLACE[self.operations % NO_PLACE.len()]] {
            let proved = put_out(|frame| self.card.inbox(index, place, frame));
            same(|| format!("card_inbox(table, {index}, {place}, frame)"), proved, refused(Refusal::InboxEmpty))?;
        }
        Ok(())
    }
}

/// The words of the frame that left, or the one for who was chosen, or the two that were read out.
fn given_words(given: Given) -> [u64; 3] {
    match given {
        Given::Nothing => [MARK; 3],
        Given::Sent(frame) => words_but_kind(frame),
        Given::Chosen(named) => [chosen_word(named), MARK, MARK],
        Given::ReadOut(read) => {
            let [state, past] = warm::words(read);
            [state, past, MARK]
        }
    }
}

#[cfg(test)]
mod tests {
    use super::*;
    use reference::generate::draft::Draft;
    use reference::generate::slow::{slow_amr, slow_reply};
    use reference::{Frame, State};

    const ON: Operation = Operation::PowerOn { index: 3, id: 0x0501_0101_0101 };

    fn on() -> Pair {
        let mut pair = Pair::new();
        pair.step(&ON, &mut Coverage::new()).expect("both sides agree");
        pair
    }

    #[test]
    fn what_only_one_side_does_is_found() {
        let alone: [fn(&mut Pair); 5] = [
            |pair| _ = pair.card.send(3, &mut [0; 3]),
            |pair| _ = pair.card.fail(3),
            |pair| _ = pair.card.foreign(0, 0x1070_0263, 0, 0),
            |pair| _ = pair.segment.power_on(9, 1),
            |pair| _ = pair.segment.send(3),
        ];
        for act in alone {
            let mut pair = on();
            assert_eq!(pair.look(), Ok(()));
            act(&mut pair);
            assert!(pair.look().is_err());
        }
    }

    /// Node 3 alone, Permitted.
    fn permitted() -> Pair {
        let mut pair = on();
        while pair.segment.node(3).state() != State::Permitted {
            for operation in [Operation::Send { index: 3 }, Operation::Tick] {
                pair.step(&operation, &mut Coverage::new()).expect("both sides agree");
            }
        }
        pair
    }

    #[test]
    fn a_report_on_one_side_alone_is_found() {
        let alone: [fn(&mut Pair); 2] = [|pair| _ = pair.card.link(3, 1), |pair| _ = pair.segment.link(3, 1)];
        for act in alone {
            let mut pair = permitted();
            assert_eq!(pair.look(), Ok(()));
            act(&mut pair);
            assert!(pair.look().is_err());
        }
    }

    /// Bus Off is not seen, and the next change is reported from there.
    #[test]
    fn a_link_state_on_one_side_alone_is_found_by_the_next_change() {
        let mut pair = permitted();
        pair.segment.link(3, 2).expect("the node is on");
        assert_eq!(pair.look(), Ok(()));
        assert!(pair.step(&Operation::Link { index: 3, state: 1 }, &mut Coverage::new()).is_err());
    }

    /// Nothing that is seen shows the mark; by choices it is found, at once and after a list.
    #[test]
    fn a_mark_on_one_side_alone_is_found() {
        let alone: [fn(&mut Pair); 2] = [|pair| _ = pair.card.choose(&mut [0]), |pair| _ = pair.segment.choose()];
        for act in alone {
            let mut pair = on();
            pair.step(&Operation::PowerOn { index: 9, id: 9 }, &mut Coverage::new()).expect("both sides agree");
            assert_eq!((pair.mark(), pair.look()), (Ok(()), Ok(())));
            act(&mut pair);
            pair.words.copy_from_slice(pair.card.words());
            assert_eq!(pair.look(), Ok(()));
            assert!(pair.mark().is_err() && pair.round().is_err());
            assert!(pair.step(&Operation::Tick, &mut Coverage::new()).is_err());
        }
    }

    /// Nodes 3 and 9 are due, and 23 choices may name one of them, or nobody.
    #[test]
    fn a_node_that_has_no_turn_is_found() {
        let due = std::array::from_fn(|index| index == 3 || index == 9);
        for named in [Some(3), None] {
            let mut pair = on();
            (0..23).for_each(|_| assert_eq!(pair.choice(due, 23, named), Ok(())));
            assert!(pair.choice(due, 23, named).is_err());
            let mut pair = on();
            (0..23).for_each(|_| assert_eq!(pair.choice(due, 23, named), Ok(())));
            assert_eq!(pair.choice(due, 23, Some(9)).is_ok(), named.is_some());
        }
    }

    #[test]
    fn what_a_choice_changes_besides_the_mark_is_found() {
        let mut pair = on();
        pair.card.words_mut()[..2].iter_mut().for_each(|word| *word += 1);
        assert!(pair.choice([false; Segment::PLACES], 23, Some(3)).is_err());
    }

    #[test]
    fn a_word_beside_what_is_seen_is_found_too() {
        let mut pair = on();
        *pair.card.words_mut().last_mut().expect("a word") += 1;
        assert_eq!(pair.look(), Err("looking changes the table".to_string()));
    }

    #[test]
    fn lateness_is_compared() {
        let mut list = vec![ON, Operation::Foreign { kind: 0, header: 0x1070_0001, len: 0, bytes: 0 }];
        list.extend([Operation::Tick; 41]);
        assert_eq!(compare(&list, &mut Coverage::new()).map(|(greatest, _)| greatest), Ok(Limits::new(41, 0)));
        let mut pair = on();
        for _ in 0..41 {
            pair.segment.tick();
        }
        assert_eq!(pair.look(), Ok(()), "nothing waits, so a tick is not seen");
        pair.segment.foreign(&Frame::extended(0x1070_0001, &[])).expect("room");
        pair.card.foreign(0, 0x1070_0001, 0, 0);
        pair.words.copy_from_slice(pair.card.words());
        assert_eq!(pair.look(), Ok(()));
        for _ in 0..41 {
            pair.segment.tick();
        }
        assert!(pair.look().is_err());
    }

    /// Both sides after a list, and after node 1 has tried to send.
    fn after(mut draft: Draft) -> Pair {
        draft.send(1);
        let mut pair = Pair::new();
        for command in draft.list {
            pair.step(&command.into(), &mut Coverage::new()).expect("both sides agree, and the claim holds where A.3 demands it");
        }
        pair
    }

    #[test]
    fn the_proved_table_keeps_the_claim_at_corners_and_not_outside() {
        for (inbox, waiting) in [(100, 0), (0, 100), (66, 66), (67, 66), (66, 67)] {
            let limits = Limits::new(inbox, waiting);
            for pair in [after(slow_reply(limits)), after(slow_amr(limits))] {
                assert_eq!(pair.watch, Watch { greatest: limits, ..Watch::default() });
                assert!(seen::claim_holds(&pair.seen()));
            }
        }
        let (reply, amr, both) = (Limits::new(68, 65), Limits::new(65, 68), Limits::new(67, 67));
        for (draft, limits) in
            [(slow_reply(reply), reply), (slow_amr(amr), amr), (slow_reply(both), both), (slow_amr(both), both)]
        {
            let pair = after(draft);
            assert_eq!(pair.watch, Watch { greatest: limits, broken: Some(limits), ..Watch::default() });
            assert!(!seen::claim_holds(&pair.seen()));
        }
    }

    #[test]
    fn the_claim_is_checked_on_either_side_while_the_ages_are_allowed() {
        let mut pair = after(slow_reply(Limits::new(68, 65)));
        assert_eq!(pair.claim(), Ok(()), "the ages are not allowed");
        pair.watch = Watch::default();
        assert_eq!(pair.claim(), Err("on the proved table"));
        pair.watch.see(&pair.segment);
        assert_eq!(pair.claim(), Err("in plain Rust"));
    }

    /// What the proved table cannot come to, written into its words: one Node ID at two indexes.
    #[test]
    fn node_ids_are_checked_on_either_side_whatever_the_ages() {
        let mut pair = after(slow_reply(Limits::new(68, 65)));
        let (first, second) = (seen::shown(&pair.card, 0)[1], seen::shown(&pair.card, 1)[1]);
        let words = pair.card.words_mut();
        let place = words.iter().position(|&word| word == second).expect("the Node ID is one of the words");
        words[place] = first;
        assert_eq!(pair.claim(), Err("on the proved table"));
        pair.watch.equal_ids = true;
        assert_eq!(pair.claim(), Err("in plain Rust"));
    }
}
