//! Read-out and warm power-on of the proved table (A.9): what is read out and given back brings the alias that the node had, which is
//! tested in full before it is used; 0A with flag 0 does what 01 does; and states above 48 bits, which no script can carry.

use super::operation::Operation;
use super::seen::{self, Seen};
use super::{alike, put_out, told, Answered};
use crate::card::{Card, MARK};
use reference::{Node, ReadOut, Segment, State};
use std::collections::BTreeMap;

/// The words of what is read out: the generator's state, 1 where the first alias is past.
pub fn words(ReadOut { state, past }: ReadOut) -> [u64; 2] {
    [state, past.into()]
}

/// Refused by 1, 3 or 15 by whichever flag, 18 with flag 1 or above, accepted with flag 0.
const WIDE: [(u8, u64); 12] =
    [(0, 0), (0, 1), (0, 3), (0, 15), (1, 1), (1, 3), (1, 15), (1, 18), (2, 1), (2, 3), (2, 15), (2, 18)];

/// What was met of A.9.
#[derive(Clone, Debug, Default, PartialEq, Eq)]
pub struct Counts {
    /// Nodes that were given back what was read out of them: with flag 0 and with flag 1.
    pub back: [usize; 2],
    /// Those of them that came back at another index than they were read out at.
    pub elsewhere: [usize; 2],
    /// Power-ons with a state above 48 bits, by flag (2 for all above 1) and answer.
    wide: BTreeMap<(u8, u64), usize>,
}

impl Counts {
    pub fn add(&mut self, other: &Counts) {
        for flag in [0, 1] {
            self.back[flag] += other.back[flag];
            self.elsewhere[flag] += other.elsewhere[flag];
        }
        other.wide.iter().for_each(|(&met, count)| *self.wide.entry(met).or_default() += count);
    }

    /// A flag and an answer that no power-on with a state above 48 bits had, or what else was never met.
    pub fn missing(&self) -> Vec<String> {
        let wide = WIDE.into_iter().filter(|met| !self.wide.contains_key(met));
        let wide = wide.map(|(flag, answer)| format!("a state above 48 bits with flag {flag}, answered {answer}"));
        let back = [0, 1].into_iter().filter(|&flag| self.elsewhere[flag] == 0 || self.back[flag] == self.elsewhere[flag]);
        wide.chain(back.map(|flag| format!("given back with flag {flag} in its place and at another index"))).collect()
    }

    pub fn wide(&self) -> usize {
        self.wide.values().sum()
    }
}

/// A node as it was read out: at this index, with this Node ID, and with the alias that it tested or used last.
#[derive(Clone, Copy)]
struct Noted {
    index: usize,
    id: u64,
    read: [u64; 2],
    alias: u64,
}

impl Noted {
    /// Whether a power-on gives back what was read.
    fn is_given(&self, id: u64, flag: u8, state: u64) -> bool {
        let [read, past] = self.read;
        self.id == id && past == u64::from(flag) && (flag == 0 || read == state)
    }
}

/// What was read out in a list, with the alias that each node had last.
#[derive(Default)]
pub struct Notes {
    aliases: [u64; Segment::PLACES],
    noted: Vec<Noted>,
    pub counts: Counts,
}

impl Notes {
    /// Sees an operation with its answer, and the table after it: a node that is given back what was read out of it has the alias that
    /// it had, and tests it in full.
    pub fn see(&mut self, operation: &Operation, (code, given): Answered<3>, card: &Card) -> Result<(), String> {
        if let Operation::WarmOn { flag, state, .. } = *operation {
            if state >> 48 != 0 {
                *self.counts.wide.entry((flag.min(2), code)).or_default() += 1;
            }
        }
        if code != 0 {
            return Ok(());
        }
        match *operation {
            Operation::ReadOut { index } => {
                let [state, past, _] = given;
                let id = seen::shown(card, index)[1];
                self.noted.push(Noted { index, id, read: [state, past], alias: self.aliases[index] });
            }
            Operation::WarmOn { index, id, flag, state } => self.given_back(card, index, (id, flag, state))?,
            _ => {}
        }
        self.see_aliases(card);
        Ok(())
    }

    /// The alias that each node tests or uses; where it has none it keeps the last.
    fn see_aliases(&mut self, card: &Card) {
        for (index, alias) in self.aliases.iter_mut().enumerate() {
            let [_, _, seen, ..] = seen::shown(card, index);
            *alias = if seen == 0 { *alias } else { seen };
        }
    }

    fn given_back(&mut self, card: &Card, index: usize, (id, flag, state): (u64, u8, u64)) -> Result<(), String> {
        let Some(&noted) = self.noted.iter().rev().find(|noted| noted.is_given(id, flag, state)) else { return Ok(()) };
        let [_, _, alias, ..] = seen::shown(card, index);
        if alias != noted.alias {
            return Err(format!(
                "node {index} has alias {alias:03X}, and had {:03X} when card_read_out(table, {}, out) gave what it is given back",
                noted.alias, noted.index
            ));
        }
        in_full(card, index, id, alias)?;
        let flag = usize::from(flag);
        self.counts.back[flag] += 1;
        self.counts.elsewhere[flag] += usize::from(index != noted.index);
        Ok(())
    }
}

/// Whether a node that was just switched on tests its alias in full, in a copy of the table: four CIDs, nothing for 200 ticks, after
/// the next the RID, and only then it uses the alias.
pub fn in_full(card: &Card, index: usize, id: u64, alias: u64) -> Result<(), String> {
    let mut card = card.clone();
    for other in 0..Segment::PLACES {
        while card.deliver(other) == 0 {}
    }
    for number in [7, 6, 5, 4] {
        let section = id >> (12 * (number - 4)) & 0xFFF;
        sends(&mut card, index, Ok(0x1000_0000 | number << 24 | section << 12 | alias))?;
    }
    for _ in 0..Node::WAIT {
        sends(&mut card, index, Err(4))?;
        card.tick();
    }
    sends(&mut card, index, Ok(0x1070_0000 | alias))?;
    let seen = seen::shown(&card, index);
    if !seen::is_in(State::Reserved, &seen) || seen[2] != alias {
        return Err(format!(
            "its RID leaves, and then card_look(table, {index}, seen) shows {seen:X?}, not Reserved with {alias:03X}"
        ));
    }
    Ok(())
}

/// A send of a node that shall be in Testing: a frame with this header leaves, or it is refused by this number.
fn sends(card: &mut Card, index: usize, expected: Result<u64, u64>) -> Result<(), String> {
    let seen: Seen = seen::shown(card, index);
    if !seen::is_in(State::Testing, &seen) {
        return Err(format!(
            "its alias is not tested in full: card_look(table, {index}, seen) shows {seen:X?} before the RID has left"
        ));
    }
    let sent = put_out(|sent| card.send(index, sent));
    let right = expected.map_or_else(|code| (code, [MARK; 3]), |header| (0, [header, 0, 0]));
    alike(|| format!("its alias is tested: card_send(table, {index}, sent)"), ["answers", "and shall answer"], [sent, right])
}

/// Whether 01, and 0A with flag 0, do the same to a table, where an operation is one of them. They are tried in copies.
pub fn same_as_01(card: &Card, operation: &Operation) -> Result<(), String> {
    let (index, id, state) = match *operation {
        Operation::PowerOn { index, id } => (index, id, id.rotate_left(29)),
        Operation::WarmOn { index, id, flag: 0, state } => (index, id, state),
        _ => return Ok(()),
    };
    let (mut by_01, mut by_0a) = (card.clone(), card.clone());
    let codes = [by_01.power_on(index, id), by_0a.warm_on(index, id, 0, state)];
    let names = ["by card_power_on", "by card_warm_on with flag 0"];
    alike(|| format!("{operation} is"), names, codes.map(told))?;
    for (at, (word, other)) in by_01.words().iter().zip(by_0a.words()).enumerate() {
        alike(|| format!("after {operation} table[{at}]"), names, [word, other])?;
    }
    Ok(())
}

#[cfg(test)]
mod tests {
    use super::*;
    use reference::generate::draft::Draft;

    const ID: u64 = 0x0501_0101_0101;

    /// Sees a whole list.
    fn seen_of(list: &[Operation]) -> Result<Counts, String> {
        let (mut card, mut notes) = (Card::new(), Notes::default());
        for operation in list {
            let answer = operation.proved(&mut card);
            notes.see(operation, answer, &card)?;
        }
        Ok(notes.counts)
    }

    /// Node 3 with its second alias, read out; what was read.
    fn read_out() -> (Vec<Operation>, u64) {
        let on = Operation::PowerOn { index: 3, id: ID };
        let mut draft = Draft::new();
        let state = draft.power_on(3, ID).fail(3).segment.read_out(3).expect("it is on").state;
        (vec![on, Operation::Fail { index: 3 }, Operation::ReadOut { index: 3 }], state)
    }

    #[test]
    fn what_is_given_back_counts_by_flag_and_index() {
        let back = |index, flag, state| Operation::WarmOn { index, id: ID, flag, state };
        let (list, state) = read_out();
        let other = Operation::PowerOn { index: 3, id: ID + 1 };
        let cases = [
            (vec![back(3, 1, state)], [0, 1], [0, 0]),
            (vec![other, back(9, 1, state)], [0, 1], [0, 1]),
            (vec![back(3, 1, state ^ 1)], [0, 0], [0, 0]),
            (vec![back(3, 0, state)], [0, 0], [0, 0]),
            (vec![other, Operation::ReadOut { index: 3 }, back(3, 1, state)], [0, 1], [0, 0]),
        ];
        for (more, back, elsewhere) in cases {
            let counts = seen_of(&[list.clone(), more].concat()).expect("the alias is the one it had");
            assert_eq!((counts.back, counts.elsewhere), (back, elsewhere));
        }
    }

    /// What no operation does: a node that had another alias, one that uses its alias at once, and one that needs no fourth CID.
    #[test]
    fn another_alias_and_a_test_that_is_not_in_full_are_found() {
        let (list, state) = read_out();
        let (mut card, mut notes) = (Card::new(), Notes::default());
        for operation in &list {
            let answer = operation.proved(&mut card);
            notes.see(operation, answer, &card).expect("nothing is given back");
        }
        notes.noted[0].alias ^= 1;
        assert_eq!(card.warm_on(3, ID, 1, state), 0);
        let back = Operation::WarmOn { index: 3, id: ID, flag: 1, state };
        let what = notes.see(&back, (0, [MARK; 3]), &card).expect_err("it had another alias");
        assert!(what.starts_with("node 3 has alias 4F8, and had 4F9"), "{what}");
        assert_eq!(in_full(&card, 3, ID, 0x4F8), Ok(()));
        assert!(in_full(&card, 3, ID, 0x4F9).is_err() && in_full(&card, 3, ID + 1, 0x4F8).is_err());
        assert_eq!(card.send(3, &mut [0; 3]), 0);
        assert!(in_full(&card, 3, ID, 0x4F8).is_err(), "CID 7 has left");
        let mut draft = Draft::permitted(&[ID]);
        let mut card = Card::new();
        draft.list.drain(..).for_each(|command| _ = Operation::from(command).proved(&mut card));
        assert!(in_full(&card, 0, ID, 0x263).expect_err("it is Permitted").starts_with("its alias is not tested in full"));
    }

    #[test]
    fn tables_by_01_and_by_0a_with_flag_0_are_compared() {
        let mut card = Card::new();
        assert_eq!(card.power_on(3, ID), 0);
        for (index, id) in [(3, ID), (4, ID), (4, 1), (4, 0), (24, 1)] {
            for operation in [Operation::PowerOn { index, id }, Operation::WarmOn { index, id, flag: 0, state: 7 }] {
                assert_eq!(same_as_01(&card, &operation), Ok(()));
            }
        }
    }

    #[test]
    fn what_was_never_met_is_named() {
        let mut counts = Counts::default();
        assert_eq!(counts.missing().len(), WIDE.len() + 2);
        counts.add(&Counts { back: [2, 2], elsewhere: [1, 2], wide: WIDE.map(|met| (met, 1)).into() });
        assert_eq!(
            (counts.missing(), counts.wide()),
            (vec!["given back with flag 1 in its place and at another index".into()], 12)
        );
        counts.add(&Counts { back: [0, 1], ..Counts::default() });
        assert_eq!(counts.missing(), [""; 0]);
    }
}
