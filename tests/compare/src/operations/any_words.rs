//! Tables of any words, which no operation has left: a read-out and a warm power-on must return there and write within what is lent. No
//! more is owed on them.

use super::list;
use crate::card::{Card, MARK};
use reference::alias::MAX_48;
use reference::generate::prng::Prng;

/// So many tables are made, with so many calls on each.
const TABLES: usize = 1_000;
const CALLS: usize = 20;

/// How many calls came back, on tables of any words.
pub fn try_all(seed: u64) -> Result<usize, String> {
    let mut rng = Prng::new(seed);
    for _ in 0..TABLES {
        let mut card = any(&mut rng);
        (0..CALLS).try_for_each(|_| call(&mut rng, &mut card))?;
    }
    Ok(TABLES * CALLS)
}

/// A table of words by chance; or one after a list, with some words changed.
fn any(rng: &mut Prng) -> Card {
    let mut card = Card::new();
    let share = rng.pick(&[1, 10, 100]);
    if share < 100 {
        list::random(rng).iter().take(300).for_each(|operation| _ = operation.proved(&mut card));
    }
    for word in card.words_mut() {
        if rng.percent(share) {
            let any = rng.number();
            *word = rng.pick(&[0, 1, any, any & MAX_48, any % 256, MAX_48, u64::MAX, *word ^ 1 << (any % 64)]);
        }
    }
    card
}

fn call(rng: &mut Prng, card: &mut Card) -> Result<(), String> {
    let any = rng.number();
    let index = rng.pick(&[0, 23, 24, usize::MAX, any as usize % 24, any as usize % 24]);
    let mut out = [[MARK; 2]; 3];
    card.read_out(index, &mut out[1]);
    let (id, flag, state) = (any >> rng.below(64), rng.pick(&[0, 1, 1, 2, 255]), rng.number() >> rng.below(64));
    card.warm_on(index, id, flag, state);
    card.read_out(index, &mut out[1]);
    if !card.guards_hold() || [out[0], out[2]] != [[MARK; 2]; 2] {
        return Err(format!(
            "on a table of any words card_read_out(table, {index}, out) or card_warm_on(table, {index}, 0x{id:X}, {flag}, 0x{state:X}) \
             writes beside what it is lent"
        ));
    }
    Ok(())
}

#[test]
fn tables_of_any_words_are_made_in_different_ways() {
    let mut rng = Prng::new(1);
    let cards: Vec<Card> = (0..60).map(|_| any(&mut rng)).collect();
    let zeros = |card: &Card| card.words().iter().filter(|&&word| word == 0).count();
    let counts: Vec<usize> = cards.iter().map(zeros).collect();
    assert!(counts.iter().any(|&count| count > 900) && counts.iter().any(|&count| count < 400), "{counts:?}");
}
