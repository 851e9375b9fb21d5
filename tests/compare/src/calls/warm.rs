//! Read-outs and warm power-ons (A.9), the proved ones and the same in plain Rust, with all 24 nodes on.

use super::{as_for_c, Row};
use crate::card::Card;
use crate::operations::put_out;
use crate::operations::warm::words;
use reference::Segment;
use std::hint::black_box;

const PLACES: u64 = Segment::PLACES as u64;

fn id(number: u64) -> u64 {
    0x0501_0101_0100 + number
}

/// A state of the generator for each turn.
fn state(turn: u64) -> u64 {
    turn.wrapping_mul(0x9E37_79B9_7F4A_7C15) >> 16
}

#[inline(never)]
fn plain_read_out(segment: &Segment, index: usize, out: &mut [u64; 2]) -> u64 {
    as_for_c(segment.read_out(index).map(words), out)
}

#[inline(never)]
fn plain_warm_on(segment: &mut Segment, index: usize, id: u64, flag: u8, state: u64) -> u64 {
    segment.warm_on(index, id, flag, state).map_or_else(|refusal| refusal.number().into(), |()| 0)
}

/// Both with all 24 nodes on, each second one by a warm power-on.
fn all_on() -> (Card, Segment) {
    let (mut proved, mut plain) = (Card::new(), Segment::new());
    for number in 0..PLACES {
        let (index, flag) = (number as usize, (number % 2) as u8);
        assert_eq!(proved.warm_on(index, id(number), flag, state(number)), 0);
        assert_eq!(plain.warm_on(index, id(number), flag, state(number)), Ok(()));
    }
    (proved, plain)
}

/// The 24 nodes in turn.
fn reading_out(name: &'static str) -> Row {
    let (proved, plain) = all_on();
    let plain_call: fn(&Segment, usize, &mut [u64; 2]) -> u64 = black_box(plain_read_out);
    for index in 0..Segment::PLACES {
        let read = put_out(|out| proved.read_out(index, out));
        assert_eq!((read.0, read), (0, put_out(|out| plain_call(&plain, index, out))), "{name}");
    }
    let (mut out, mut plain_out) = ([0; 2], [0; 2]);
    Row {
        name,
        proved: Box::new(move |turn| {
            black_box(proved.read_out(black_box(turn % PLACES) as usize, black_box(&mut out)));
        }),
        plain: Box::new(move |turn| {
            black_box(plain_call(&plain, black_box(turn % PLACES) as usize, black_box(&mut plain_out)));
        }),
    }
}

/// Power-ons of the 24 nodes in turn under their own Node IDs with this flag, `answered` so each time.
fn warming_on(name: &'static str, flag: u8, answered: u64) -> Row {
    let (mut proved, mut plain) = all_on();
    let plain_call: fn(&mut Segment, usize, u64, u8, u64) -> u64 = black_box(plain_warm_on);
    let operands = |turn: u64| (black_box(turn % PLACES) as usize, id(turn % PLACES), black_box(state(turn)));
    Row {
        name,
        proved: Box::new(move |turn| {
            let (index, id, state) = operands(turn);
            assert_eq!(proved.warm_on(index, id, black_box(flag), state), answered);
        }),
        plain: Box::new(move |turn| {
            let (index, id, state) = operands(turn);
            assert_eq!(plain_call(&mut plain, index, id, black_box(flag), state), answered);
        }),
    }
}

pub fn rows() -> [Row; 3] {
    [reading_out("read-out"), warming_on("warm power-on", 1, 0), warming_on("warm power-on, refused by 18", 2, 18)]
}
