//! Single calls, the proved ones and the same in plain Rust: power-on beside 23 others, looking up in a full map, noting, reading and
//! writing headers and GridConnect text, choices, read-outs and warm power-ons. A call of the library goes through a pointer, which
//! the linker fills in; so does one in plain Rust, which is not inlined either.

pub mod turns;
pub mod warm;

use crate::card::{read_grid, read_header, write_grid, write_header, Card, ProvedMap, GRID_TEXT_MAX};
use crate::operations::headers::{parts, write};
use crate::operations::put_out;
use crate::operations::seen::words_but_kind;
use reference::generate::grid_texts::{any_header, text_of};
use reference::generate::prng::Prng;
use reference::{gridconnect, header};
use reference::{Alias, AliasMap, Frame, Refusal, Segment};
use std::hint::black_box;

/// A call of each side on the operand with this number. Both give something to be looked at, so that no work is left out.
pub struct Row {
    pub name: &'static str,
    pub proved: Box<dyn FnMut(u64)>,
    pub plain: Box<dyn FnMut(u64)>,
}

/// The alias and the Node ID of the entry with this number, and the header and data of its AMD.
fn entry(number: u64) -> (u16, u64) {
    (0x100 + number as u16, 0x0501_0101_0100 + number)
}

fn amd(number: u64) -> (u32, u64) {
    let (alias, id) = entry(number);
    (0x1070_1000 + u32::from(alias), id << 16)
}

/// Entries 0 to 63, the oldest first.
fn full() -> (ProvedMap, AliasMap) {
    let (mut proved, mut plain) = (ProvedMap::new(), AliasMap::new());
    for number in 0..64 {
        let (header, bytes) = amd(number);
        assert_eq!(proved.note(0, header, 6, bytes), 0);
        assert_eq!(plain.note(&Frame::with_node_id(header, entry(number).1)), Ok(()));
    }
    (proved, plain)
}

/// As the call for C has it: the answer is 0 or the refusal's number; what a look-up found and how many entries it compared, or the
/// parts or the frame that were read, or the header or the length that was written, or who was chosen, or the frame that left, go
/// into words that are lent.
fn as_for_c<const N: usize>(answer: Result<[u64; N], Refusal>, lent: &mut [u64; N]) -> u64 {
    match answer {
        Ok(words) => {
            *lent = words;
            0
        }
        Err(refusal) => refusal.number().into(),
    }
}

#[inline(never)]
fn plain_id_of(map: &AliasMap, alias: u16, found: &mut [u64; 2]) -> u64 {
    as_for_c(map.node_id_of(Alias(alias)).map(|hit| [hit.value, hit.compared as u64]), found)
}

#[inline(never)]
fn plain_alias_of(map: &AliasMap, id: u64, found: &mut [u64; 2]) -> u64 {
    as_for_c(map.alias_of(id).map(|hit| [hit.value.0.into(), hit.compared as u64]), found)
}

#[inline(never)]
fn plain_note(map: &mut AliasMap, frame: &Frame) -> Result<(), Refusal> {
    map.note(frame)
}

#[inline(never)]
fn plain_read(header: u32, words: &mut [u64; 7]) -> u64 {
    as_for_c(header::read(header).map(parts), words)
}

#[inline(never)]
fn plain_write(bit: u8, class: u8, field: u16, alias: u16, header: &mut [u64; 1]) -> u64 {
    as_for_c(write(bit, class, field, alias).map(|written| [written]), header)
}

#[inline(never)]
fn plain_write_grid(text: &mut [u8], header: u32, len: u8, bytes: u64, written: &mut [u64; 1]) -> u64 {
    as_for_c(gridconnect::write(text, header, len, bytes.to_be_bytes()).map(|length| [length as u64]), written)
}

#[inline(never)]
fn plain_read_grid(text: &[u8], frame: &mut [u64; 3]) -> u64 {
    as_for_c(gridconnect::read(text).map(words_but_kind), frame)
}

/// Looking `key` up in a full map, which gives these two words, or 13 where there are none.
fn looking_up<K: Copy + 'static>(
    name: &'static str,
    (key, words): (K, Option<[u64; 2]>),
    proved_call: impl Fn(&ProvedMap, K, &mut [u64; 2]) -> u64 + 'static,
    plain_call: fn(&AliasMap, K, &mut [u64; 2]) -> u64,
) -> Row {
    let plain_call = black_box(plain_call);
    let (proved, plain) = full();
    let (mut found, mut plain_found) = ([0; 2], [0; 2]);
    let answer = words.map_or((13, [0; 2]), |words| (0, words));
    assert_eq!((proved_call(&proved, key, &mut found), found), answer);
    assert_eq!((plain_call(&plain, key, &mut plain_found), plain_found), answer);
    Row {
        name,
        proved: Box::new(move |_| {
            black_box(proved_call(&proved, black_box(key), &mut found));
        }),
        plain: Box::new(move |_| {
            black_box(plain_call(&plain, black_box(key), &mut plain_found));
        }),
    }
}

/// What looking up the entry with this number gives in a full map: this value, and its place from the oldest, which is 1.
fn at_its_place(number: u64, value: u64) -> Option<[u64; 2]> {
    (number < 64).then_some([value, number + 1])
}

fn by_alias(name: &'static str, number: u64) -> Row {
    let (alias, id) = entry(number);
    looking_up(name, (alias, at_its_place(number, id)), ProvedMap::id_of, plain_id_of)
}

fn by_id(name: &'static str, number: u64) -> Row {
    let (alias, id) = entry(number);
    looking_up(name, (id, at_its_place(number, alias.into())), ProvedMap::alias_of, plain_alias_of)
}

/// AMDs noted in a full map, `answered` so each time: those of the entries from `first` on, again and again.
fn noting(name: &'static str, first: u64, answered: u64) -> Row {
    let (mut proved, mut plain) = full();
    let frame = move |turn: u64| amd(first + turn % 64);
    let plain_call: fn(&mut AliasMap, &Frame) -> Result<(), Refusal> = black_box(plain_note);
    Row {
        name,
        proved: Box::new(move |turn| {
            let (header, bytes) = frame(turn);
            assert_eq!(proved.note(0, header, 6, bytes), answered);
        }),
        plain: Box::new(move |turn| {
            let (header, bytes) = frame(turn);
            let noted = plain_call(&mut plain, &Frame { header, kind: 0, len: 6, data: bytes.to_be_bytes() });
            assert_eq!(noted.is_ok(), answered == 0);
        }),
    }
}

#[inline(never)]
fn plain_power_on(segment: &mut Segment, index: usize, id: u64) -> u64 {
    segment.power_on(index, id).map_or_else(|refusal| refusal.number().into(), |()| 0)
}

/// Power-ons with all 24 nodes on, `answered` so each time: at the first `nodes` indexes in turn, `under` the Node ID of this index.
fn powering_on(name: &'static str, nodes: u64, under: fn(u64) -> u64, answered: u64) -> Row {
    let (mut proved, mut plain) = (Card::new(), Segment::new());
    let id = |number: u64| 0x0501_0101_0100 + number;
    let plain_call: fn(&mut Segment, usize, u64) -> u64 = black_box(plain_power_on);
    for number in 0..Segment::PLACES {
        assert_eq!(proved.power_on(number, id(number as u64)), 0);
        assert_eq!(plain_call(&mut plain, number, id(number as u64)), 0);
    }
    let operands = move |turn: u64| (black_box(turn % nodes) as usize, id(under(turn % nodes)));
    Row {
        name,
        proved: Box::new(move |turn| {
            let (index, id) = operands(turn);
            assert_eq!(proved.power_on(index, id), answered);
        }),
        plain: Box::new(move |turn| {
            let (index, id) = operands(turn);
            assert_eq!(plain_call(&mut plain, index, id), answered);
        }),
    }
}

/// A header of each kind, some with bit 28 as 0.
const HEADERS: [u32; 8] =
    [0x1705_0263, 0x0070_0263, 0x1070_1263, 0x0070_2263, 0x1070_3263, 0x0071_2263, 0x1070_4263, 0x095B_4263];

fn reading() -> Row {
    let plain_call: fn(u32, &mut [u64; 7]) -> u64 = black_box(plain_read);
    for header in HEADERS {
        assert_eq!(put_out(|words| read_header(header, words)), put_out(|words| plain_call(header, words)));
    }
    let (mut words, mut plain_words) = ([0; 7], [0; 7]);
    Row {
        name: "header read, eight kinds",
        proved: Box::new(move |turn| {
            black_box(read_header(black_box(HEADERS[turn as usize % 8]), &mut words));
        }),
        plain: Box::new(move |turn| {
            black_box(plain_call(black_box(HEADERS[turn as usize % 8]), &mut plain_words));
        }),
    }
}

/// What the same headers are written from: bit 28, type, field and alias.
fn written_from(header: u32) -> (u8, u8, u16, u16) {
    let [class, field, alias, .., bit] = put_out(|words| read_header(header, words)).1;
    (bit as u8, class as u8, field as u16, alias as u16)
}

fn writing() -> Row {
    let operands = HEADERS.map(written_from);
    let plain_call: fn(u8, u8, u16, u16, &mut [u64; 1]) -> u64 = black_box(plain_write);
    for ((bit, class, field, alias), header) in operands.into_iter().zip(HEADERS) {
        let written = (0, [header.into()]);
        assert_eq!(put_out(|words| write_header(bit, class, field, alias, words)), written);
        assert_eq!(put_out(|words| plain_call(bit, class, field, alias, words)), written);
    }
    let (mut words, mut plain_words) = ([0; 1], [0; 1]);
    Row {
        name: "header written, the same",
        proved: Box::new(move |turn| {
            let (bit, class, field, alias) = operands[black_box(turn) as usize % 8];
            black_box(write_header(bit, class, field, alias, &mut words));
        }),
        plain: Box::new(move |turn| {
            let (bit, class, field, alias) = operands[black_box(turn) as usize % 8];
            black_box(plain_call(bit, class, field, alias, &mut plain_words));
        }),
    }
}

/// Different frames by chance, of these lengths in turn: header, length and data. There are so many that a branch cannot be learnt
/// from those before, as on a bus.
fn grid_frames(lens: &[u8]) -> Vec<(u32, u8, u64)> {
    const FRAMES: usize = 6_400;
    let mut rng = Prng::new(7);
    (0..FRAMES).map(|number| (any_header(&mut rng), lens[number % lens.len()], rng.number())).collect()
}

fn writing_grid(name: &'static str, lens: &[u8]) -> Row {
    let frames = grid_frames(lens);
    let plain_call: fn(&mut [u8], u32, u8, u64, &mut [u64; 1]) -> u64 = black_box(plain_write_grid);
    let (mut text, mut plain_text) = ([0; GRID_TEXT_MAX], [0; GRID_TEXT_MAX]);
    for &(header, len, bytes) in &frames {
        let written = put_out(|words| write_grid(&mut text, header, len, bytes, words));
        assert_eq!(written, put_out(|words| plain_call(&mut plain_text, header, len, bytes, words)));
        assert_eq!((written.0, text), (0, plain_text));
    }
    let plain_frames = frames.clone();
    let (mut words, mut plain_words) = ([0; 1], [0; 1]);
    Row {
        name,
        proved: Box::new(move |turn| {
            let (header, len, bytes) = frames[black_box(turn) as usize % frames.len()];
            black_box(write_grid(&mut text, header, len, bytes, &mut words));
        }),
        plain: Box::new(move |turn| {
            let (header, len, bytes) = plain_frames[black_box(turn) as usize % plain_frames.len()];
            black_box(plain_call(&mut plain_text, header, len, bytes, &mut plain_words));
        }),
    }
}

/// The texts of the same frames.
fn reading_grid(name: &'static str, lens: &[u8]) -> Row {
    let text = |(header, len, bytes): (u32, u8, u64)| text_of(header, &bytes.to_be_bytes()[..len.into()]);
    let texts: Vec<Vec<u8>> = grid_frames(lens).into_iter().map(text).collect();
    let plain_call: fn(&[u8], &mut [u64; 3]) -> u64 = black_box(plain_read_grid);
    for text in &texts {
        let read = put_out(|words| read_grid(text, words));
        assert_eq!((read.0, read), (0, put_out(|words| plain_call(text, words))));
    }
    let plain_texts = texts.clone();
    let (mut words, mut plain_words) = ([0; 3], [0; 3]);
    Row {
        name,
        proved: Box::new(move |turn| {
            black_box(read_grid(&texts[black_box(turn) as usize % texts.len()], &mut words));
        }),
        plain: Box::new(move |turn| {
            black_box(plain_call(&plain_texts[black_box(turn) as usize % plain_texts.len()], &mut plain_words));
        }),
    }
}

/// Looking up in a full map, each way: its first entry, its last, and one that is absent.
pub fn look_ups() -> [[Row; 3]; 2] {
    [
        [by_alias("map, first alias", 0), by_alias("map, last alias", 63), by_alias("map, absent alias", 64)],
        [by_id("map, first Node ID", 0), by_id("map, last Node ID", 63), by_id("map, absent Node ID", 64)],
    ]
}

/// All other calls.
pub fn others() -> [Row; 10] {
    let each: Vec<u8> = (0..=8).collect();
    [
        noting("full map, oldest renewed", 0, 0),
        noting("full map, refused by 12", 64, 12),
        reading(),
        writing(),
        writing_grid("GridConnect written, 0 to 8", &each),
        writing_grid("GridConnect written, 8 bytes", &[8]),
        reading_grid("GridConnect read, 0 to 8", &each),
        reading_grid("GridConnect read, 8 bytes", &[8]),
        powering_on("power-on, the own Node ID", 24, |number| number, 0),
        powering_on("power-on, refused by 15", 23, |_| 23, 15),
    ]
}
