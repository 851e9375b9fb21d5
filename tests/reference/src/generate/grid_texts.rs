//! Frames and GridConnect texts (A.7) for tests: extreme headers, texts in upper, lower and mixed case,
//! and what a change of a text makes of it.

use super::prng::Prng;
use crate::header::{HEADER_MAX, RESERVED_BIT};

/// How the letters of a text are written.
#[derive(Clone, Copy, Debug, PartialEq, Eq, PartialOrd, Ord)]
pub enum Letters {
    Upper,
    Lower,
    Mixed,
}

impl Letters {
    pub const ALL: [Letters; 3] = [Letters::Upper, Letters::Lower, Letters::Mixed];

    /// How the digits of a text are written, if some of them are letters. `X` and `N` are no digits.
    pub fn of(text: &[u8]) -> Option<Letters> {
        let is_digit = |byte: &&u8| byte.is_ascii_hexdigit();
        let upper = text.iter().filter(is_digit).any(u8::is_ascii_uppercase);
        let lower = text.iter().filter(is_digit).any(u8::is_ascii_lowercase);
        match (upper, lower) {
            (true, true) => Some(Letters::Mixed),
            (true, false) => Some(Letters::Upper),
            (false, true) => Some(Letters::Lower),
            (false, false) => None,
        }
    }

    /// The text with its digits written so; mixed is one in lower case and the next in upper.
    fn write(self, text: &mut [u8]) {
        let mut lower = self != Letters::Upper;
        for byte in text.iter_mut().filter(|byte| matches!(byte, b'A'..=b'F')) {
            if lower {
                byte.make_ascii_lowercase();
            }
            lower ^= self == Letters::Mixed;
        }
    }
}

/// A header with a letter in every place that can have one.
const ALL_LETTERS: u32 = 0x1ABC_DEFA;

/// Headers of 29 bits: the least and the greatest, with alias 0, with bit 28 as 0 and as 1, and the CID 7
/// of alias 263.
pub const HEADERS: [u32; 9] = [
    0,
    HEADER_MAX,
    RESERVED_BIT,
    RESERVED_BIT - 1,
    HEADER_MAX - 0xFFF,
    0xFFF,
    0x1705_0263,
    0x0705_0263,
    ALL_LETTERS,
];

/// Headers of more than 29 bits.
pub const LARGE_HEADERS: [u32; 6] =
    [HEADER_MAX + 1, 0x2000_0263, 0x3705_0263, 1 << 30, 1 << 31, u32::MAX];

/// Any header of 29 bits.
pub fn any_header(rng: &mut Prng) -> u32 {
    rng.number() as u32 & HEADER_MAX
}

/// The text of a frame in upper case.
pub fn text_of(header: u32, bytes: &[u8]) -> Vec<u8> {
    let data: String = bytes.iter().map(|byte| format!("{byte:02X}")).collect();
    format!(":X{header:08X}N{data};").into_bytes()
}

/// A hundred texts that a reader shall take. Each length comes with each sort of letters, with extreme
/// headers and with others by chance.
pub fn texts(rng: &mut Prng) -> Vec<Vec<u8>> {
    let kinds = Letters::ALL.iter().flat_map(|&letters| (0..=8).map(move |len| (letters, len)));
    let texts = kinds.cycle().enumerate().map(|(number, (letters, len))| {
        let header = match number {
            0..27 => ALL_LETTERS,
            27..54 => HEADERS[(number + number / 9) % HEADERS.len()],
            _ => any_header(rng),
        };
        let mut text = text_of(header, &rng.number().to_be_bytes()[..len]);
        letters.write(&mut text);
        text
    });
    texts.take(100).collect()
}

/// A text of any length from 0 to 9 bytes and of any header, in any letters; in places another byte stands,
/// mostly one that texts have.
pub fn near_text(rng: &mut Prng) -> Vec<u8> {
    let len = rng.below(10);
    let bytes: Vec<u8> = (0..len).map(|_| rng.byte()).collect();
    let mut text = text_of(any_header(rng), &bytes);
    for byte in &mut text {
        if rng.percent(20) && byte.is_ascii_hexdigit() {
            byte.make_ascii_lowercase();
        }
        if rng.percent(3) {
            *byte = rng.pick(b":XN;xn0123456789ABCDEFabcdefGg \n");
        }
    }
    text
}

/// A text with each of its bytes replaced by each of the 256 values, among them the byte itself.
pub fn replaced(text: &[u8]) -> impl Iterator<Item = (usize, u8, Vec<u8>)> + '_ {
    (0..text.len()).flat_map(move |at| {
        (0..=u8::MAX).map(move |byte| {
            let mut other = text.to_vec();
            other[at] = byte;
            (at, byte, other)
        })
    })
}

/// A text with each of the 256 values between any two of its bytes, before it and behind it. Every byte
/// of the text is doubled by one of them.
pub fn inserted(text: &[u8]) -> impl Iterator<Item = Vec<u8>> + '_ {
    (0..=text.len()).flat_map(move |at| {
        (0..=u8::MAX).map(move |byte| [&text[..at], &[byte], &text[at..]].concat())
    })
}

/// A text with each of its bytes left out.
pub fn left_out(text: &[u8]) -> impl Iterator<Item = Vec<u8>> + '_ {
    (0..text.len()).map(move |at| [&text[..at], &text[at + 1..]].concat())
}

/// What a cut leaves of a text at either end: every beginning and every end but the whole. What was cut
/// off stands beside it in memory.
pub fn cuts(text: &[u8]) -> impl Iterator<Item = &[u8]> {
    let begins = (0..text.len()).map(|at| &text[..at]);
    begins.chain((1..=text.len()).map(|at| &text[at..]))
}
