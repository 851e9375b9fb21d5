//! What a writer of text makes of the bytes that it is lent, and of those beside them; and how answers and texts are told.

use super::Answered;
use crate::card::MARK;
use std::fmt;

/// More bytes than the longest text has.
pub const MOST_ROOM: usize = 40;

/// So many bytes on either side of those that are lent.
const BESIDE: usize = 8;

type Bytes = [u8; BESIDE + MOST_ROOM + BESIDE];

/// The bytes before a call: no byte of any text, and each another.
fn fresh() -> Bytes {
    std::array::from_fn(|at| 0x80 | at as u8)
}

/// What a writer answered that was lent so many bytes, and then all of them, with those on either side.
#[derive(PartialEq)]
pub struct Written {
    room: usize,
    pub answer: Answered<1>,
    all: Bytes,
}

impl Written {
    pub fn into_room(room: usize, write: impl FnOnce(&mut [u8]) -> Answered<1>) -> Written {
        let mut all = fresh();
        let answer = write(&mut all[BESIDE..BESIDE + room]);
        Written { room, answer, all }
    }

    /// As it shall be where this text fills the room.
    pub fn exactly(text: &[u8]) -> Written {
        Written::into_room(text.len(), |room| {
            room.copy_from_slice(text);
            (0, [text.len() as u64])
        })
    }

    /// Nothing where it was refused.
    pub fn text(&self) -> &[u8] {
        let (code, [length]) = self.answer;
        &self.all[BESIDE..][..if code == 0 { length as usize } else { 0 }]
    }

    /// No byte beside the text has changed.
    pub fn keeps_the_rest(&self) -> bool {
        let (fresh, end) = (fresh(), BESIDE + self.text().len());
        self.all[..BESIDE] == fresh[..BESIDE] && self.all[end..] == fresh[end..]
    }

    /// The bytes, with a point for each that is as it was.
    fn drawn(&self) -> Vec<String> {
        let one = |(byte, before): (&u8, &u8)| match byte {
            byte if byte == before => ".".to_string(),
            b'.' => "\\056".to_string(),
            byte => in_c(&[*byte]),
        };
        self.all.iter().zip(&fresh()).map(one).collect()
    }
}

impl fmt::Debug for Written {
    fn fmt(&self, out: &mut fmt::Formatter) -> fmt::Result {
        match self.answer {
            (0, [length]) => write!(out, "length {length}")?,
            (code, [MARK]) => write!(out, "refused by {code}")?,
            (code, [word]) => write!(out, "refused by {code} with {word} in written")?,
        }
        let drawn = self.drawn();
        let (before, rest) = drawn.split_at(BESIDE);
        let (lent, behind) = rest.split_at(self.room);
        write!(out, " and bytes {} [{}] {} (lent [ ], as before .)", before.concat(), lent.concat(), behind.concat())
    }
}

/// What a reader answered.
#[derive(PartialEq)]
pub struct Read(pub Answered<3>);

impl fmt::Debug for Read {
    fn fmt(&self, out: &mut fmt::Formatter) -> fmt::Result {
        match self.0 {
            (0, [header, len, bytes]) => write!(out, "header 0x{header:08X}, length {len}, data 0x{bytes:016X}"),
            (code, [MARK, MARK, MARK]) => write!(out, "refused by {code}"),
            (code, words) => write!(out, "refused by {code} with {words:X?} in frame"),
        }
    }
}

/// Bytes as C has them in quotes.
pub fn in_c(text: &[u8]) -> String {
    let one = |&byte: &u8| match byte {
        b'"' | b'\\' => format!("\\{}", char::from(byte)),
        b' '..=b'~' => char::from(byte).to_string(),
        _ => format!("\\{byte:03o}"),
    };
    text.iter().map(one).collect()
}

#[cfg(test)]
mod tests {
    use super::*;

    #[test]
    fn a_byte_that_has_changed_beside_the_text_is_found() {
        let after = |answer, changed: usize| {
            let mut written = Written::into_room(13, |_| answer);
            written.all[changed] = 0;
            written.keeps_the_rest()
        };
        assert_eq!([7, 8, 19, 20, 21].map(|changed| after((0, [12]), changed)), [false, true, true, false, false]);
        assert_eq!([7, 8, 20, 55].map(|changed| after((17, [MARK]), changed)), [false; 4]);
    }

    #[test]
    fn bytes_are_told_by_what_has_changed() {
        let told = |answer, bytes: &[u8]| {
            let written = Written::into_room(3, |room| {
                room[..bytes.len()].copy_from_slice(bytes);
                answer
            });
            format!("{written:?}")
        };
        let behind = ".".repeat(45);
        let bytes = |lent| format!("and bytes ........ [{lent}] {behind} (lent [ ], as before .)");
        assert_eq!(told((0, [2]), b":X"), format!("length 2 {}", bytes(":X.")));
        assert_eq!(told((17, [MARK]), b"\0.\""), format!("refused by 17 {}", bytes("\\000\\056\\\"")));
        assert_eq!(told((9, [0]), b""), format!("refused by 9 with 0 in written {}", bytes("...")));
    }

    #[test]
    fn a_frame_is_told_or_the_refusal() {
        let told = |answer| format!("{:?}", Read(answer));
        assert_eq!(told((0, [0x705_0263, 1, 0xAB << 56])), "header 0x07050263, length 1, data 0xAB00000000000000");
        assert_eq!(told((16, [MARK; 3])), "refused by 16");
        assert!(told((16, [MARK, 0, MARK])).starts_with("refused by 16 with [9E3779B97F4A7C15, 0, "));
    }

    #[test]
    fn a_text_is_told_as_c_has_it() {
        assert_eq!(in_c(b":X\\\"\n\x80A;"), ":X\\\\\\\"\\012\\200A;");
    }
}
