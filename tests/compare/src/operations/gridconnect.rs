//! GridConnect text (A.7): frames of every length are written, with extreme headers and others, into rooms that are too short, exact
//! and longer. A hundred texts are read, with every byte replaced, doubled and left out, with any byte added at any place, and cut
//! anywhere; and others by chance. Each frame that is written is read again, and each text that is read is written back.

use super::grid_marks::Counts;
use super::grid_text::{in_c, Read, Written, MOST_ROOM};
use super::seen::words_but_kind;
use super::{alike, answered, put_out, same};
use crate::card::{read_grid, write_grid};
use reference::generate::grid_texts::{self, any_header, near_text, text_of};
use reference::generate::prng::Prng;
use reference::{gridconnect, Frame};

/// How many headers are by chance with a length of 0 to 8, and with one above; and how many texts.
const HEADERS_BY_CHANCE: [usize; 2] = [500, 5];
const TEXTS_BY_CHANCE: usize = 200_000;

/// Texts have fewer data bytes than this, also so many that a byte cannot count them.
const TOO_LONG: usize = 600;

type WriteCall = fn(&mut [u8], u32, u8, u64, &mut [u64; 1]) -> u64;
type ReadCall = fn(&[u8], &mut [u64; 3]) -> u64;

/// The two calls, as c/card.h has them.
#[derive(Clone, Copy)]
struct Calls {
    write: WriteCall,
    read: ReadCall,
}

const PROVED: Calls = Calls { write: write_grid, read: read_grid };

/// What agrees, or what differs.
pub fn compare(seed: u64) -> Result<Counts, String> {
    Run::new(PROVED).compare(seed)
}

struct Run {
    calls: Calls,
    counts: Counts,
}

impl Run {
    fn new(calls: Calls) -> Run {
        Run { calls, counts: Counts::default() }
    }

    fn compare(mut self, seed: u64) -> Result<Counts, String> {
        let mut rng = Prng::new(seed);
        self.frames(&mut rng)?;
        self.texts(&mut rng)?;
        Ok(self.counts)
    }

    /// Every length, those above 8 too, with each single bit as header, extreme ones and others by chance, in every room.
    fn frames(&mut self, rng: &mut Prng) -> Result<(), String> {
        for len in 0..=u8::MAX {
            let mut headers: Vec<u32> = (0..u32::BITS).map(|bit| 1 << bit).collect();
            headers.extend(grid_texts::HEADERS.into_iter().chain(grid_texts::LARGE_HEADERS));
            headers.extend((0..HEADERS_BY_CHANCE[usize::from(len > 8)]).map(|_| any_header(rng)));
            for header in headers {
                for room in 0..=MOST_ROOM {
                    let any = rng.number();
                    self.write(room, header, len, rng.pick(&[any, any, any, 0, u64::MAX]))?;
                }
            }
        }
        Ok(())
    }

    fn texts(&mut self, rng: &mut Prng) -> Result<(), String> {
        for text in grid_texts::texts(rng) {
            let others = grid_texts::replaced(&text).map(|(_, _, other)| other);
            let others = others.chain(grid_texts::inserted(&text)).chain(grid_texts::left_out(&text));
            others.chain([text.repeat(2)]).try_for_each(|other| self.read(&other).map(drop))?;
            grid_texts::cuts(&text).try_for_each(|cut| self.read(cut).map(drop))?;
        }
        for len in 0..TOO_LONG {
            let bytes: Vec<u8> = (0..len).map(|_| rng.byte()).collect();
            for header in grid_texts::HEADERS.into_iter().chain(grid_texts::LARGE_HEADERS) {
                self.read(&text_of(header, &bytes))?;
            }
        }
        (0..TEXTS_BY_CHANCE).try_for_each(|_| self.read(&near_text(rng)).map(drop))
    }

    fn write_by_calls(&self, room: usize, header: u32, len: u8, bytes: u64) -> Written {
        Written::into_room(room, |text| put_out(|written| (self.calls.write)(text, header, len, bytes, written)))
    }

    /// Writes a frame on both sides, and reads it again where it is accepted.
    fn write(&mut self, room: usize, header: u32, len: u8, bytes: u64) -> Result<(), String> {
        let call = || format!("grid_write(text, {room}, 0x{header:08X}, {len}, 0x{bytes:016X}, written)");
        let proved = self.write_by_calls(room, header, len, bytes);
        let data = bytes.to_be_bytes();
        let plain =
            Written::into_room(room, |text| answered(gridconnect::write(text, header, len, data), |length| [length as u64]));
        same(call, &proved, &plain)?;
        if !proved.keeps_the_rest() {
            return Err(format!("{} changes a byte beside its text: {proved:?}", call()));
        }
        self.counts.add_frame(proved.answer.0, room, header, len);
        if proved.answer.0 != 0 {
            return Ok(());
        }
        let itself = Read((0, words_but_kind(Frame::extended(header, &data[..len.into()]))));
        let read = self.read(proved.text())?;
        alike(|| format!("{}, read again", call()), ["read", "expected"], [read, itself])?;
        self.counts.read_again[usize::from(len)] += 1;
        Ok(())
    }

    /// Reads a text on both sides, and writes it back where it is accepted.
    fn read(&mut self, text: &[u8]) -> Result<Read, String> {
        let call = || format!("grid_read(\"{}\", {}, frame)", in_c(text), text.len());
        let proved = Read(put_out(|frame| (self.calls.read)(text, frame)));
        same(call, &proved, &Read(answered(gridconnect::read(text), words_but_kind)))?;
        match proved.0 {
            (0, words) => self.write_back(text, words)?,
            _ => self.counts.add_refused(text),
        }
        Ok(proved)
    }

    /// Writes what was read into exactly the text's room: that gives the text with its letters raised.
    fn write_back(&mut self, text: &[u8], [header, len, bytes]: [u64; 3]) -> Result<(), String> {
        let again = self.write_by_calls(text.len(), header as u32, len as u8, bytes);
        let raised = Written::exactly(&text.to_ascii_uppercase());
        alike(|| format!("\"{}\", read and written back", in_c(text)), ["written", "expected"], [again, raised])?;
        self.counts.add_read(text, header, len);
        self.counts.written_back[len as usize] += 1;
        Ok(())
    }
}

#[cfg(test)]
mod tests {
    use super::*;
    use reference::header::{HEADER_MAX, RESERVED_BIT};

    #[test]
    fn all_that_it_shall_meet_is_met() {
        for seed in 0..3 {
            let counts = compare(seed).expect("both sides agree");
            assert_eq!(counts.missing(), []);
            assert!(counts.read_again.into_iter().chain(counts.written_back).all(|count| count > 5_000));
            let [again, back] = [counts.read_again, counts.written_back].map(|each| each.iter().sum::<usize>());
            assert_eq!((again, back), (counts.written, counts.read));
        }
    }

    /// Each of these writers is found.
    fn writers_are_found<const N: usize>(wrong: [WriteCall; N]) {
        for write in wrong {
            let what = Run::new(Calls { write, ..PROVED }).compare(1).expect_err("the writer is wrong");
            assert!(what.starts_with("grid_write(") && what.contains(", written): proved "), "{what}");
        }
    }

    #[test]
    fn a_writer_of_another_text_is_found() {
        writers_are_found([
            // Lower case.
            |text, header, len, bytes, written| {
                let code = write_grid(text, header, len, bytes, written);
                text.iter_mut().filter(|byte| byte.is_ascii_hexdigit()).for_each(u8::make_ascii_lowercase);
                code
            },
            // Seven digits of header.
            |text, header, len, bytes, written| {
                let code = write_grid(text, header, len, bytes, written);
                if code == 0 {
                    text.copy_within(3..written[0] as usize, 2);
                    written[0] -= 1;
                }
                code
            },
            // Bit 28 always as 1, and always as 0.
            |text, header, len, bytes, written| write_grid(text, header | RESERVED_BIT, len, bytes, written),
            |text, header, len, bytes, written| write_grid(text, header & !RESERVED_BIT, len, bytes, written),
            // The last data byte first.
            |text, header, len, bytes, written| write_grid(text, header, len, bytes.swap_bytes(), written),
        ]);
    }

    #[test]
    fn a_writer_that_writes_more_is_found() {
        writers_are_found([
            // The rest of the buffer cleared.
            |text, header, len, bytes, written| {
                let code = write_grid(text, header, len, bytes, written);
                if code == 0 {
                    text[written[0] as usize..].fill(0);
                }
                code
            },
            // The text begun, and refused by 17.
            |text, header, len, bytes, written| {
                let code = write_grid(text, header, len, bytes, written);
                text.iter_mut().take(1).filter(|_| code == 17).for_each(|byte| *byte = b':');
                code
            },
            // A length answered by any refusal.
            |text, header, len, bytes, written| {
                written[0] = 0;
                write_grid(text, header, len, bytes, written)
            },
        ]);
    }

    #[test]
    fn a_writer_that_refuses_wrongly_is_found() {
        writers_are_found([
            // One byte more wanted than the text has; 28 always wanted; 17 before 9.
            |text, header, len, bytes, written| match text.len() {
                room if room == 12 + 2 * usize::from(len) => 17,
                _ => write_grid(text, header, len, bytes, written),
            },
            |text, header, len, bytes, written| match text.len() {
                0..28 if header <= HEADER_MAX && len <= 8 => 17,
                _ => write_grid(text, header, len, bytes, written),
            },
            |text, header, len, bytes, written| match text.len() {
                0..12 => 17,
                _ => write_grid(text, header, len, bytes, written),
            },
            // Alias 0 refused; bits above the 29th dropped; lengths above 8 taken for 8.
            |text, header, len, bytes, written| match header & 0xFFF {
                0 => 9,
                _ => write_grid(text, header, len, bytes, written),
            },
            |text, header, len, bytes, written| write_grid(text, header & HEADER_MAX, len, bytes, written),
            |text, header, len, bytes, written| write_grid(text, header, len.min(8), bytes, written),
        ]);
    }

    /// Each of these readers is found, by words such as these.
    fn readers_are_found<const N: usize>(words: &str, wrong: [ReadCall; N]) {
        for read in wrong {
            let what = Run::new(Calls { read, ..PROVED }).compare(1).expect_err("the reader is wrong");
            assert!(what.starts_with("grid_read(") && what.contains(words), "{what}");
        }
    }

    /// Reads the text with this done to it.
    fn read_after(text: &[u8], frame: &mut [u64; 3], change: impl Fn(&mut Vec<u8>)) -> u64 {
        let mut text = text.to_vec();
        change(&mut text);
        read_grid(&text, frame)
    }

    #[test]
    fn a_reader_that_takes_other_bytes_is_found() {
        let found_by = "plain Rust refused by 16";
        readers_are_found(
            found_by,
            [
                // `x`, `n`.
                |text, frame| read_after(text, frame, |text| text.iter_mut().skip(1).take(1).for_each(u8::make_ascii_uppercase)),
                |text, frame| read_after(text, frame, |text| text.iter_mut().skip(10).take(1).for_each(u8::make_ascii_uppercase)),
                // A header above 29 bits, whose higher bits are dropped.
                |text, frame| match text.get(2) {
                    Some(b'2'..=b'9') => read_after(text, frame, |text| text[2] = b'0' | text[2] & 1),
                    _ => read_grid(text, frame),
                },
                // Any byte in place of `;`.
                |text, frame| read_after(text, frame, |text| text.iter_mut().last().into_iter().for_each(|last| *last = b';')),
            ],
        );
    }

    #[test]
    fn a_reader_that_takes_another_length_is_found() {
        let found_by = "plain Rust refused by 16";
        readers_are_found(
            found_by,
            [
                // A line feed at the end; any byte there; nothing in place of `;`.
                |text, frame| read_grid(text.strip_suffix(b"\n").unwrap_or(text), frame),
                |text, frame| match text {
                    [shorter @ .., _] if shorter.ends_with(b";") => read_grid(shorter, frame),
                    _ => read_grid(text, frame),
                },
                |text, frame| match text.last() {
                    Some(b';') => read_grid(text, frame),
                    _ => read_after(text, frame, |text| text.push(b';')),
                },
                // Nothing in place of `:X`.
                |text, frame| match text {
                    [b'0' | b'1', ..] => read_after(text, frame, |text| drop(text.splice(..0, *b":X"))),
                    _ => read_grid(text, frame),
                },
                // Half a byte left out; a ninth byte left out; the bytes counted modulo 256.
                |text, frame| match text.len() % 2 {
                    1 if text.len() > 12 => read_after(text, frame, |text| _ = text.remove(text.len() - 2)),
                    _ => read_grid(text, frame),
                },
                |text, frame| match text.len() {
                    30 => read_after(text, frame, |text| _ = text.drain(27..29)),
                    _ => read_grid(text, frame),
                },
                |text, frame| match text.len() {
                    524..541 => read_after(text, frame, |text| _ = text.drain(11..523)),
                    _ => read_grid(text, frame),
                },
            ],
        );
    }

    /// Reads, and does this to the frame where it is accepted.
    fn read_before(text: &[u8], frame: &mut [u64; 3], change: impl Fn(&mut [u64; 3])) -> u64 {
        let code = read_grid(text, frame);
        if code == 0 {
            change(frame);
        }
        code
    }

    #[test]
    fn a_reader_that_answers_another_frame_is_found() {
        readers_are_found(
            ", frame): proved ",
            [
                // The header's highest bit dropped.
                |text, frame| read_before(text, frame, |frame| frame[0] &= !u64::from(RESERVED_BIT)),
                // A length of 8 for any; unused bytes that are not 0; the first byte lowest.
                |text, frame| read_before(text, frame, |frame| frame[1] = 8),
                |text, frame| read_before(text, frame, |frame| frame[2] |= u64::from(frame[1] < 8)),
                |text, frame| read_before(text, frame, |frame| frame[2] = frame[2].swap_bytes()),
                // Lower case refused; a word changed by any refusal.
                |text, frame| match text.iter().any(u8::is_ascii_lowercase) {
                    true => 16,
                    false => read_grid(text, frame),
                },
                |text, frame| {
                    frame[1] = 0;
                    read_grid(text, frame)
                },
            ],
        );
    }

    #[test]
    fn what_is_not_written_back_as_it_was_is_found() {
        let back = |text: &[u8], words| Run::new(PROVED).write_back(text, words);
        assert_eq!(back(b":X17050263Nab;", [0x1705_0263, 1, 0xAB << 56]), Ok(()));
        for other in [[0x0705_0263, 1, 0xAB << 56], [0x1705_0263, 0, 0xAB << 56], [0x1705_0263, 1, 0xAC << 56]] {
            let what = back(b":X17050263Nab;", other).expect_err("another frame");
            assert!(what.starts_with("\":X17050263Nab;\", read and written back: written length "), "{what}");
        }
    }
}
