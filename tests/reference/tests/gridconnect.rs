//! Request A.7 of document 02: GridConnect text of extended data frames, written and read.

mod common;

use common::seed;
use reference::generate::grid_faults::Fault;
use reference::generate::grid_texts::{any_header, cuts, inserted, left_out, near_text, replaced};
use reference::generate::grid_texts::{text_of, texts, Letters, HEADERS, LARGE_HEADERS};
use reference::generate::prng::Prng;
use reference::gridconnect::{read, write};
use reference::header::HEADER_MAX;
use reference::{Frame, Refusal};
use std::collections::BTreeSet;

/// The CID 7 of document 01's example, from the node with alias 263.
const CID: &[u8] = b":X17050263N;";

/// Longer than the longest text.
const ROOM: usize = 40;

/// No byte of any text.
const BEFORE: u8 = 0xA5;

/// The buffer after a frame is written into so much room, and the answer.
fn written(room: usize, header: u32, len: u8, data: [u8; 8]) -> (Result<usize, Refusal>, Vec<u8>) {
    let mut text = vec![BEFORE; room];
    (write(&mut text, header, len, data), text)
}

/// The text of a frame that is written into ample room, and what stands behind it is as it was.
fn text(header: u32, len: u8, data: [u8; 8]) -> Vec<u8> {
    let (answer, mut buffer) = written(ROOM, header, len, data);
    let rest = buffer.split_off(answer.expect("a frame, and room"));
    assert!(rest.iter().all(|&byte| byte == BEFORE));
    buffer
}

fn refused(text: &[u8]) -> bool {
    read(text) == Err(Refusal::NotGridConnect)
}

#[test]
fn the_first_frame_of_document_01() {
    assert_eq!(text(0x1705_0263, 0, [0; 8]), CID);
    assert_eq!(read(CID), Ok(Frame::extended(0x1705_0263, &[])));
}

#[test]
fn data_of_each_length() {
    let data = [0x01, 0x23, 0x45, 0x67, 0x89, 0xAB, 0xCD, 0xEF];
    let digits = "0123456789ABCDEF";
    for len in 0..=8 {
        let expected = format!(":X195B4263N{};", &digits[..2 * len]);
        assert_eq!(text(0x195B_4263, len as u8, data), expected.as_bytes());
        let frame = Frame::extended(0x195B_4263, &data[..len]);
        assert_eq!(read(expected.as_bytes()), Ok(frame), "unused bytes are 0");
    }
}

#[test]
fn digits_are_read_in_either_case() {
    let frame = Frame::extended(0x1ABC_DEF0, &[0xAB, 0xCD, 0xEF, 0xFA]);
    for text in [b":X1ABCDEF0NABCDEFFA;", b":X1abcdef0Nabcdeffa;", b":X1aBcDeF0NAbCdEffA;"] {
        assert_eq!(read(text), Ok(frame));
    }
    assert_eq!(text(frame.header, frame.len, frame.data), b":X1ABCDEF0NABCDEFFA;");
}

#[test]
fn headers_keep_all_29_bits() {
    for (header, digits) in [
        (0, ":X00000000N;"),
        (0x1705_0000, ":X17050000N;"),
        (0x0705_0263, ":X07050263N;"),
        (0x1000_0000, ":X10000000N;"),
        (HEADER_MAX, ":X1FFFFFFFN;"),
    ] {
        assert_eq!(text(header, 0, [0; 8]), digits.as_bytes());
        assert_eq!(read(digits.as_bytes()), Ok(Frame::extended(header, &[])));
    }
    for bit in 0..29 {
        let alone = text(1 << bit, 0, [0; 8]);
        assert_eq!(read(&alone), Ok(Frame::extended(1 << bit, &[])), "bit {bit}");
    }
}

#[test]
fn a_header_above_29_bits_is_9_written_and_16_read() {
    for header in LARGE_HEADERS {
        for len in 0..=8 {
            let as_it_was = vec![BEFORE; ROOM];
            assert_eq!(written(ROOM, header, len, [0; 8]), (Err(Refusal::Malformed), as_it_was));
            assert!(refused(&text_of(header, &[0; 8][..len.into()])));
        }
    }
}

#[test]
fn a_length_above_8_is_9() {
    for len in 9..=u8::MAX {
        for header in HEADERS.into_iter().chain(LARGE_HEADERS) {
            let as_it_was = vec![BEFORE; 600];
            assert_eq!(written(600, header, len, [0; 8]), (Err(Refusal::Malformed), as_it_was));
        }
    }
}

#[test]
fn exactly_the_length_of_the_text_suffices_as_room() {
    for len in 0..=8 {
        let expected = text_of(0x195B_4263, &[0xEE; 8][..len]);
        for room in 0..=ROOM {
            let (answer, buffer) = written(room, 0x195B_4263, len as u8, [0xEE; 8]);
            let mut after = vec![BEFORE; room];
            if room < 12 + 2 * len {
                assert_eq!(answer, Err(Refusal::ShortBuffer));
            } else {
                assert_eq!(answer, Ok(12 + 2 * len));
                after[..expected.len()].copy_from_slice(&expected);
            }
            assert_eq!(buffer, after, "{len} bytes in {room}");
        }
    }
}

#[test]
fn refusal_9_comes_before_17() {
    for room in 0..ROOM {
        for (header, len) in [(HEADER_MAX + 1, 8), (HEADER_MAX, 9), (u32::MAX, 255)] {
            assert_eq!(written(room, header, len, [0; 8]).0, Err(Refusal::Malformed));
        }
    }
    assert_eq!(written(27, HEADER_MAX, 8, [0; 8]).0, Err(Refusal::ShortBuffer));
}

/// Wrong texts, and what is wrong with each.
const WRONG: [(&[u8], Fault); 34] = [
    (b"", Fault::Start),
    (b";", Fault::Start),
    (b":", Fault::Start),
    (b"X17050263N;", Fault::Start),
    (b":17050263N;", Fault::Start),
    (b"::X17050263N;", Fault::Start),
    (b" :X17050263N;", Fault::Start),
    (b"\n:X17050263N;", Fault::Start),
    (b":S123N;", Fault::Start),
    (b":x17050263N;", Fault::SmallX),
    (b":X;", Fault::HeaderDigit),
    (b":XN;", Fault::HeaderDigit),
    (b":X7050263N;", Fault::HeaderDigit),
    (b":X1705026GN;", Fault::HeaderDigit),
    (b":X1705 263N;", Fault::HeaderDigit),
    (b":X+7050263N;", Fault::HeaderDigit),
    (b":X20000000N;", Fault::LargeHeader),
    (b":XFFFFFFFFN;", Fault::LargeHeader),
    (b":Xffffffffn;", Fault::LargeHeader),
    (b":X017050263N;", Fault::AfterHeader),
    (b":X17050263R;", Fault::AfterHeader),
    (b":X17050263;", Fault::AfterHeader),
    (b":X17050263", Fault::AfterHeader),
    (b":X17050263n;", Fault::SmallN),
    (b":X17050263N0;", Fault::OddDigits),
    (b":X17050263N0123456789ABCDE;", Fault::OddDigits),
    (b":X17050263N0G;", Fault::DataDigit),
    (b":X17050263N01 23;", Fault::DataDigit),
    (b":X17050263N0123456789ABCDEF0;", Fault::NinthByte),
    (b":X17050263N0123456789ABCDEF01;", Fault::NinthByte),
    (b":X17050263N", Fault::NoEnd),
    (b":X17050263N0123456789ABCDEF\n", Fault::NoEnd),
    (b":X17050263N;\n", Fault::Trailing),
    (b":X17050263N;;", Fault::Trailing),
];

#[test]
fn any_other_shape_is_16() {
    for (text, fault) in WRONG {
        assert!(refused(text), "{}", text.escape_ascii());
        assert_eq!(Fault::of(text), Some(fault), "{}", text.escape_ascii());
    }
    let met: BTreeSet<Fault> = WRONG.into_iter().map(|(_, fault)| fault).collect();
    assert_eq!(met.into_iter().collect::<Vec<_>>(), Fault::ALL);
}

/// Also where the count of bytes does not fit in a byte.
#[test]
fn more_than_8_bytes_are_16() {
    for len in 9..=600 {
        assert!(refused(&text_of(0x1705_0263, &vec![0x12; len])), "{len}");
    }
}

/// Whether a byte can stand at this place of a text that has another byte there: digits are free, but
/// for the header's first, which is 0 or 1.
fn fits(text: &[u8], at: usize, byte: u8) -> bool {
    match at {
        2 => matches!(byte, b'0' | b'1'),
        3..=9 => byte.is_ascii_hexdigit(),
        at if at > 10 && at < text.len() - 1 => byte.is_ascii_hexdigit(),
        _ => byte == text[at],
    }
}

#[test]
fn every_byte_replaced_by_every_value_is_taken_exactly_where_it_fits() {
    for text in texts(&mut Prng::new(seed())) {
        for (at, byte, other) in replaced(&text) {
            assert_eq!(read(&other).is_ok(), fits(&text, at, byte), "{}", other.escape_ascii());
        }
    }
}

#[test]
fn every_byte_more_or_less_and_every_cut_is_16() {
    for text in texts(&mut Prng::new(seed())) {
        for other in inserted(&text).chain(left_out(&text)) {
            assert!(refused(&other), "{}", other.escape_ascii());
        }
        for cut in cuts(&text) {
            assert!(refused(cut), "{}", cut.escape_ascii());
        }
    }
}

#[test]
fn the_texts_have_each_length_with_each_sort_of_letters() {
    let texts = texts(&mut Prng::new(seed()));
    assert_eq!(texts.len(), 100);
    for len in 0..=8 {
        for letters in Letters::ALL {
            let meets =
                |text: &&Vec<u8>| text.len() == 12 + 2 * len && Letters::of(text) == Some(letters);
            assert!(texts.iter().any(|text| meets(&text)), "{len} {letters:?}");
        }
    }
    for header in HEADERS {
        let has = |text: &Vec<u8>| read(text).is_ok_and(|frame| frame.header == header);
        assert!(texts.iter().any(has), "{header:08X}");
    }
}

fn distinct<T: Ord>(texts: impl Iterator<Item = T>) -> usize {
    texts.collect::<BTreeSet<T>>().len()
}

/// So many texts come of one of 12 bytes, of which no two neighbours are equal. Those with a byte doubled
/// come twice, and so does the empty cut.
#[test]
fn each_change_is_made_at_every_place() {
    assert_eq!(distinct(replaced(CID).map(|(_, _, other)| other)), 12 * 255 + 1);
    assert_eq!(distinct(inserted(CID)), 13 * 256 - 12);
    assert_eq!(distinct(left_out(CID)), 12);
    assert_eq!(distinct(cuts(CID)), 2 * 12 - 1);
}

#[test]
fn every_frame_that_is_written_reads_back_as_itself() {
    let mut rng = Prng::new(seed());
    for number in 0..200_000 {
        let (len, data) = (rng.below(9), rng.number().to_be_bytes());
        let any = any_header(&mut rng);
        let header = *HEADERS.get(number % 100).unwrap_or(&any);
        let written = text(header, len as u8, data);
        assert_eq!(written, text_of(header, &data[..len]));
        assert_eq!(read(&written), Ok(Frame::extended(header, &data[..len])));
    }
}

#[test]
fn every_accepted_text_with_its_letters_raised_is_what_the_writer_gives() {
    let mut rng = Prng::new(seed());
    let (mut accepted, mut faults) = (0, BTreeSet::new());
    for _ in 0..200_000 {
        let any = near_text(&mut rng);
        match read(&any) {
            Ok(Frame { header, len, data, .. }) => {
                assert_eq!(text(header, len, data), any.to_ascii_uppercase());
                assert_eq!(Fault::of(&any), None);
                accepted += 1;
            }
            Err(refusal) => {
                assert_eq!(refusal, Refusal::NotGridConnect);
                faults.extend([Fault::of(&any).expect("something is wrong with it")]);
            }
        }
    }
    assert!(accepted > 1_000);
    assert_eq!(faults.into_iter().collect::<Vec<_>>(), Fault::ALL);
}
