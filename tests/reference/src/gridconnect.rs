//! GridConnect text of an extended data frame, as bus viewers exchange it (A.7): writing and reading.

use crate::frame::{Frame, EXTENDED};
use crate::header::HEADER_MAX;
use crate::refusal::Refusal;

/// The writer's letters are upper-case.
const DIGITS: &[u8; 16] = b"0123456789ABCDEF";

const START: &[u8; 2] = b":X";
const DATA_START: u8 = b'N';
const END: u8 = b';';

/// Where the data's digits stand: behind the start, eight digits of header and `N`.
const DATA_AT: usize = 11;

/// Writes a frame's text and answers its length; the rest of the buffer stays as it was. 9 for a
/// header above 29 bits or a length above 8, then 17 where the text does not fit.
pub fn write(text: &mut [u8], header: u32, len: u8, data: [u8; 8]) -> Result<usize, Refusal> {
    let frame = Frame { header, kind: EXTENDED, len, data };
    if !frame.well_formed() {
        return Err(Refusal::Malformed);
    }
    let end = DATA_AT + 2 * usize::from(len);
    let text = text.get_mut(..=end).ok_or(Refusal::ShortBuffer)?;
    text[..2].copy_from_slice(START);
    write_digits(&mut text[2..DATA_AT - 1], &header.to_be_bytes());
    text[DATA_AT - 1] = DATA_START;
    write_digits(&mut text[DATA_AT..end], frame.bytes());
    text[end] = END;
    Ok(text.len())
}

/// Reads a text, its digits in either case; 16 for any other shape or a header above 29 bits.
pub fn read(text: &[u8]) -> Result<Frame, Refusal> {
    parse(text).ok_or(Refusal::NotGridConnect)
}

fn parse(text: &[u8]) -> Option<Frame> {
    let inner = text.strip_prefix(START)?.strip_suffix(&[END])?;
    let (header, rest) = inner.split_at_checked(8)?;
    let digits = rest.strip_prefix(&[DATA_START])?;
    let header = u32::from_be_bytes(read_digits(header)?);
    let data = read_digits(digits)?;
    let len = (digits.len() / 2) as u8;
    (header <= HEADER_MAX).then_some(Frame { header, kind: EXTENDED, len, data })
}

/// Two digits for each byte.
fn write_digits(text: &mut [u8], bytes: &[u8]) {
    for (pair, byte) in text.chunks_exact_mut(2).zip(bytes) {
        pair[0] = DIGITS[usize::from(byte >> 4)];
        pair[1] = DIGITS[usize::from(byte & 15)];
    }
}

/// The bytes of digits, two for each, and zeros behind them; none where these are not whole bytes, or
/// more than there is room for.
fn read_digits<const N: usize>(digits: &[u8]) -> Option<[u8; N]> {
    if !digits.len().is_multiple_of(2) || digits.len() > 2 * N {
        return None;
    }
    let mut bytes = [0; N];
    for (byte, pair) in bytes.iter_mut().zip(digits.chunks_exact(2)) {
        *byte = value(pair[0])? << 4 | value(pair[1])?;
    }
    Some(bytes)
}

fn value(digit: u8) -> Option<u8> {
    match digit {
        b'0'..=b'9' => Some(digit - b'0'),
        b'A'..=b'F' => Some(digit - b'A' + 10),
        b'a'..=b'f' => Some(digit - b'a' + 10),
        _ => None,
    }
}
