//! Headers and aliases: every field with both types and either bit 28, headers spread over all 29 bits, each header that is read
//! written back and each that is written read again; Node IDs and generator states by chance.

use super::{alike, answered, put_out, refused, same};
use crate::card::{first_alias, next_alias, read_header, write_header};
use reference::generate::prng::Prng;
use reference::header::{self, Header, Kind, Section, RESERVED_BIT};
use reference::{Alias, Refusal};

/// Aliases of which some are 0 or above 12 bits.
const ALIASES: [u16; 8] = [0, 1, 0x263, 0xAAA, 0xFFF, 0x1000, 0x1263, 0xFFFF];

/// 2^22 of the 2^29 headers.
const SPREAD: u32 = 1 << 22;

/// How many calls agree, and what became of the round trips of A.5 among them.
#[derive(Default)]
pub struct Counts {
    pub calls: usize,
    /// Headers that were written, and read as what they were written from.
    pub read_again: usize,
    /// Headers that were read, and written back as they were; and those that have alias 0, refused by 9.
    pub written_back: usize,
    pub alias_zero: usize,
}

/// What agrees, or what differs.
pub fn compare(seed: u64) -> Result<Counts, String> {
    let mut counts = Counts::default();
    fields(&mut counts)?;
    spread(&mut counts)?;
    aliases(&mut Prng::new(seed), &mut counts)?;
    Ok(counts)
}

/// Every field, those above 15 bits too, with both types, either bit 28 and some aliases; and types and bits that there are not.
fn fields(counts: &mut Counts) -> Result<(), String> {
    for field in 0..=u16::MAX {
        let [low, high] = [field as u8, (field >> 8) as u8];
        for alias in ALIASES {
            for class in [0, 1, 2, 0x80 | low] {
                for bit in [0, 1, 2, low.max(2), high.max(2)] {
                    written(bit, class, field, alias, counts)?;
                }
            }
            for above in [0, RESERVED_BIT, 1 << 29, 1 << 29 | RESERVED_BIT, 1 << 31] {
                read(above | u32::from(field) << 12 | u32::from(alias & 0xFFF), counts)?;
            }
        }
    }
    Ok(())
}

/// Headers of 29 bits, an odd step apart, so that every bit changes; and each with bits above them, the highest numbers too.
fn spread(counts: &mut Counts) -> Result<(), String> {
    for header in [header::HEADER_MAX, header::HEADER_MAX + 1, 1 << 30, u32::MAX] {
        read(header, counts)?;
    }
    for number in 0..SPREAD {
        let header = number.wrapping_mul(0x9E37_79B1);
        read(header & header::HEADER_MAX, counts)?;
        read(header, counts)?;
    }
    Ok(())
}

/// Node IDs and states: small, around 48 bits, any.
fn aliases(rng: &mut Prng, counts: &mut Counts) -> Result<(), String> {
    const CALLS: usize = 1_000_000;
    let mut state = 0;
    for number in 0..CALLS as u64 {
        let any = rng.number();
        let value = rng.pick(&[number, any, any & 0xFFFF_FFFF_FFFF, (1 << 48) - 4 + number % 8, u64::MAX - number]);
        first(value)?;
        next(value)?;
        state = next(state)?;
    }
    counts.calls += 3 * CALLS;
    Ok(())
}

/// Writes a header on both sides, and reads it again where it is accepted.
fn written(bit: u8, class: u8, field: u16, alias: u16, counts: &mut Counts) -> Result<(), String> {
    let call = || format!("lcc_write_header({bit}, {class}, 0x{field:04X}, 0x{alias:03X}, header)");
    let proved = put_out(|header| write_header(bit, class, field, alias, header));
    same(call, proved, answered(write(bit, class, field, alias), |header| [header]))?;
    counts.calls += 1;
    let (0, [header]) = proved else { return Ok(()) };
    let [read_class, read_field, read_alias, .., read_bit] = read(header as u32, counts)?;
    let parts = [bit.into(), class.into(), field.into(), alias.into()];
    let read = [read_bit, read_class, read_field, read_alias];
    alike(|| format!("{}, read again", call()), ["read", "written"], [read, parts])?;
    counts.read_again += 1;
    Ok(())
}

/// Reads a header on both sides, and writes it back where it is accepted.
fn read(header: u32, counts: &mut Counts) -> Result<[u64; 7], String> {
    let (code, words) = put_out(|parts| read_header(header, parts));
    same(|| format!("lcc_read_header(0x{header:08X}, parts)"), (code, words), answered(header::read(header), parts))?;
    counts.calls += 1;
    if code == 0 {
        write_back(header, words, counts)?;
    }
    Ok(words)
}

/// Writes what was read, with its own bit 28: that gives the same header, or 9 where the alias is 0.
fn write_back(header: u32, [class, field, alias, .., bit]: [u64; 7], counts: &mut Counts) -> Result<(), String> {
    let again = put_out(|written| write_header(bit as u8, class as u8, field as u16, alias as u16, written));
    let as_it_came = if alias == 0 { refused(Refusal::Malformed) } else { (0, [header.into()]) };
    alike(|| format!("0x{header:08X}, read and written back"), ["written", "expected"], [again, as_it_came])?;
    counts.calls += 1;
    counts.written_back += usize::from(alias != 0);
    counts.alias_zero += usize::from(alias == 0);
    Ok(())
}

/// Header writing in plain Rust with any numbers as bit 28 and type, as c/card.h has it.
pub fn write(bit: u8, class: u8, field: u16, alias: u16) -> Result<u64, Refusal> {
    if bit > 1 || class > 1 {
        return Err(Refusal::Malformed);
    }
    let parts = Header { bit_28: bit == 1, message: class == 1, field, alias: Alias(alias) };
    header::write(parts).map(u64::from)
}

/// The words of a header's parts, as c/card.h has them.
pub fn parts(header: Header) -> [u64; 7] {
    let (kind, number, section) = match header.kind() {
        Kind::Cid(number, Section(section)) => (0, number, section),
        Kind::Rid => (1, 0, 0),
        Kind::Amd => (2, 0, 0),
        Kind::Ame => (3, 0, 0),
        Kind::Amr => (4, 0, 0),
        Kind::ErrorReport(number) => (5, number, 0),
        Kind::Reserved => (6, 0, 0),
        Kind::Message => (7, 0, 0),
    };
    let Header { bit_28, message, field, alias } = header;
    [message.into(), field.into(), alias.0.into(), kind, number.into(), section.into(), bit_28.into()]
}

fn first(id: u64) -> Result<(), String> {
    let plain = answered(reference::first_alias(id), |Alias(alias)| [alias.into()]);
    same(|| format!("lcc_first_alias(0x{id:X}, alias)"), put_out(|alias| first_alias(id, alias)), plain)
}

/// The state after this one; 0 after one that is refused.
fn next(state: u64) -> Result<u64, String> {
    let plain = reference::next_alias(state);
    let words = answered(plain, |(Alias(alias), state)| [state, alias.into()]);
    same(|| format!("lcc_next_alias(0x{state:X}, next)"), put_out(|next| next_alias(state, next)), words)?;
    Ok(plain.map_or(0, |(_, state)| state))
}

#[cfg(test)]
mod tests {
    use super::*;

    /// A RID with alias 0x263, and its words.
    const RID: u32 = 0x1070_0263;
    const WORDS: [u64; 7] = [0, 0x0700, 0x263, 1, 0, 0, 1];

    #[test]
    fn what_is_not_written_back_as_it_was_is_found() {
        let back = |header, words| write_back(header, words, &mut Counts::default());
        assert_eq!(back(RID, WORDS), Ok(()));
        for part in [0, 1, 2, 6] {
            let mut other = WORDS;
            other[part] ^= 1;
            assert!(back(RID, other).is_err());
        }
        assert_eq!(back(0x1070_0000, [0, 0x0700, 0, 1, 0, 0, 1]), Ok(()), "refused by 9");
    }

    #[test]
    fn round_trips_are_counted() {
        let mut counts = Counts::default();
        assert_eq!(read(RID, &mut counts), Ok(WORDS));
        assert_eq!((counts.calls, counts.written_back), (2, 1));
        written(0, 0, 0x0700, 0x263, &mut counts).expect("both sides agree");
        assert_eq!((counts.calls, counts.written_back, counts.read_again), (5, 2, 1));
        for (bit, class) in [(2, 0), (0, 2), (255, 1)] {
            written(bit, class, 0x0700, 0x263, &mut counts).expect("both sides refuse");
        }
        read(0x1070_0000, &mut counts).expect("both sides agree");
        read(0x2070_0263, &mut counts).expect("both sides refuse");
        assert_eq!((counts.calls, counts.written_back, counts.read_again, counts.alias_zero), (11, 2, 1, 1));
    }
}
