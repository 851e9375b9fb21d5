//! The words of a line, taken one after another as operands; or what is wrong with one.

use crate::hex::pairs;
use crate::link::Link;

/// A count of ticks is at most what the program uses of a script, since each tick is a byte.
const COUNT_MAX: usize = 65_536;

/// What stands before an operand that is given by its name, at the end of a line.
const LENGTH: &str = "length";
const BIT_28: &str = "bit28";
const FLAG: &str = "flag";

pub type Parsed<T> = Result<T, String>;

/// The words of a line, and how many have been taken.
pub struct Words<'a> {
    words: Vec<&'a str>,
    at: usize,
}

impl<'a> Words<'a> {
    pub fn of(text: &'a str) -> Words<'a> {
        Words { words: text.split_whitespace().collect(), at: 0 }
    }

    pub fn peek(&self) -> Option<&'a str> {
        self.words.get(self.at).copied()
    }

    /// Takes the next word, whatever it is.
    pub fn word(&mut self) -> Option<&'a str> {
        let word = self.peek();
        self.at += usize::from(word.is_some());
        word
    }

    /// Takes all words that are left, with a blank between them.
    pub fn rest(&mut self) -> String {
        let from = std::mem::replace(&mut self.at, self.words.len());
        self.words[from..].join(" ")
    }

    /// Whether the next word is this one.
    fn is_at(&self, word: &str) -> bool {
        self.peek().is_some_and(|next| next.eq_ignore_ascii_case(word))
    }

    /// Takes the next word where it is this one.
    pub fn skip(&mut self, word: &str) -> bool {
        let here = self.is_at(word);
        self.at += usize::from(here);
        here
    }

    /// Whether more operands follow that have no name.
    pub fn has_more(&self) -> bool {
        self.peek().is_some() && !self.is_at(LENGTH) && !self.is_at(BIT_28)
    }

    /// Takes a word that means something, or says that it is missing or means nothing.
    fn take<T>(
        &mut self,
        what: &str,
        expected: &str,
        read: impl Fn(&str) -> Option<T>,
    ) -> Parsed<T> {
        let Some(word) = self.word() else {
            return Err(format!("the {what} is missing; expected {expected}"));
        };
        read(word).ok_or(format!("\"{word}\" is no {what}; expected {expected}"))
    }

    pub fn end(&self) -> Parsed<()> {
        match self.peek() {
            Some(_) if self.is_at(BIT_28) => {
                Err(format!("{BIT_28} is for foreign frames alone: nodes send bit 28 as 1"))
            }
            Some(word) => Err(format!("\"{word}\" is too much")),
            None => Ok(()),
        }
    }

    pub fn number(&mut self, what: &str, low: usize, high: usize) -> Parsed<usize> {
        let fits = |word: &str| decimal(word).filter(|number| (low..=high).contains(number));
        self.take(what, &format!("a whole number from {low} to {high}"), fits)
    }

    pub fn index(&mut self) -> Parsed<u8> {
        let number = self.number("index", 0, 255);
        number.map(|n| n as u8).map_err(|why| format!("{why}, the nodes being 0 to 23"))
    }

    /// By its name, or any number that an operand of the order can have.
    pub fn link_state(&mut self) -> Parsed<u8> {
        let number = |word: &str| decimal(word).and_then(|number| u8::try_from(number).ok());
        let expected = "active, passive, off, or a whole number from 0 to 255";
        self.take("link state", expected, |word| Link::state_of(word).or_else(|| number(word)))
    }

    pub fn count(&mut self) -> Parsed<usize> {
        self.number("count of ticks", 1, COUNT_MAX)
    }

    /// `turns`, where it stands at the end of a line.
    pub fn turns(&mut self) -> Parsed<bool> {
        if self.peek().is_none() {
            return Ok(false);
        }
        let turns = |word: &str| word.eq_ignore_ascii_case("turns").then_some(true);
        self.take("way to settle", "turns, or nothing behind the count", turns)
    }

    /// Up to so many hex digits.
    pub fn digits(&mut self, what: &str, most: usize) -> Parsed<u64> {
        let expected = format!("1 to {most} hex digits");
        self.take(what, &expected, |word| (word.len() <= most).then(|| hex_number(word))?)
    }

    /// The state of a generator, of 48 bits.
    pub fn state(&mut self) -> Parsed<u64> {
        self.digits("generator state", 12)
    }

    pub fn alias(&mut self) -> Parsed<u16> {
        self.digits("alias", 3).map(|alias| alias as u16)
    }

    pub fn section(&mut self) -> Parsed<u16> {
        let three = |word: &str| (word.len() == 3).then(|| hex_number(word))?;
        self.take("section", "3 hex digits", three).map(|section| section as u16)
    }

    pub fn id(&mut self) -> Parsed<u64> {
        let six = |word: &str| dotted(word).filter(|bytes| bytes.len() == 6);
        let bytes = self.take("Node ID", "six bytes in hex, as 05.01.01.01.01.01", six)?;
        Ok(bytes.iter().fold(0, |id, &byte| id << 8 | u64::from(byte)))
    }

    /// A header of 8 digits, or of this many.
    pub fn header(&mut self, digits: usize) -> Parsed<u32> {
        let expected = if digits == 8 {
            "8 hex digits".to_string()
        } else {
            format!("{digits} or 8 hex digits")
        };
        let whole = |word: &str| [digits, 8].contains(&word.len()).then(|| hex_number(word))?;
        self.take("header", &expected, whole).map(|header| header as u32)
    }

    /// Data in one word or more: how many bytes, and the bytes.
    pub fn data(&mut self) -> Parsed<(u8, [u8; 8])> {
        let mut bytes = Vec::new();
        while self.has_more() {
            bytes.extend(self.take("data", "bytes of two hex digits, as 0102 or 01.02", dotted)?);
        }
        if bytes.len() > 8 {
            return Err(format!("{} bytes of data; expected 8 at most", bytes.len()));
        }
        let mut data = [0; 8];
        data[..bytes.len()].copy_from_slice(&bytes);
        Ok((bytes.len() as u8, data))
    }

    /// `length N`, where it stands: another length than the data has.
    pub fn length(&mut self) -> Parsed<Option<u8>> {
        if !self.skip(LENGTH) {
            return Ok(None);
        }
        self.number("length", 0, 255).map(|length| Some(length as u8))
    }

    /// `flag N`, where it stands: how a node is started, by a number that has a meaning or by another.
    pub fn flag(&mut self) -> Parsed<Option<u8>> {
        if !self.skip(FLAG) {
            return Ok(None);
        }
        self.number("flag", 0, 255).map(|flag| Some(flag as u8))
    }

    /// `bit28 BIT`, where it stands: bit 28 of a foreign frame.
    pub fn bit_28(&mut self) -> Parsed<Option<u8>> {
        if !self.skip(BIT_28) {
            return Ok(None);
        }
        let bit = |word: &str| decimal(word).filter(|bit| *bit <= 1).map(|bit| bit as u8);
        self.take("bit", "0 or 1", bit).map(Some)
    }

    /// One byte at least, in one word or more.
    pub fn bytes(&mut self) -> Parsed<Vec<u8>> {
        let mut bytes = self.take("first byte", "bytes of two hex digits", dotted)?;
        while self.peek().is_some() {
            bytes.extend(self.take("byte", "bytes of two hex digits", dotted)?);
        }
        Ok(bytes)
    }
}

fn decimal(word: &str) -> Option<usize> {
    word.bytes().all(|c| c.is_ascii_digit()).then(|| word.parse().ok())?
}

fn hex_number(word: &str) -> Option<u64> {
    word.bytes().all(|c| c.is_ascii_hexdigit()).then(|| u64::from_str_radix(word, 16).ok())?
}

/// Bytes of two digits each, with or without points between them.
fn dotted(word: &str) -> Option<Vec<u8>> {
    let parts: Option<Vec<Vec<u8>>> = word.split('.').map(pairs).collect();
    parts.map(|parts| parts.concat())
}
