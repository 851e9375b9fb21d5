//! What is wrong with a text that is no GridConnect text of an extended data frame (A.7), told from left
//! to right.

/// What is wrong first.
#[derive(Clone, Copy, Debug, PartialEq, Eq, PartialOrd, Ord)]
pub enum Fault {
    /// It does not start with `:X`; `:x` is told by itself.
    Start,
    SmallX,
    /// Fewer than eight hex digits of header.
    HeaderDigit,
    /// A header above 29 bits.
    LargeHeader,
    /// Something other than `N` behind the header; `n` is told by itself.
    AfterHeader,
    SmallN,
    /// Something in the data that is neither a hex digit nor the end.
    DataDigit,
    /// Half a byte of data.
    OddDigits,
    /// A seventeenth digit of data or more.
    NinthByte,
    /// Data without a `;` behind it.
    NoEnd,
    /// Something behind the `;`.
    Trailing,
}

impl Fault {
    pub const ALL: [Fault; 11] = [
        Fault::Start,
        Fault::SmallX,
        Fault::HeaderDigit,
        Fault::LargeHeader,
        Fault::AfterHeader,
        Fault::SmallN,
        Fault::DataDigit,
        Fault::OddDigits,
        Fault::NinthByte,
        Fault::NoEnd,
        Fault::Trailing,
    ];

    /// None for a text that a reader shall take.
    pub fn of(text: &[u8]) -> Option<Fault> {
        match text {
            [b':', b'X', rest @ ..] => Fault::from_header_on(rest),
            [b':', b'x', ..] => Some(Fault::SmallX),
            _ => Some(Fault::Start),
        }
    }

    fn from_header_on(text: &[u8]) -> Option<Fault> {
        if leading_digits(text) < 8 {
            return Some(Fault::HeaderDigit);
        }
        match text.split_at(8) {
            ([first, ..], _) if *first > b'1' => Some(Fault::LargeHeader),
            (_, [b'N', rest @ ..]) => Fault::from_data_on(rest),
            (_, [b'n', ..]) => Some(Fault::SmallN),
            _ => Some(Fault::AfterHeader),
        }
    }

    fn from_data_on(text: &[u8]) -> Option<Fault> {
        let digits = leading_digits(text);
        match &text[digits..] {
            _ if digits > 16 => Some(Fault::NinthByte),
            [b';', ..] if digits % 2 == 1 => Some(Fault::OddDigits),
            [b';'] => None,
            [b';', ..] => Some(Fault::Trailing),
            [_, ..] if digits < 16 => Some(Fault::DataDigit),
            _ => Some(Fault::NoEnd),
        }
    }
}

fn leading_digits(text: &[u8]) -> usize {
    text.iter().take_while(|byte| byte.is_ascii_hexdigit()).count()
}
