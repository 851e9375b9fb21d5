//! Bytes in hex: a script's text to bytes, and bytes to text.

use crate::script::{Fault, Source};

/// The bytes of each line. Blanks are free; two digits make a byte, and no byte is parted by a line end.
pub fn parse(lines: &[Source]) -> Result<Vec<(usize, Vec<u8>)>, Vec<Fault>> {
    let mut parsed = Vec::new();
    let mut faults = Vec::new();
    for line in lines {
        match bytes_of_line(line.text) {
            Ok(bytes) => parsed.push((line.number, bytes)),
            Err(why) => faults.push(Fault { line: line.number, why }),
        }
    }
    if faults.is_empty() {
        Ok(parsed)
    } else {
        Err(faults)
    }
}

fn bytes_of_line(text: &str) -> Result<Vec<u8>, String> {
    if let Some(wrong) = text.chars().find(|c| !c.is_ascii_hexdigit() && !c.is_whitespace()) {
        return Err(format!(
            "\"{wrong}\" is no hex digit; expected bytes of two hex digits, 0 to 9 and A to F"
        ));
    }
    let digits: String = text.split_whitespace().collect();
    if !digits.len().is_multiple_of(2) {
        let count = digits.len();
        return Err(format!("half a byte: {count} digits; expected two hex digits for each byte"));
    }
    Ok(pairs(&digits).expect("hex digits, an even number"))
}

/// The bytes of an even number of hex digits, one at least.
pub fn pairs(digits: &str) -> Option<Vec<u8>> {
    let well = !digits.is_empty() && digits.bytes().all(|c| c.is_ascii_hexdigit());
    if !well || !digits.len().is_multiple_of(2) {
        return None;
    }
    (0..digits.len())
        .step_by(2)
        .map(|at| u8::from_str_radix(&digits[at..at + 2], 16).ok())
        .collect()
}

/// Bytes as digits, with this between them.
pub fn joined(bytes: &[u8], between: &str) -> String {
    let bytes: Vec<String> = bytes.iter().map(|byte| format!("{byte:02X}")).collect();
    bytes.join(between)
}

/// A Node ID as its six bytes, with points between them.
pub fn dotted_id(id: u64) -> String {
    joined(&id.to_be_bytes()[2..], ".")
}
