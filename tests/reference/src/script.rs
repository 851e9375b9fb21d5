//! The program: a script's whole output, one line for each command and a last word.

use crate::command::{Answer, Command, Given};
use crate::segment::Segment;

/// The program reads so many bytes of its input.
pub const INPUT_MAX: usize = 65_536;

/// The output of the program `segment` for any input: a longer one is used to 65,536 bytes.
pub fn run_program(input: &[u8], out: &mut Vec<u8>) {
    run(&input[..input.len().min(INPUT_MAX)], out);
}

/// The output for a script of any length, added at the end of `out`.
pub fn run(script: &[u8], out: &mut Vec<u8>) {
    run_on(&mut Segment::new(), script, out);
}

/// As `run`, on a segment that is all Off; it is left as the script leaves it.
pub fn run_on(segment: &mut Segment, script: &[u8], out: &mut Vec<u8>) {
    let mut rest = script;
    let mut count = 0;
    while let Some(&byte) = rest.first() {
        count += 1;
        let answer = match Command::read(rest) {
            Ok((command, after)) => {
                rest = after;
                segment.carry_out(&command)
            }
            Err(refusal) => {
                rest = &[];
                Err(refusal)
            }
        };
        write_line(out, count, byte, &answer);
    }
    out.extend_from_slice(if segment.is_late() { b"late\n" } else { b"kept\n" });
}

fn write_line(out: &mut Vec<u8>, count: u64, byte: u8, answer: &Answer) {
    write_decimal(out, count);
    out.push(b' ');
    write_hex(out, &[byte]);
    match answer {
        Ok(Given::Sent(frame)) => {
            out.extend_from_slice(b" ok ");
            write_hex(out, &frame.header.to_be_bytes());
            if frame.len > 0 {
                out.push(b' ');
                write_hex(out, frame.bytes());
            }
        }
        Ok(_) => out.extend_from_slice(b" ok"),
        Err(refusal) => {
            out.extend_from_slice(b" refused ");
            write_decimal(out, u64::from(refusal.number()));
        }
    }
    out.push(b'\n');
}

fn write_decimal(out: &mut Vec<u8>, number: u64) {
    let mut digits = [0; 20];
    let mut start = digits.len();
    let mut rest = number;
    loop {
        start -= 1;
        digits[start] = b'0' + (rest % 10) as u8;
        rest /= 10;
        if rest == 0 {
            break;
        }
    }
    out.extend_from_slice(&digits[start..]);
}

fn write_hex(out: &mut Vec<u8>, bytes: &[u8]) {
    const DIGITS: &[u8; 16] = b"0123456789ABCDEF";
    for &byte in bytes {
        let pair = [DIGITS[usize::from(byte >> 4)], DIGITS[usize::from(byte & 15)]];
        out.extend_from_slice(&pair);
    }
}
