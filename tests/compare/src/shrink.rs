//! Makes a list that fails smaller, a script by whole commands; and writes a script as the hex that `./run` takes.

use reference::Command;

/// A script's commands, each with its operands. What follows the last whole command, damaged, is one piece.
fn pieces(script: &[u8]) -> Vec<&[u8]> {
    let mut pieces = Vec::new();
    let mut rest = script;
    while !rest.is_empty() {
        let after = Command::read(rest).map_or(&[][..], |(_, after)| after);
        pieces.push(&rest[..rest.len() - after.len()]);
        rest = after;
    }
    pieces
}

/// Leaves out as many commands as it can while the script still fails: without any one of those left, it does not.
pub fn shrink(script: &[u8], mut fails: impl FnMut(&[u8]) -> bool) -> Vec<u8> {
    fewest(pieces(script), |less| fails(&less.concat())).concat()
}

/// Leaves out as many items as it can while the list still fails: without any one of those left, it does not.
pub fn fewest<T: Clone>(mut items: Vec<T>, mut fails: impl FnMut(&[T]) -> bool) -> Vec<T> {
    let mut part = items.len();
    while part > 0 {
        let before = items.len();
        let mut at = 0;
        while at < items.len() {
            let end = items.len().min(at + part);
            let less = [&items[..at], &items[end..]].concat();
            if fails(&less) {
                items = less;
            } else {
                at = end;
            }
        }
        // Single items are tried until none of them can go.
        if part > 1 || items.len() == before {
            part /= 2;
        }
    }
    items
}

/// A script in hex, a command to a line.
pub fn hex(script: &[u8]) -> String {
    let line = |piece: &&[u8]| piece.iter().map(|byte| format!("{byte:02X}")).collect::<Vec<_>>().join(" ") + "\n";
    pieces(script).iter().map(line).collect()
}

#[cfg(test)]
mod tests {
    use super::*;
    use reference::generate::prng::Prng;
    use reference::generate::walker::{walk, Temper};

    /// Random scripts of many commands, each with a damaged end: a message cut short that holds the bytes 04 and 09.
    fn scripts() -> impl Iterator<Item = Vec<u8>> {
        (0..200).map(|seed| {
            let mut rng = Prng::new(seed);
            let temper = Temper::random(&mut rng, 250);
            let mut script = walk(&mut rng, temper);
            script.extend_from_slice(DAMAGED);
            script
        })
    }

    const DAMAGED: &[u8] = &[0x07, 0x04, 0x09, 0x00];

    /// The bytes that name the commands.
    fn names(script: &[u8]) -> Vec<u8> {
        pieces(script).iter().map(|piece| piece[0]).collect()
    }

    /// Whether these stand in the list in this order, with anything between them.
    fn in_order(wanted: &[u8], list: &[u8]) -> bool {
        let mut rest = list.iter();
        wanted.iter().all(|name| rest.any(|other| other == name))
    }

    #[test]
    fn pieces_are_whole_commands_and_make_the_script() {
        for script in scripts() {
            let pieces = pieces(&script);
            assert_eq!(pieces.concat(), script);
            let (damaged, commands) = pieces.split_last().expect("the damaged end");
            assert_eq!(*damaged, DAMAGED);
            assert!(commands.iter().all(|piece| matches!(Command::read(piece), Ok((_, [])))));
        }
    }

    #[test]
    fn what_fails_by_some_commands_in_order_ends_as_those() {
        let mut tried = 0;
        for wanted in [&[0x04, 0x09][..], &[0x09, 0x04], &[0x01, 0x05, 0x05, 0x05, 0x02], &[0x07], &[]] {
            let fails = |script: &[u8]| in_order(wanted, &names(script));
            for script in scripts().filter(|script| fails(script)) {
                assert_eq!(names(&shrink(&script, fails)), wanted);
                tried += 1;
            }
        }
        assert!(tried >= 500, "{tried} scripts failed");
    }

    #[test]
    fn a_damaged_end_stays_whole() {
        for script in scripts() {
            assert_eq!(shrink(&script, |script| script.ends_with(&DAMAGED[2..])), DAMAGED);
        }
    }

    /// Ticks that can go only by twos.
    #[test]
    fn commands_go_together() {
        let fails = |script: &[u8]| script.len() % 2 == 0 && script.len() >= 4;
        assert_eq!(shrink(&[0x05; 64], fails), [0x05; 4]);
    }

    /// A release fails; a send does no harm after a power-on, which can go once the send has gone.
    #[test]
    fn commands_go_that_are_needed_no_more() {
        let script = [0x01, 0x00, 0x05, 0x01, 0x01, 0x01, 0x01, 0x01, 0x02, 0x00, 0x09, 0x00];
        let fails = |script: &[u8]| {
            let names = names(script);
            names.contains(&0x09) && (names.contains(&0x01) || !names.contains(&0x02))
        };
        assert_eq!(shrink(&script, fails), [0x09, 0x00]);
    }

    #[test]
    fn hex_has_a_command_to_a_line() {
        let script = [0x01, 0x00, 0x05, 0x01, 0x01, 0x01, 0x01, 0x01, 0x05, 0x02, 0x18, 0x06, 0xAB];
        assert_eq!(hex(&script), "01 00 05 01 01 01 01 01\n05\n02 18\n06 AB\n");
    }
}
