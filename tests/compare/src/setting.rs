//! Numbers that are given to the programs by variables of the environment: SEED, SCRIPTS, OPERATIONS, REPEATS.

use std::ffi::OsStr;
use std::process::exit;

/// The number given by `name`, or else `otherwise`. Anything but a number of at least `least` ends the program with status 2.
pub fn setting(name: &str, least: u64, otherwise: u64) -> u64 {
    let Some(given) = std::env::var_os(name) else { return otherwise };
    number(&given, least).unwrap_or_else(|right| {
        eprintln!("{name}={}: {name} is {right}", given.to_string_lossy());
        exit(2);
    })
}

/// Another number each time, where none is given by SEED.
pub fn fresh_seed() -> u64 {
    let now = std::time::SystemTime::now().duration_since(std::time::UNIX_EPOCH);
    now.map_or(1, |since| since.as_nanos() as u64)
}

/// The number that a text is, or what would be right in its place.
fn number(given: &OsStr, least: u64) -> Result<u64, String> {
    let number = given.to_str().and_then(|text| text.parse().ok());
    number.filter(|&number| number >= least).ok_or(format!("a whole number from {least} to {}", u64::MAX))
}

#[test]
fn only_numbers_that_are_large_enough_are_taken() {
    let taken = |text: &str, least| number(OsStr::new(text), least).ok();
    assert_eq!([taken("0", 0), taken("7", 1), taken("18446744073709551615", 1)], [Some(0), Some(7), Some(u64::MAX)]);
    let refused = ["0", "", "-1", "1.5", "0x10", "seven", " 7", "18446744073709551616"];
    assert_eq!(refused.map(|text| taken(text, 1)), [None; 8]);
    assert_eq!(number(OsStr::new("0"), 1).unwrap_err(), "a whole number from 1 to 18446744073709551615");
}
