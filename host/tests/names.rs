//! Scripts of either form to bytes and back, and wrong lines of every kind.

mod random;

use lcc::beside::{Beside, Placed};
use lcc::expand::{expand, Expanded};
use lcc::link::Link;
use lcc::{listing, script, spell};
use random::Random;

fn expanded(text: &str) -> Expanded {
    expand(&script::parse(text).unwrap_or_else(|faults| panic!("{faults:?} in\n{text}")))
}

/// The bytes of a script that has nothing beside them.
fn bytes_of(text: &str) -> Vec<u8> {
    let Expanded { bytes, beside, .. } = expanded(text);
    assert_eq!(beside, [], "{text}");
    bytes
}

/// By name to bytes, those to hex and by name again, and both to the same bytes.
#[test]
fn ten_thousand_random_scripts_there_and_back() {
    let (mut bytes_seen, mut ends_seen) = (0, 0);
    for seed in 0..10_000 {
        let text = random::script(&mut Random::new(seed));
        let bytes = bytes_of(&text);
        let (hex, names) = (listing::listing(&bytes), spell::script(&bytes, &[]));
        assert_eq!(bytes_of(&hex), bytes, "in hex, seed {seed}:\n{text}");
        assert_eq!(bytes_of(&names), bytes, "by name, seed {seed}:\n{text}");
        assert_eq!(spell::script(&bytes_of(&names), &[]), names, "seed {seed}");
        bytes_seen += bytes.len();
        ends_seen += usize::from(names.contains("bytes"));
    }
    assert!(bytes_seen > 1_000_000 && ends_seen > 500, "{bytes_seen} bytes, {ends_seen} ends");
}

/// Bytes that nobody wrote by name: every operand byte comes back.
#[test]
fn random_bytes_there_and_back() {
    let mut random = Random::new(1);
    for _ in 0..10_000 {
        let length = random.below(60);
        let byte = |random: &mut Random| if random.below(3) > 0 { random.below(12) } else { random.below(256) } as u8;
        let bytes: Vec<u8> = (0..length).map(|_| byte(&mut random)).collect();
        assert_eq!(bytes_of(&spell::script(&bytes, &[])), bytes, "by name: {bytes:02X?}");
        assert_eq!(bytes_of(&listing::listing(&bytes)), bytes, "in hex: {bytes:02X?}");
    }
}

/// Scripts with link orders and turns by name, and by name again: the same bytes, and the same beside them at the same places.
#[test]
fn ten_thousand_random_scripts_with_more_than_bytes_there_and_back() {
    let (mut links, mut turns, mut inner) = (0, 0, 0);
    for seed in 0..10_000 {
        let text = random::script_with(&random::beside(), &mut Random::new(seed));
        let there = expanded(&text);
        let names = spell::script(&there.bytes, &there.beside);
        let back = expanded(&names);
        assert_eq!(
            (&back.bytes, &back.beside),
            (&there.bytes, &there.beside),
            "seed {seed}:\n{text}"
        );
        assert_eq!(spell::script(&back.bytes, &back.beside), names, "seed {seed}");
        assert_eq!(
            script::in_bytes(&script::parse(&text).expect("it is right")).is_ok(),
            there.beside.is_empty()
        );
        let all = there.beside.len();
        let these = there.beside.iter().filter(|placed| placed.what == Beside::Turn).count();
        (links, turns) = (links + all - these, turns + these);
        inner += there.beside.iter().filter(|p| (1..there.bytes.len()).contains(&p.at)).count();
    }
    assert!(
        links > 30_000 && turns > 200_000 && inner > 200_000,
        "{links} link orders, {turns} turns, {inner} of both between bytes"
    );
}

/// A link state by its name or its number, and how `names` prints it.
#[test]
fn link_states_have_names_and_numbers() {
    let lines = [
        ("link 0 active", 0, 0, "link 0 active\n"),
        ("link 0 0", 0, 0, "link 0 active\n"),
        ("Link 23 PASSIVE", 23, 1, "link 23 passive\n"),
        ("link 7 1", 7, 1, "link 7 passive\n"),
        ("link 24 off", 24, 2, "link 24 off\n"),
        ("link 255 2", 255, 2, "link 255 off\n"),
        ("link 007 003", 7, 3, "link 7 3\n"),
        ("link 0 255", 0, 255, "link 0 255\n"),
    ];
    for (line, index, state, printed) in lines {
        let Expanded { bytes, beside, .. } = expanded(line);
        let what = Beside::Link(Link { index, state });
        assert_eq!(beside, [Placed { at: 0, what }], "{line}");
        assert_eq!(bytes, [], "{line}");
        assert_eq!(spell::script(&bytes, &beside), printed);
    }
}

/// What has no byte stands before the byte that follows it, and parts a row of ticks.
#[test]
fn link_orders_and_turns_stand_between_the_bytes() {
    let text =
        "link 0 off\non 0 05.01.01.01.01.01\nturn\nlink 1 9\ntick 3\nlink 0 off\ntick\nturn\n";
    let Expanded { bytes, beside, .. } = expanded(text);
    assert_eq!(bytes, bytes_of("on 0 05.01.01.01.01.01\ntick 4"));
    assert_eq!(beside.iter().map(|placed| placed.at).collect::<Vec<_>>(), [0, 8, 8, 11, 12]);
    assert_eq!(spell::script(&bytes, &beside), text);
}

/// In a script that is to be bytes, the first line that has none is one that cannot be.
#[test]
fn link_orders_and_turns_have_no_byte() {
    let parsed = |text: &str| script::parse(text).expect("it is right");
    for (line, name) in
        [("link 0 off", "link"), ("turn", "turn"), ("settle 3 turns", "a turn of settle")]
    {
        let faults = script::in_bytes(&parsed(&format!("tick\n{line}\n\ntick\nlink 9 9\nturn\n")));
        let faults = faults.expect_err("three lines have none");
        assert_eq!((faults[0].line, faults.len()), (2, 1));
        let why = format!("{name} has no byte in a script, so neither hex nor the program");
        assert!(faults[0].why.starts_with(&why), "{}", faults[0].why);
    }
    assert_eq!(script::in_bytes(&parsed("tick\nsend all\nsettle 3\nbytes FF")), Ok(()));
}

/// Each command's form, and the bytes that document 01 gives it.
const FORMS: [(&str, &str); 41] = [
    ("on 0 05.01.01.01.01.01", "01 00 05 01 01 01 01 01"),
    ("send 0", "02 00"),
    ("fail 23", "03 17"),
    ("deliver 255", "04 FF"),
    ("tick", "05"),
    ("tick 3", "05 05 05"),
    ("foreign AMD 263 05.01.01.01.01.01", "06 00 10 70 12 63 06 05 01 01 01 01 01 00 00"),
    ("foreign 17050263", "06 00 17 05 02 63 00 00 00 00 00 00 00 00 00"),
    ("foreign CID 7 263 050", "06 00 17 05 02 63 00 00 00 00 00 00 00 00 00"),
    ("foreign RID 263", "06 00 10 70 02 63 00 00 00 00 00 00 00 00 00"),
    ("foreign AME 263", "06 00 10 70 22 63 00 00 00 00 00 00 00 00 00"),
    ("foreign AMR 1 050101010101", "06 00 10 70 30 01 06 05 01 01 01 01 01 00 00"),
    ("foreign error 3 263", "06 00 10 71 32 63 00 00 00 00 00 00 00 00 00"),
    ("foreign message 15B4 263 07", "06 00 19 5B 42 63 01 07 00 00 00 00 00 00 00"),
    ("foreign remote 17050263", "06 01 17 05 02 63 00 00 00 00 00 00 00 00 00"),
    ("foreign short 123 0707", "06 02 00 00 01 23 02 07 07 00 00 00 00 00 00"),
    ("foreign kind 3 17050263 01 length 9", "06 03 17 05 02 63 09 01 00 00 00 00 00 00 00"),
    ("foreign RID 263 bit28 0", "06 00 00 70 02 63 00 00 00 00 00 00 00 00 00"),
    ("foreign RID 263 bit28 1", "06 00 10 70 02 63 00 00 00 00 00 00 00 00 00"),
    ("foreign CID 7 263 bit28 0", "06 00 07 00 02 63 00 00 00 00 00 00 00 00 00"),
    ("foreign AMD 263 01 length 9 bit28 0", "06 00 00 70 12 63 09 01 00 00 00 00 00 00 00"),
    ("foreign AMD 263 01 BIT28 0 length 9", "06 00 00 70 12 63 09 01 00 00 00 00 00 00 00"),
    ("foreign 10704263 bit28 0", "06 00 00 70 42 63 00 00 00 00 00 00 00 00 00"),
    ("foreign remote 07050263 bit28 1", "06 01 17 05 02 63 00 00 00 00 00 00 00 00 00"),
    ("foreign kind 1 17050263 bit28 0", "06 01 07 05 02 63 00 00 00 00 00 00 00 00 00"),
    ("message 0 15B4 01020304", "07 00 15 B4 04 01 02 03 04 00 00 00 00"),
    ("message 0 5B4 AB CD length 1", "07 00 05 B4 01 AB CD 00 00 00 00 00 00"),
    ("enquiry 0", "08 00 00 00 00 00 00 00 00"),
    ("enquiry 0 05.01.01.01.01.02", "08 00 06 05 01 01 01 01 02"),
    ("enquiry 0 05.01.01.01.01.02 length 5", "08 00 05 05 01 01 01 01 02"),
    ("release 0", "09 00"),
    ("warm 0 05.01.01.01.01.01 220FA69D5AA8", "0A 00 05 01 01 01 01 01 01 22 0F A6 9D 5A A8"),
    ("warm 23 050101010101 5", "0A 17 05 01 01 01 01 01 01 00 00 00 00 00 05"),
    ("Warm 255 00.00.00.00.00.00 fff flag 1", "0A FF 00 00 00 00 00 00 01 00 00 00 00 0F FF"),
    ("warm 0 FFFFFFFFFFFF FFFFFFFFFFFF flag 0", "0A 00 FF FF FF FF FF FF 00 FF FF FF FF FF FF"),
    ("warm 1 050101010101 123456789ABC FLAG 2", "0A 01 05 01 01 01 01 01 02 12 34 56 78 9A BC"),
    ("warm 1 050101010101 0 flag 255", "0A 01 05 01 01 01 01 01 FF 00 00 00 00 00 00"),
    ("bytes FF 01", "FF 01"),
    ("send all", ""),
    ("deliver all", ""),
    ("settle 2", "05 05"),
];

#[test]
fn each_form_has_its_bytes() {
    for (name, hex) in FORMS {
        assert_eq!(bytes_of(name), bytes_of(hex), "{name}");
    }
}

/// `names` prints each line so, which is read back as the same bytes, and so does the listing in hex.
fn are_spelt(lines: &[(&str, &str)]) {
    for &(line, printed) in lines {
        let bytes = bytes_of(line);
        assert_eq!(spell::script(&bytes, &[]), printed);
        assert_eq!(bytes_of(printed), bytes, "{line}");
        assert!(listing::listing(&bytes).ends_with(&format!(" # {printed}")), "{line}");
    }
}

/// A warm start, and how `names` prints it: the state whole, and the flag where it is not 1.
#[test]
fn warm_starts_are_spelt() {
    are_spelt(&[
        ("warm 0 050101010101 5", "warm 0 05.01.01.01.01.01 000000000005\n"),
        ("warm 9 050101010101 abcdef flag 001", "warm 9 05.01.01.01.01.01 000000ABCDEF\n"),
        (
            "warm 9 050101010101 FFFFFFFFFFFF flag 0",
            "warm 9 05.01.01.01.01.01 FFFFFFFFFFFF flag 0\n",
        ),
        ("warm 24 000000000000 0 flag 255", "warm 24 00.00.00.00.00.00 000000000000 flag 255\n"),
    ]);
}

/// 0A is the last byte that is a command's; cut short by one byte it is none.
#[test]
fn the_last_command_is_0a() {
    let end = |bytes: &str| script::parse(&format!("bytes {bytes}\nsend 0\n"));
    assert!(end("0A 00 05 01 01 01 01 01 01 22 0F A6 9D 5A A8").is_ok());
    let cut = end("0A 00 05 01 01 01 01 01 01 22 0F A6 9D 5A").expect_err("a byte is missing");
    assert!(cut[0].why.contains("end after 14 of the 15 bytes of command 0A"), "{cut:?}");
    for byte in [0, 11, 12, 255] {
        let unknown = end(&format!("{byte:02X}")).expect_err("no command");
        assert!(unknown[0].why.contains(&format!("the unknown command {byte:02X}")), "{unknown:?}");
    }
}

/// A foreign frame with bit 28 as 0, and how `names` prints it: by its sort where that has a name.
#[test]
fn frames_with_bit_28_as_0_are_spelt_by_their_sort() {
    are_spelt(&[
        ("foreign 00700263", "foreign RID 263 bit28 0\n"),
        ("foreign 07050263", "foreign CID 7 263 050 bit28 0\n"),
        ("foreign 00711000", "foreign error 1 000 bit28 0\n"),
        ("foreign 095B4263 07", "foreign message 15B4 263 07 bit28 0\n"),
        ("foreign 00701263 010203040506", "foreign AMD 263 01.02.03.04.05.06 bit28 0\n"),
        ("foreign 00702263 01 length 9", "foreign AME 263 01 length 9 bit28 0\n"),
        ("foreign RID 263 bit28 1", "foreign RID 263\n"),
        ("foreign 00704263", "foreign 00704263\n"),
        ("foreign 20700263", "foreign 20700263\n"),
        ("foreign remote 17050263 bit28 0", "foreign remote 07050263\n"),
        ("foreign short 123", "foreign short 123\n"),
    ]);
}

/// `all` and `settle` stand for the commands that the card gives occasion for.
#[test]
fn all_goes_by_what_the_card_holds() {
    let on = "on 2 05.01.01.01.01.01\non 0 05.01.01.01.01.02\n";
    let by_hand = |lines: &str| bytes_of(&(on.to_string() + lines));
    assert_eq!(by_hand("send all"), by_hand("send 0\nsend 2"));
    assert_eq!(
        by_hand("send all\nsend 0\ndeliver all"),
        by_hand("send 0\nsend 2\nsend 0\ndeliver 0\ndeliver 2\ndeliver 2")
    );
    let tick = "deliver 0\ndeliver 2\nsend 0\nsend 2\ntick\n";
    assert_eq!(by_hand("settle 2"), by_hand(&format!("send 0\nsend 2\ntick\n{tick}")));
}

/// A link order counts for what the card holds: `send all` sends the error report that is due by it.
#[test]
fn all_goes_by_link_orders_too() {
    let up = "on 2 05.01.01.01.01.01\nsettle 206\n";
    let by_all = expanded(&format!("{up}link 2 passive\nsend all\n"));
    let by_hand = expanded(&format!("{up}link 2 passive\nsend 2\n"));
    assert_eq!((by_all.bytes, by_all.beside), (by_hand.bytes, by_hand.beside));
    assert_eq!(bytes_of(&format!("{up}send all\n")), bytes_of(up));
}

/// Lines that are wrong, and what is said of each.
const WRONG: [(&str, &str); 93] = [
    ("sned 0", "\"sned\" is no command; expected one of on, send"),
    ("on", "the index is missing; expected a whole number from 0 to 255"),
    ("on 0", "the Node ID is missing; expected six bytes in hex, as 05.01.01.01.01.01"),
    ("on 0 05.01.01.01.01", "\"05.01.01.01.01\" is no Node ID; expected six bytes"),
    ("on 0 5.1.1.1.1.1", "\"5.1.1.1.1.1\" is no Node ID"),
    ("on 0 05.01.01.01.01.01 9", "\"9\" is too much; the form is: on INDEX NODE-ID"),
    ("on x 05.01.01.01.01.01", "\"x\" is no index"),
    (
        "send 256",
        "\"256\" is no index; expected a whole number from 0 to 255, the nodes being 0 to 23",
    ),
    ("send -1", "\"-1\" is no index"),
    ("send +1", "\"+1\" is no index"),
    ("send 0 1", "\"1\" is too much"),
    ("send", "the index is missing"),
    ("deliver al", "\"al\" is no index"),
    ("deliver all 3", "\"3\" is too much"),
    ("fail", "the index is missing"),
    ("tick 0", "\"0\" is no count of ticks; expected a whole number from 1 to 65536"),
    ("tick 65537", "\"65537\" is no count of ticks"),
    ("tick 99999999999999999999999", "is no count of ticks"),
    ("settle", "the count of ticks is missing"),
    ("settle x", "\"x\" is no count of ticks"),
    (
        "settle turns",
        "\"turns\" is no count of ticks; expected a whole number from 1 to 65536; \
         the form is: settle COUNT, or settle COUNT turns",
    ),
    (
        "settle 300 turn",
        "\"turn\" is no way to settle; expected turns, or nothing behind the count; \
         the form is: settle COUNT, or settle COUNT turns",
    ),
    ("settle 300 3", "\"3\" is no way to settle; expected turns"),
    ("settle turns 300", "\"turns\" is no count of ticks"),
    ("settle 300 turns 3", "\"3\" is too much; the form is: settle COUNT, or settle COUNT turns"),
    ("settle 0 turns", "\"0\" is no count of ticks"),
    (
        "turn 3",
        "\"3\" is too much: the card chooses whose turn it is, and send lets a node of your choice send; \
         the form is: turn",
    ),
    ("turn all", "\"all\" is too much: the card chooses whose turn it is"),
    ("turns", "\"turns\" is no command; expected one of on, send, fail"),
    ("foreign", "the frame is missing; expected a header of 8 hex digits, or one of CID"),
    ("foreign 1705026", "\"1705026\" is no frame"),
    ("foreign XYZ 263", "\"XYZ\" is no frame"),
    ("foreign AMD", "the alias is missing; expected 1 to 3 hex digits"),
    ("foreign AMD 1263", "\"1263\" is no alias"),
    ("foreign AMD 263 050", "\"050\" is no data; expected bytes of two hex digits"),
    ("foreign CID 8 263", "\"8\" is no number of a CID; expected a whole number from 1 to 7"),
    ("foreign CID 7 263 05", "\"05\" is no section; expected 3 hex digits"),
    ("foreign error 4 263", "expected a whole number from 0 to 3"),
    ("foreign message 8000 263", "8000 is no field of a frame; expected 0000 to 7FFF"),
    ("foreign message 15B4", "the alias is missing"),
    ("foreign remote", "the header is missing; expected 8 hex digits"),
    ("foreign short 1234", "\"1234\" is no header; expected 3 or 8 hex digits"),
    ("foreign kind 256 17050263", "\"256\" is no kind"),
    ("foreign 17050263 010203040506070809", "9 bytes of data; expected 8 at most"),
    ("foreign 17050263 01 length", "the length is missing"),
    ("foreign 17050263 01 length 256", "\"256\" is no length"),
    ("foreign 17050263 01..02", "\"01..02\" is no data"),
    (
        "foreign RID 263 bit28",
        "the bit is missing; expected 0 or 1; the form is: foreign FRAME [length N] [bit28 BIT]",
    ),
    ("foreign RID 263 bit28 2", "\"2\" is no bit; expected 0 or 1"),
    ("foreign RID 263 bit28 bit28 0", "\"bit28\" is no bit; expected 0 or 1"),
    ("foreign RID 263 bit28 0 bit28 0", "bit28 is there twice; expected it once"),
    ("foreign RID 263 bit28 0 length 9 bit28 1", "bit28 is there twice; expected it once"),
    ("foreign RID 263 length 9 bit28 0 length 9", "length is there twice; expected it once"),
    ("foreign RID 263 bit28 0 01", "\"01\" is too much; the form is: foreign FRAME"),
    ("foreign RID 263 bit 28 0", "\"bit\" is no data"),
    ("foreign RID bit28 0", "\"bit28\" is no alias"),
    ("foreign bit28 0", "\"bit28\" is no frame"),
    (
        "foreign short 123 bit28 0",
        "an eleven-bit frame has no bit 28; expected bit28 on an extended frame or a remote one",
    ),
    ("foreign kind 3 17050263 bit28 1", "a frame of kind 3 has no bit 28; expected bit28 on an"),
    (
        "send 0 bit28 0",
        "bit28 is for foreign frames alone: nodes send bit 28 as 1; the form is: send INDEX",
    ),
    ("message 0 15B4 01 bit28 0", "bit28 is for foreign frames alone"),
    ("enquiry 0 bit28 0", "bit28 is for foreign frames alone"),
    ("message 0", "the field is missing; expected 1 to 4 hex digits"),
    ("message 0 15B45", "\"15B45\" is no field"),
    ("message 0 15B4 0", "\"0\" is no data"),
    ("enquiry 0 0501", "\"0501\" is no Node ID"),
    ("release", "the index is missing"),
    (
        "warm",
        "the index is missing; expected a whole number from 0 to 255, the nodes being 0 to 23; \
         the form is: warm INDEX NODE-ID STATE [flag N]",
    ),
    ("warm 256 050101010101 0", "\"256\" is no index"),
    ("warm 0", "the Node ID is missing; expected six bytes in hex"),
    ("warm 0 0501 0", "\"0501\" is no Node ID"),
    ("warm 0 050101010101", "the generator state is missing; expected 1 to 12 hex digits"),
    (
        "warm 0 050101010101 1000000000000",
        "\"1000000000000\" is no generator state; expected 1 to 12 hex digits; the form is: warm INDEX",
    ),
    ("warm 0 050101010101 22.0F.A6.9D.5A.A8", "\"22.0F.A6.9D.5A.A8\" is no generator state"),
    ("warm 0 050101010101 -1", "\"-1\" is no generator state"),
    ("warm 0 050101010101 flag 0", "\"flag\" is no generator state"),
    ("warm 0 050101010101 0 flag", "the flag is missing; expected a whole number from 0 to 255"),
    ("warm 0 050101010101 0 flag 256", "\"256\" is no flag"),
    ("warm 0 050101010101 0 flag 0 flag 0", "\"flag\" is too much; the form is: warm INDEX"),
    ("warm 0 050101010101 0 1", "\"1\" is too much; the form is: warm INDEX"),
    ("on 0 050101010101 flag 0", "\"flag\" is too much; the form is: on INDEX NODE-ID"),
    ("warm all", "\"all\" is no index"),
    ("link", "the index is missing"),
    (
        "link 0",
        "the link state is missing; expected active, passive, off, or a whole number from 0 to 255",
    ),
    ("link 0 busy", "\"busy\" is no link state; expected active, passive, off, or a whole number"),
    ("link 0 256", "\"256\" is no link state"),
    ("link 0 -1", "\"-1\" is no link state"),
    ("link 0 99999999999999999999999", "is no link state"),
    ("link off 0", "\"off\" is no index"),
    ("link 0 off 1", "\"1\" is too much; the form is: link INDEX STATE"),
    ("bytes", "the first byte is missing"),
    ("bytes F", "\"F\" is no first byte; expected bytes of two hex digits"),
    ("bytes FF é", "\"é\" is no byte"),
];

/// A line that is wrong is named, with what was wrong and what was expected.
#[test]
fn wrong_lines_by_name() {
    for (line, why) in WRONG {
        let text = format!("# a script\non 0 05.01.01.01.01.01\n{line}\nsend 0\n");
        let faults = script::parse(&text).expect_err(line);
        assert_eq!(faults.len(), 1, "{line}: {faults:?}");
        assert_eq!(faults[0].line, 3, "{line}");
        assert!(faults[0].why.contains(why), "{line}: {}", faults[0].why);
    }
}

#[test]
fn every_wrong_line_is_named() {
    let faults =
        script::parse("send 0\nsend\n\nsend 0\nsend x\n").expect_err("two lines are wrong");
    assert_eq!(faults.iter().map(|fault| fault.line).collect::<Vec<_>>(), [2, 5]);
}

#[test]
fn nothing_follows_bytes_that_end_the_run() {
    let faults = script::parse("send 0\nbytes 05 FF\nsend 0\n").expect_err("FF is no command");
    assert_eq!((faults[0].line, faults.len()), (3, 1));
    assert!(
        faults[0].why.contains("the bytes from line 2 on have the unknown command FF"),
        "{}",
        faults[0].why
    );
    let faults = script::parse("bytes 01 00\nbytes 05\nsend 0\n").expect_err("01 has eight bytes");
    assert!(
        faults[0].why.contains("the bytes from line 1 on end after 3 of the 8 bytes"),
        "{}",
        faults[0].why
    );
    assert_eq!(
        bytes_of("bytes 01 00\nbytes 05 01 01 01 01 01\nsend 0"),
        bytes_of("on 0 050101010101\nsend 0")
    );
}

/// A link order or a turn follows no bytes that end the run, and stands within no command that bytes have begun.
#[test]
fn nothing_without_a_byte_follows_part_of_a_command() {
    let faults = |text: &str| script::parse(text).expect_err("bytes are open");
    for line in ["link 0 off", "turn", "settle 1 turns"] {
        let after_the_end = faults(&format!("tick\nbytes 05 FF\n{line}\n"));
        assert_eq!((after_the_end[0].line, after_the_end.len()), (3, 1));
        assert!(after_the_end[0].why.contains("have the unknown command FF"), "{after_the_end:?}");
        let within = faults(&format!("bytes 01 00\n{line}\nbytes 05 01 01 01 01 01\n"));
        assert_eq!((within[0].line, within.len()), (2, 1));
        let why = "the bytes from line 1 on end after 2 of the 8 bytes of command 01";
        assert!(within[0].why.contains(why), "{within:?}");
    }
    for line in ["link 0 off", "turn"] {
        let whole = format!("bytes 01 00\nbytes 05 01 01 01 01 01\n{line}\nbytes 05\n");
        let whole = expanded(&whole);
        assert_eq!((whole.beside[0].at, whole.beside.len(), whole.bytes.len()), (8, 1, 9));
    }
}

#[test]
fn wrong_lines_in_hex() {
    let wrong = [
        ("0G", "\"G\" is no hex digit"),
        ("02 0O", "\"O\" is no hex digit; expected bytes of two hex digits"),
        ("O2 00", "\"O\" is no hex digit"),
        ("02 0", "half a byte: 3 digits"),
        ("send 0", "\"s\" is no hex digit"),
        ("02, 00", "\",\" is no hex digit"),
    ];
    for (line, why) in wrong {
        let text = format!("# a script\n01 00 05 01 01 01 01 01\n{line}  # here\n05\n");
        let faults = script::parse(&text).expect_err(line);
        assert_eq!((faults[0].line, faults.len()), (3, 1), "{line}");
        assert!(faults[0].why.contains(why), "{line}: {}", faults[0].why);
    }
}

/// The form is told by the first words of the lines, whatever is wrong in them.
#[test]
fn forms_are_told_apart() {
    use lcc::script::Form::{Hex, Names};
    let forms = [
        ("", Names),
        ("# nothing", Names),
        ("05", Hex),
        ("0501\nFA", Hex),
        ("0G 00", Hex),
        ("fail 0", Names),
        ("Deliver all\n", Names),
        ("sned 0", Names),
        ("on 0 05.01.01.01.01.01\n05", Names),
        ("05\n05\nsend 0", Hex),
        ("\u{FEFF}05\r\n", Hex),
        ("send 0 # 05 05", Names),
        ("link 0 off\n05", Names),
        ("turn\n05", Names),
        ("warm 0 0 0\n05", Names),
        (":X17050263N;", Names),
        (":X17050263N;\n05", Names),
        (":x\n:\n05", Names),
        ("X17050263N;\n05", Names),
        ("12:00:01.5 :X17050263N;\n12:00:01.7 :X10700263N;", Names),
        ("1234 :X17050263N;", Names),
        ("05:05\n05", Hex),
    ];
    for (text, form) in forms {
        assert_eq!(script::form_of(&script::sources(text)), form, "{text:?}");
    }
}

/// Words of scripts, right and wrong.
const WORDS: [&str; 28] = [
    "on",
    "send",
    "foreign",
    "AMD",
    "CID",
    "all",
    "length",
    "0",
    "7",
    "263",
    "05.01",
    "FF",
    "é",
    "#",
    "\n",
    "bytes",
    "-1",
    ".",
    "link",
    "off",
    "bit28",
    "turn",
    "settle",
    "turns",
    ":X17050263N;",
    ":X",
    "warm",
    "flag",
];

/// Whatever stands in a text, it is read or refused, and always by a line that is there.
#[test]
fn any_text_is_read_or_refused() {
    let mut random = Random::new(7);
    let (mut read, mut refused) = (0, 0);
    for _ in 0..20_000 {
        let count = random.below(12);
        let text: Vec<&str> =
            (0..count).map(|_| WORDS[random.below(WORDS.len() as u64) as usize]).collect();
        let text = text.join(" ");
        match script::parse(&text) {
            Ok(lines) => read += usize::from(!expand(&lines).bytes.is_empty()),
            Err(faults) => {
                refused += 1;
                assert!(
                    faults.iter().all(|fault| (1..=text.lines().count()).contains(&fault.line)),
                    "{text}"
                );
            }
        }
    }
    assert!(read > 100 && refused > 10_000, "{read} read, {refused} refused");
}
