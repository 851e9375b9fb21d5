//! GridConnect text (request A.7): what is taken and how a log is played, what is said of a wrong text, and what --grid prints.

mod examples;
mod random;
mod shown;

use std::fs;
use std::path::Path;

use examples::{example, names};
use lcc::actions::fulfil;
use lcc::card::{read_text, write_text};
use lcc::command::{Command, Read};
use lcc::expand::Expanded;
use lcc::frame::{Frame, ELEVEN_BIT, EXTENDED, REMOTE};
use lcc::gridconnect::fault;
use lcc::script;
use lcc::usage::{Options, Wish};
use random::Random;
use shown::{expanded, shown};

const UP: &str = "on 0 05.01.01.01.01.01\non 1 05.01.01.01.01.02\nsettle 207\n";

fn bytes_of(text: &str) -> Vec<u8> {
    expanded(text).bytes
}

/// What the tool prints for a script; the file is for one test alone.
fn printed(name: &str, script: &str, options: Options) -> String {
    let file = Path::new(env!("CARGO_TARGET_TMPDIR")).join(name);
    fs::write(&file, script).expect("the folder can be written");
    let printed = fulfil(&Wish::Run(file, options)).expect("it runs");
    String::from_utf8(printed).expect("it prints text")
}

fn grid(name: &str, script: &str) -> String {
    printed(name, script, Options { grid: true, ..Options::default() })
}

/// The foreign frames of a script, in order.
fn foreign(script: &str) -> Vec<Frame> {
    let Expanded { bytes, .. } = expanded(script);
    let (mut frames, mut rest) = (Vec::new(), &bytes[..]);
    while !rest.is_empty() {
        let Read::Whole(command, size) = Command::read(rest) else { panic!("{rest:?}") };
        if let Command::Foreign(frame) = command {
            frames.push(frame);
        }
        rest = &rest[size..];
    }
    frames
}

/// A frame of the eight bytes of which so many count, and the rest are 0.
fn frame_of(header: u32, len: u8, data: u64) -> Frame {
    let data = data.to_be_bytes();
    let counted = std::array::from_fn(|i| if i < usize::from(len) { data[i] } else { 0 });
    Frame { kind: EXTENDED, header, len, data: counted }
}

/// Texts, and the same frame by its header.
const TEXTS: [(&str, &str); 9] = [
    (":X17050263N;", "17050263"),
    (":X195B4263N07;", "195B4263 07"),
    (":X195b4263Nabcd;", "195B4263 ABCD"),
    (":X195B4263NaBCd;", "195B4263 ABCD"),
    (":X10701111N050101010101;", "AMD 111 05.01.01.01.01.01"),
    (":X195B4263N0101000000000201;", "message 15B4 263 0101000000000201"),
    (":X00700263N;", "RID 263 bit28 0"),
    (":X1FFFFFFFNFFFFFFFFFFFFFFFF;", "1FFFFFFF FFFFFFFFFFFFFFFF"),
    (":X00000000N;", "00000000"),
];

/// After `foreign`, in a line of its own, and however many stand on a line.
#[test]
fn a_text_is_the_frame_of_its_header() {
    for (text, header) in TEXTS {
        let by_header = format!("{UP}foreign {header}\n");
        assert_eq!(bytes_of(&format!("{UP}foreign {text}\n")), bytes_of(&by_header), "{text}");
        assert_eq!(foreign(text), foreign(&by_header), "{text}");
    }
    let texts: Vec<&str> = TEXTS.iter().map(|(text, _)| *text).collect();
    let frames: Vec<Frame> = texts.iter().flat_map(|text| foreign(text)).collect();
    assert_eq!(frames.len(), TEXTS.len());
    for between in ["", " ", "\t  ", "\n", "\r\n", "   # a comment\n\n"] {
        assert_eq!(foreign(&texts.join(between)), frames, "{between:?}");
    }
}

/// A line of a log is heard at once, and no time passes in it.
#[test]
fn a_log_is_heard_frame_by_frame() {
    let by_hand = "foreign :X17050263N;\ndeliver all\nsend all\nforeign :X10702111N;\ndeliver all\nsend all\n";
    for log in [":X17050263N;:X10702111N;\n", ":X17050263N;\n:X10702111N;\n"] {
        let log = format!("{UP}{log}");
        assert_eq!(bytes_of(&log), bytes_of(&format!("{UP}{by_hand}")));
        let explained = shown(&log).explained;
        let answers = explained.lines().filter(|line| line.contains(" 02 ok ")).rev().take(3);
        let answers: Vec<&str> =
            answers.map(|line| line.split("  ").next().expect("a line")).collect();
        let frames = ["10701264 050101010102", "10701263 050101010101", "10700263"];
        assert!(
            answers.iter().zip(frames).all(|(line, frame)| line.ends_with(frame)),
            "{answers:?}"
        );
        assert!(explained.contains("up to tick 207\n") || explained.contains("a tick, tick 207\n"));
        assert!(!explained.contains("tick 208"), "{explained}");
    }
}

/// However long a log is, none of it is refused; 33 foreign frames in a row are one too many for an inbox.
#[test]
fn a_long_log_fills_no_inbox() {
    let all_on: String = (0..24).map(|i| format!("on {i} 0501010102{i:02X}\n")).collect();
    for texts in [":X195B4111N01;\n", ":X10702111N;\n", ":X10702111N; :X17050362N; :X10702112N;\n"]
    {
        let lines = printed(
            "long.lcc",
            &format!("{all_on}settle 207\n{}", texts.repeat(20)),
            Options::default(),
        );
        assert!(!lines.contains("refused") && lines.ends_with("kept\n"), "{texts}");
    }
    let by_hand = "foreign :X195B4111N01;\n".repeat(33);
    let lines = printed("by-hand.lcc", &format!("{UP}{by_hand}"), Options::default());
    assert_eq!(lines.matches(" 06 refused 5\n").count(), 1, "{lines}");
}

/// Texts that are wrong, and what is said of each.
const WRONG: [(&str, &str); 22] = [
    (":x17050263N;", "character 2 is \"x\"; expected \"X\", in upper case"),
    (
        ":S123N;",
        "character 2 is \"S\", for an eleven-bit frame, which foreign short takes; expected \"X\"",
    ),
    ("X17050263N;", "character 1 is \"X\"; expected \":\""),
    ("x17050263N;", "character 1 is \"x\"; expected \":\""),
    ("::X17050263N;", "character 2 is \":\"; expected \"X\""),
    (
        ":X20000000N;",
        "character 3 is \"2\"; expected 0 or 1, since a header has 29 bits: 1FFFFFFF at most",
    ),
    (":XF7050263N;", "character 3 is \"F\"; expected 0 or 1"),
    (":X1705026N;", "character 10 is \"N\"; expected a hex digit: a header has 8 of them"),
    (
        ":X170502630N;",
        "character 11 is \"0\"; expected \"N\", in upper case, behind 8 digits of header",
    ),
    (":X17050263n;", "character 11 is \"n\"; expected \"N\", in upper case"),
    (
        ":X17050263R;",
        "character 11 is \"R\", for a remote frame, which foreign remote takes; expected \"N\"",
    ),
    (":X17050263;", "character 11 is \";\"; expected \"N\""),
    (":X17050263N0;", "character 13 is \";\"; expected a hex digit: a byte has two of them"),
    (":X17050263N0G;", "character 13 is \"G\"; expected a hex digit"),
    (
        ":X17050263NG0;",
        "character 12 is \"G\"; expected a byte of two hex digits, or \";\" at the end",
    ),
    (":X17050263N 01;", "character 12 is a blank; expected a byte of two hex digits, or \";\""),
    (":X1705é263N;", "character 7 is \"é\"; expected a hex digit"),
    (
        ":X17050263N010203040506070809;",
        "character 28 is \"0\"; expected \";\", since a frame has eight bytes at most",
    ),
    (
        ":X17050263N",
        "it ends with character 11; expected then a byte of two hex digits, or \";\" at the end",
    ),
    (
        ":X17050263N010",
        "it ends with character 14; expected then a hex digit: a byte has two of them",
    ),
    (
        ":X17050263N0102030405060708",
        "it ends with character 27; expected then \";\", since a frame",
    ),
    (":", "it ends with character 1; expected then \"X\""),
];

fn why(line: &str) -> String {
    let faults = script::parse(&format!("{UP}{line}\nsend 0\n")).expect_err(line);
    assert_eq!((faults[0].line, faults.len()), (4, 1), "{line}: {faults:?}");
    faults[0].why.clone()
}

/// Which place is wrong, what is there, and what would be right: after `foreign`, in a line of its own, and behind a right one.
#[test]
fn a_wrong_text_is_named() {
    for (text, expected) in WRONG {
        let said = format!("\"{text}\" is no GridConnect frame: {expected}");
        for before in ["foreign ", "", ":X17050263N;", ":X17050263N; "] {
            let why = why(&format!("{before}{text}"));
            let form = if before == "foreign " { "foreign FRAME" } else { ":X17050263N0102; once" };
            assert!(why.contains(&format!("; the form is: {form}")), "{before}{text}: {why}");
            assert!(why.starts_with(&said), "{before}{text}: {why}");
        }
    }
}

/// The text says all of a frame: neither data nor endings follow it, nor another frame after one `foreign`.
#[test]
fn nothing_follows_a_text() {
    for more in ["01", "0102 03", "length 0", "bit28 0", ":X17050263N;", ";"] {
        let why = why(&format!("foreign :X17050263N; {more}"));
        let said = format!("\"{more}\" is too much: GridConnect text has a frame's data, its length and bit 28 in itself");
        assert!(why.starts_with(&said), "{more}: {why}");
    }
    for more in ["01", "length 0", "bit28 0", "send 0", ";"] {
        let why = why(&format!(":X17050263N; {more}"));
        assert!(
            why.starts_with(&format!("\"{more}\" is no GridConnect frame: character 1 is")),
            "{why}"
        );
    }
}

/// A word that is not meant as such a text is no command, and no frame after `foreign`; a time before a text is one.
#[test]
fn other_words_are_not_taken_for_a_text() {
    for word in ["tick;", "X17050263N", "!X17050263N;", "[:X17050263N;]", "12:00:01.5", "1234"] {
        for behind in ["", " :X17050263N;"] {
            let said = why(&format!("{word}{behind}"));
            assert!(
                said.starts_with(&format!("\"{word}\" is no command; expected one of on,")),
                "{said}"
            );
            assert!(said.ends_with(", or GridConnect text as :X17050263N;"), "{said}");
        }
        let said = why(&format!("foreign {word}"));
        let form = "or GridConnect text; the form is: foreign FRAME [length N] [bit28 BIT], or foreign :X17050263N;";
        assert!(said.starts_with(&format!("\"{word}\" is no frame; expected")), "{said}");
        assert!(said.ends_with(form), "{said}");
    }
    let said = why(":X17050263N\t01;");
    assert!(said.contains(": character 12 is a blank; expected a byte"), "{said}");
}

/// A text with some characters changed, left out or put in.
fn misspelt(random: &mut Random) -> String {
    let len = random.below(10) as usize;
    let header = format!("{:08X}", random.below(1 << 30));
    let mut text: Vec<char> = format!(":X{header}N{};", "5a".repeat(len)).chars().collect();
    for _ in 0..random.below(3) {
        let at = random.below(text.len() as u64) as usize;
        let other = [':', 'X', 'x', 'N', 'n', ';', '0', '2', 'f', 'G', ' ', 'é', '\0']
            [random.below(13) as usize];
        match random.below(3) {
            0 => text[at] = other,
            1 => text.insert(at, other),
            _ => drop(text.remove(at)),
        }
    }
    text.into_iter().collect()
}

/// The tool finds something wrong with exactly those texts that the library refuses.
#[test]
fn a_fault_is_found_where_the_library_refuses() {
    let mut random = Random::new(11);
    let (mut accepted, mut refused) = (0, 0);
    for _ in 0..200_000 {
        let text = misspelt(&mut random);
        let frame = read_text(&text);
        assert_eq!(
            frame.is_none(),
            fault(&text).is_some(),
            "{text}: {frame:?}, {:?}",
            fault(&text)
        );
        if let Some(frame) = frame {
            assert_eq!(write_text(&frame), Some(text.to_ascii_uppercase()));
            accepted += 1;
        } else {
            refused += 1;
        }
    }
    assert!(accepted > 20_000 && refused > 100_000, "{accepted} accepted, {refused} refused");
}

/// Every extended frame has a text, which reads back as itself; none other has one.
#[test]
fn every_frame_that_can_leave_has_a_text() {
    let mut random = Random::new(13);
    for _ in 0..20_000 {
        let (header, len) = (random.below(1 << 29) as u32, random.below(9) as u8);
        let frame = frame_of(header, len, random.below(1 << 48) << 16 | random.below(1 << 16));
        let text = write_text(&frame).expect("it is extended");
        let digits: String = frame.bytes().iter().map(|byte| format!("{byte:02X}")).collect();
        assert_eq!(text, format!(":X{header:08X}N{digits};"));
        assert_eq!(read_text(&text), Some(frame), "{text}");
        for other in [
            Frame { kind: REMOTE, ..frame },
            Frame { kind: ELEVEN_BIT, ..frame },
            Frame { header: header | 1 << 29, ..frame },
            Frame { len: len + 9, ..frame },
        ] {
            assert_eq!(write_text(&other), None, "{other:?}");
        }
    }
}

/// Of each example --grid prints GridConnect text and nothing else, also where it draws besides; and that is a script as it is.
#[test]
fn what_is_printed_can_be_played() {
    let mut frames = 0;
    for name in names() {
        let printed_frames = grid("example.lcc", &example(&name));
        let picture = Path::new(env!("CARGO_TARGET_TMPDIR")).join("example.svg");
        let drawn = Options { grid: true, picture: Some(picture), ..Options::default() };
        assert_eq!(printed("example.lcc", &example(&name), drawn), printed_frames, "{name}");
        let texts: Vec<&str> = printed_frames.lines().collect();
        let played = foreign(&printed_frames);
        let written: Vec<String> = played.iter().map(|f| write_text(f).expect("it left")).collect();
        assert_eq!(written, texts, "{name}");
        frames += texts.len();
    }
    assert!(frames > 200, "{frames} frames");
}

/// What the exhibits of one card send is foreign to those of another: they hear each frame of it, and answer for their own alias.
#[test]
fn one_card_hears_what_another_has_sent() {
    let log =
        grid("sender.lcc", "on 5 05.01.01.01.01.01\nsettle 207\nmessage 5 05B4 42\nsettle 1\n");
    let sent = [
        ":X17050263N;",
        ":X16101263N;",
        ":X15010263N;",
        ":X14101263N;",
        ":X10700263N;",
        ":X10701263N050101010101;",
        ":X185B4263N42;",
    ];
    assert_eq!(log.lines().collect::<Vec<_>>(), sent);
    // Its Node ID is 4,095 higher, so that its first alias is 263 too.
    let hearer = "on 0 05.01.01.01.11.00\nsettle 207\n";
    let answers = grid("hearer.lcc", &format!("{hearer}{log}"));
    let answers: Vec<&str> = answers.lines().skip(6).collect();
    assert_eq!(answers[..4], [":X10700263N;"; 4], "a reply RID to each CID");
    assert_eq!(
        answers[4], ":X10703263N050101011100;",
        "an AMR, since the alias is used by another"
    );
    let heard = shown(&format!("{hearer}{log}")).explained;
    for text in sent {
        let words = lcc::words::frame(&read_text(text).expect("it left"));
        assert!(
            heard.contains(&format!("node 0 takes {words}, from foreign equipment: ")),
            "{words}"
        );
    }
}

/// A script's bytes do not tell how a frame was written: by name it is one of its sort.
#[test]
fn by_name_a_frame_is_spelt_by_its_sort() {
    let bytes = bytes_of("foreign :X10701111N050101010101;\n:X095b4263Nab;\n");
    let names = lcc::spell::script(&bytes, &[]);
    let lines = "foreign AMD 111 05.01.01.01.01.01\nforeign message 15B4 263 AB bit28 0\n";
    assert_eq!(names, lines);
}
