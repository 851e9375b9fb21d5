//! Frames that come with bit 28 as 0 (request A.5): they are marked in words, in colour and in the summary, and exhibits do by them
//! what they do by the same with 1.

mod random;
mod shown;

use lcc::command::{Command, Read};
use lcc::expand::Expanded;
use lcc::paint::Paint;
use shown::{expanded, parted, shown, shown_of};

const SCRIPTS: u64 = 1_000;
const MARK: &str = ", bit 28 as 0";

const PERMITTED: &str = "on 0 05.01.01.01.01.01\nsettle 206\n";

/// A script with bit 28 of all foreign frames that have it as this bit.
fn turned(script: &Expanded, bit: u8) -> Expanded {
    let mut turned = script.clone();
    let mut at = 0;
    while let Some(Read::Whole(command, size)) = script.bytes.get(at..).and_then(first) {
        if let Command::Foreign(frame) = command {
            let has_it = frame.with_bit_28(0).has_bit_28_as_0();
            let frame = if has_it { frame.with_bit_28(bit) } else { frame };
            turned.bytes[at..at + size].copy_from_slice(&Command::Foreign(frame).bytes());
        }
        at += size;
    }
    turned
}

fn first(bytes: &[u8]) -> Option<Read> {
    (!bytes.is_empty()).then(|| Command::read(bytes))
}

/// What is said of frames with bit 28 as 0, without the marks, and as it would be said of the same with 1.
fn unmarked(text: &str) -> String {
    let before = text.lines().take_while(|line| !line.contains("came with bit 28 as 0"));
    let before: String = before.map(|line| format!("{line}\n")).collect();
    // A remote frame is told by its header.
    before
        .replace(&format!("{MARK}, of "), " of ")
        .replace(MARK, "")
        .replace("remote frame 0", "remote frame 1")
}

/// The tool says the same of two lists that differ in bit 28 alone, but for its marks; and it marks no frame of an exhibit.
#[test]
fn exhibits_do_the_same_by_either_bit() {
    let (mut marks, mut collisions) = (0, 0);
    for seed in 0..SCRIPTS {
        let script = expanded(&random::list(seed));
        let [as_0, as_1] = [0, 1].map(|bit| shown_of(&turned(&script, bit), Paint(false)));
        for text in [&as_1.explained, &as_1.summary, &as_1.picture] {
            assert!(!text.contains("bit 28") && !text.contains("bit28"), "seed {seed}:\n{text}");
        }
        assert_eq!(unmarked(&as_0.explained), as_1.explained, "seed {seed}");
        let (marked, plain) = (parted(&as_0.summary), parted(&as_1.summary));
        assert_eq!((unmarked(marked.0).as_str(), marked.1), plain, "seed {seed}");
        for line in as_0.explained.lines().filter(|line| line.contains(MARK)) {
            assert!(line.contains("foreign ") && !line.contains(" sends "), "seed {seed}: {line}");
            marks += 1;
        }
        collisions += as_0.summary.matches(&format!("{MARK}, of foreign equipment")).count();
    }
    assert!(marks > 5_000 && collisions > 100, "{marks} marks, {collisions} collisions");
}

/// The summary counts the frames that came, and no others.
#[test]
fn the_summary_counts_what_came() {
    for seed in 0..SCRIPTS {
        let shown = shown(&random::list(seed));
        let came = |line: &&str| line.contains(" 06 ok ") && line.contains(MARK);
        let came = shown.explained.lines().filter(came).count();
        let counted = shown.summary.lines().find(|line| line.contains("came with bit 28 as 0"));
        let counted = counted.map_or("0", |line| line.split_once(' ').expect("a count").0);
        assert_eq!(counted, came.to_string(), "seed {seed}:\n{}", shown.summary);
    }
}

/// Foreign frames to node 0, which is Permitted, and what is said of each before its effect.
const FRAMES: [(&str, &str); 12] = [
    ("RID 111 bit28 0", "RID, alias 111, bit 28 as 0"),
    ("RID 111 bit28 1", "RID, alias 111"),
    ("00700111", "RID, alias 111, bit 28 as 0"),
    ("CID 7 263 0A0 bit28 0", "CID 7, alias 263, section 0A0, bit 28 as 0"),
    ("AME 111 010203040506 bit28 0", "AME, alias 111, Node ID 01.02.03.04.05.06, bit 28 as 0"),
    ("message 15B4 000 07 bit28 0", "message 15B4, alias 000, data 07, bit 28 as 0"),
    (
        "message 15B4 111 0101000000000201 bit28 0",
        "message 15B4, alias 111, the report of a duplicate Node ID, bit 28 as 0",
    ),
    ("00704111", "reserved frame 0704, alias 111, bit 28 as 0"),
    ("remote 00700263", "remote frame 00700263, bit 28 as 0"),
    ("remote 10700263", "remote frame 10700263"),
    ("short 123", "eleven-bit frame 123"),
    ("10704111", "reserved frame 0704, alias 111"),
];

/// Where it comes, where it is delivered, and where it made the list late.
#[test]
fn frames_are_named_as_they_came() {
    for (frame, words) in FRAMES {
        let taken = shown(&format!("{PERMITTED}foreign {frame}\ndeliver 0\n")).explained;
        let lines: Vec<&str> = taken.lines().rev().take(3).collect();
        assert!(lines[2].ends_with(&format!("foreign {words}: it joins 1 inbox")), "{}", lines[2]);
        let took = format!("node 0 takes {words}, from foreign equipment: ");
        assert!(lines[1].contains(&took), "{}", lines[1]);
        let late = shown(&format!("{PERMITTED}foreign {frame}\ntick 41\n"));
        let stood = format!("{words}, from foreign equipment, has stood in the inbox of node 0");
        assert_eq!(late.explained.matches(&stood).count(), 2, "{}", late.explained);
        assert!(late.summary.contains(&stood), "{}", late.summary);
        let stood = stood.replace(" has stood ", " stood ");
        assert!(late.picture.contains(&format!("<title>{stood} for 41 ticks")), "{frame}");
    }
}

/// Frames that are refused, and that have no bit 28 as 0 or did not come.
const REFUSED: [(&str, &str); 5] = [
    ("20700263", "frame 20700263, above 29 bits: refused"),
    ("FFFFFFFF bit28 0", "frame EFFFFFFF, above 29 bits: refused"),
    ("remote 20700263", "remote frame 20700263: refused"),
    ("kind 3 00700263", "frame 00700263 of kind 3: refused"),
    ("RID 263 length 9 bit28 0", "RID, alias 263, length 9, bit 28 as 0: refused"),
];

#[test]
fn refused_frames_did_not_come() {
    for (frame, words) in REFUSED {
        let shown = shown(&format!("on 0 05.01.01.01.01.01\nforeign {frame}\n"));
        assert!(shown.explained.contains(words), "{}", shown.explained);
        assert!(!shown.summary.contains("bit 28"), "{frame}: {}", shown.summary);
        assert!(!shown.picture.contains("bit28"), "{frame}");
    }
    let full = format!("{PERMITTED}{}", "foreign RID 111 bit28 0\n".repeat(33));
    let full = shown(&full).summary;
    assert!(full.contains("32 frames came with bit 28 as 0, under 1 alias:\n"), "{full}");
}

/// Lists, and the end of the summary of each.
#[test]
fn the_summary_ends_with_the_aliases() {
    let ages =
        "An inbox frame stood for 0 ticks at most, a reply RID or AMR waited for 0 at most.\n";
    // Under alias 00C come two.
    let many = (1..=12).chain([12]).map(|alias| format!("foreign RID {alias:X} bit28 0\n"));
    let nine: String = (1..=9).map(|alias| format!("  alias {alias:03X}: 1 frame\n")).collect();
    let lists = [
        ("foreign RID 263\nforeign short 263\n".into(), String::new()),
        (
            "foreign RID 263 bit28 0\n".into(),
            "1 frame came with bit 28 as 0, under 1 alias:\n  alias 263: 1 frame\n".into(),
        ),
        (
            "foreign 00704FFF\nforeign remote 07050263\nforeign RID FFF\nforeign AMD 0 bit28 0\nforeign CID 7 FFF bit28 0\n"
                .into(),
            "4 frames came with bit 28 as 0, under 3 aliases:\n  \
             alias FFF: 2 frames\n  alias 000: 1 frame\n  alias 263: 1 frame\n"
                .into(),
        ),
        (
            many.collect::<String>(),
            format!("13 frames came with bit 28 as 0, under 12 aliases:\n  alias 00C: 2 frames\n{nine}  and 2 more\n"),
        ),
    ];
    for (list, end) in lists {
        let summary = shown(&list).summary;
        assert!(summary.ends_with(&format!("{ages}{end}")), "{list}:\n{summary}");
    }
}

/// On a terminal the words of such a frame have a colour of their own; a refusal is red all the same.
#[test]
fn marks_are_painted_on_a_terminal() {
    let colours = [
        ("foreign RID 111 bit28 0", "\x1b[36mforeign RID, alias 111, bit 28 as 0: "),
        ("foreign RID 111 bit28 0\ndeliver 0", "\x1b[36mnode 0 takes RID, alias 111, bit 28 as 0"),
        (
            "foreign RID 111 length 9 bit28 0",
            "\x1b[31mforeign RID, alias 111, length 9, bit 28 as 0: ",
        ),
        ("foreign RID 111", " foreign RID, alias 111: "),
        ("foreign RID 111\ndeliver 0", " node 0 takes RID, alias 111, from"),
    ];
    for (list, words) in colours {
        let script = expanded(&format!("{PERMITTED}{list}\n"));
        let painted = shown_of(&script, Paint(true));
        assert!(painted.explained.contains(words), "{}", painted.explained);
        let is_marked = words.starts_with("\x1b[36m");
        assert_eq!(painted.explained.contains("\x1b[36m"), is_marked, "{list}");
        let summed_up = painted.summary.contains("\x1b[36m1 frame came with bit 28 as 0");
        assert_eq!(summed_up, is_marked, "{}", painted.summary);
        let plain = shown_of(&script, Paint(false));
        assert!(!plain.explained.contains('\x1b') && !plain.summary.contains('\x1b'), "{list}");
    }
}
