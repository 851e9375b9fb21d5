//! The tool and the program `segment` print the same, line by line. Link orders and turns are the tool's alone.

mod random;

use std::fs;
use std::io::Write;
use std::path::{Path, PathBuf};
use std::process::{Command, Stdio};

use lcc::actions::fulfil;
use lcc::card::Card;
use lcc::command::{self, Read};
use lcc::expand::expand;
use lcc::usage::{Options, Wish};
use lcc::{play, script};
use random::Random;

const SCRIPTS: u64 = 500;

fn root() -> PathBuf {
    Path::new(env!("CARGO_MANIFEST_DIR")).join("..")
}

/// What the program prints for these bytes.
fn segment(bytes: &[u8]) -> String {
    let mut child = Command::new(root().join("crates/segment/out/segment"))
        .stdin(Stdio::piped())
        .stdout(Stdio::piped())
        .spawn()
        .expect("rt run has built the program in crates/segment");
    let mut stdin = child.stdin.take().expect("it is piped");
    let bytes = bytes.to_vec();
    // The program may have read all that it uses.
    let writer = std::thread::spawn(move || stdin.write_all(&bytes));
    let output = child.wait_with_output().expect("it ends");
    let _ = writer.join().expect("the writer ends");
    String::from_utf8(output.stdout).expect("it prints text")
}

/// A file of this name for one test alone.
fn written(name: &str, text: &str) -> PathBuf {
    let file = Path::new(env!("CARGO_TARGET_TMPDIR")).join(name);
    fs::write(&file, text).expect("the folder can be written");
    file
}

fn text(file: &Path, options: Options) -> String {
    let printed = fulfil(&Wish::Run(file.into(), options)).expect("it runs");
    String::from_utf8(printed).expect("it prints text")
}

/// The tool's lines for a file are the program's for the file's bytes.
fn same(file: &Path) {
    let expected = segment(&fulfil(&Wish::Bytes(file.into())).expect("it has bytes"));
    assert!(lines(file) == expected, "lcc run {} prints other lines than segment", file.display());
}

/// The tool's lines for a file, which are the same with each option and without; --grid prints the frames of those of sends.
fn lines(file: &Path) -> String {
    let name = file.display();
    let expected = text(file, Options::default());
    let picture = Some(file.with_extension("svg").file_name().expect("it has a name").into());
    let picture = picture.map(|name: PathBuf| Path::new(env!("CARGO_TARGET_TMPDIR")).join(name));
    let drawn = text(file, Options { summary: true, picture, ..Options::default() });
    assert!(drawn.starts_with(&expected), "lcc run {name} --summary --picture prints other lines");
    let explained = unfolded(&text(file, Options { explain: true, ..Options::default() }));
    assert!(explained == expected, "lcc run {name} --explain explains other lines");
    let grid = text(file, Options { grid: true, ..Options::default() });
    assert!(grid == frames(&expected), "lcc run {name} --grid prints other frames");
    expected
}

/// The frames that leave by the lines of a run, as GridConnect text.
fn frames(lines: &str) -> String {
    let sent = lines.lines().filter_map(|line| Some(line.split_once(" 02 ok ")?.1));
    let parts = sent.map(|frame| frame.split_once(' ').unwrap_or((frame, "")));
    parts.map(|(header, data)| format!(":X{header}N{data};\n")).collect()
}

/// The lines of an explanation without their words, and each command that one stands for on its own line.
fn unfolded(explained: &str) -> String {
    let mut lines = String::new();
    for line in explained.lines() {
        let line = line.split("  ").next().expect("a line begins with the program's");
        let (counts, answers) = line.split_once(' ').unwrap_or((line, ""));
        let Some((first, last)) = counts.split_once('-') else {
            lines += &format!("{line}\n");
            continue;
        };
        let count = |text: &str| text.parse::<usize>().expect("a count");
        for (n, answer) in (count(first)..=count(last)).zip(answers.split(", ").cycle()) {
            lines += &format!("{n} {answer}\n");
        }
    }
    lines
}

/// Whether a script is bytes alone, so that the program can play it.
fn is_in_bytes(file: &Path) -> bool {
    let text = fs::read_to_string(file).expect("it can be read");
    script::in_bytes(&script::parse(&text).expect("it is right")).is_ok()
}

#[test]
fn examples() {
    let (mut through_both, mut through_the_tool) = (0, 0);
    for entry in fs::read_dir(root().join("examples")).expect("there are examples") {
        let file = entry.expect("it can be read").path();
        if is_in_bytes(&file) {
            same(&file);
            through_both += 1;
        } else {
            let lines = lines(&file);
            let has_any = lines.contains(" link ok\n") || lines.contains(" choose ok ");
            assert!(has_any, "{} tells no node and chooses none", file.display());
            through_the_tool += 1;
        }
    }
    assert!(
        through_both >= 6 && through_the_tool >= 2,
        "{through_both} examples through both, {through_the_tool} through the tool alone"
    );
}

/// The lines of a run without those that have this word for a byte, counted anew.
fn without(word: &str, lines: &str) -> String {
    let others = lines.lines().filter(|line| !line.contains(&format!(" {word} ")));
    let counted = others.enumerate().map(|(at, line)| match line.split_once(' ') {
        Some((_, rest)) => format!("{} {rest}\n", at + 1),
        None => format!("{line}\n"),
    });
    counted.collect()
}

/// Link orders that are refused leave the program's lines as they are, and only count.
#[test]
fn refused_link_orders_change_no_other_line() {
    let mut links = 0;
    for seed in 0..SCRIPTS {
        let text = random::script_with(&random::REFUSED_LINKS, &mut Random::new(2_000_000 + seed));
        let played = lines(&written("refused.lcc", &text));
        let others: String = text
            .lines()
            .filter(|line| !line.starts_with("link"))
            .map(|line| format!("{line}\n"))
            .collect();
        let bytes = fulfil(&Wish::Bytes(written("others.lcc", &others))).expect("it has bytes");
        assert_eq!(without("link", &played), segment(&bytes), "seed {seed}:\n{text}");
        links += played.matches(" link refused ").count();
    }
    assert!(links > 1_000, "{links} link orders");
}

/// Link orders of every sort: the lines are the same with each option and without.
#[test]
fn random_scripts_with_link_orders() {
    let (mut accepted, mut reports) = (0, 0);
    for seed in 0..SCRIPTS {
        let up = "on 0 050101010101\non 1 050101010102\nsettle 206\n";
        let text = random::script_with(&random::LINKS, &mut Random::new(3_000_000 + seed));
        let played = lines(&written("linked.lcc", &format!("{up}{text}")));
        accepted += played.matches(" link ok\n").count();
        reports += played.matches(" 02 ok 1071").count();
    }
    assert!(accepted > 1_000 && reports > 100, "{accepted} link orders, {reports} error reports");
}

/// The bytes of a script's commands, with a send in the place of each turn of a node.
fn with_sends(text: &str) -> Vec<u8> {
    let (script, mut bytes) = (expand(&script::parse(text).expect("it is right")), Vec::new());
    play::play(&script.bytes, &script.beside, &mut Card::new(), |played, _| {
        match (played.command(), played.act) {
            (Some(command), _) => command.write(&mut bytes),
            (None, play::Act::Bytes(..)) => bytes.extend(&script.bytes[played.at..]),
            (None, _) => {}
        }
    });
    bytes
}

/// A choice changes nothing but who sends: the other lines are those of the program for a script that has the same sends. And they
/// are the same with each option and without.
#[test]
fn turns_are_sends_of_those_that_are_named() {
    let (mut named, mut nobodys, mut refused) = (0, 0, 0);
    let few = (0..SCRIPTS).map(|seed| random::script_with(&random::TURNS, &mut Random::new(seed)));
    for text in few.chain((0..SCRIPTS / 5).map(random::by_turns)) {
        let played = lines(&written("turns.lcc", &text));
        assert_eq!(without("choose", &played), segment(&with_sends(&text)), "{text}");
        let choices = played.matches(" choose ok ").count();
        let none = played.matches(" choose ok none\n").count();
        (named, nobodys) = (named + choices - none, nobodys + none);
        refused += played.matches(" 02 refused 5\n").count();
    }
    assert!(
        named > 3_000 && nobodys > 3_000 && refused > 10,
        "{named} turns, {nobodys} of nobody, {refused} sends refused by 5"
    );
}

#[test]
fn random_scripts() {
    for seed in 0..SCRIPTS {
        let text = random::script(&mut Random::new(1_000_000 + seed));
        same(&written("random.lcc", &text));
    }
}

/// The bytes of a script with another start in the place of each by command 0A, made of its index, its Node ID and its state.
fn with_starts(bytes: &[u8], start: fn(u8, u64, u64) -> command::Command) -> Vec<u8> {
    let (mut rest, mut changed) = (bytes, Vec::new());
    while !rest.is_empty() {
        let Read::Whole(command, size) = command::Command::read(rest) else {
            panic!("all commands are whole: {rest:02X?}");
        };
        match command {
            command::Command::Warm { index, id, state, .. } => start(index, id, state),
            other => other,
        }
        .write(&mut changed);
        rest = &rest[size..];
    }
    changed
}

/// Power-ons by command 0A of every sort: the lines are the program's.
#[test]
fn random_scripts_with_warm_starts() {
    let (mut accepted, mut refused, mut in_use) = (0, 0, 0);
    for seed in 0..SCRIPTS {
        let file = written("warm.lcc", &random::by_warm_starts(seed));
        same(&file);
        let played = lines(&file);
        accepted += played.matches(" 0A ok\n").count();
        refused += played.matches(" 0A refused 18\n").count();
        in_use += played.matches(" 0A refused 15\n").count();
    }
    assert!(
        accepted > 1_500 && refused > 300 && in_use > 500,
        "{accepted} accepted, {refused} refused by 18, {in_use} by 15"
    );
}

/// With flag 0 command 0A is command 01, whatever the state: in a script that is the same else, the program's lines are the same
/// but for the byte.
#[test]
fn flag_0_is_power_on() {
    let mut cold = 0;
    for seed in 0..SCRIPTS {
        let text = random::by_warm_starts(seed);
        let bytes = fulfil(&Wish::Bytes(written("cold.lcc", &text))).expect("it has bytes");
        let flag_0 = |index, id, state| command::Command::Warm { index, id, flag: 0, state };
        let printed = segment(&with_starts(&bytes, flag_0));
        let on = |index, id, _| command::Command::On { index, id };
        let by_01 = segment(&with_starts(&bytes, on));
        assert_eq!(printed.replace(" 0A ", " 01 "), by_01, "seed {seed}:\n{text}");
        cold += printed.matches(" 0A ok\n").count();
    }
    assert!(cold > 2_000, "{cold} with flag 0");
}

/// Around the limit of 65,536 bytes, with a command that it cuts and with one that it does not.
#[test]
fn the_limit() {
    for text in [
        "tick 65535\n",
        "tick 65536\n",
        "tick 65536\ntick 3\n",
        "tick 65535\nsend 0\n",
        "tick 65534\nsend 0\n",
    ] {
        same(&written("limit.lcc", &format!("{text}send 0\n")));
    }
    let messages = "message 0 15B4 01\n".repeat(6_000);
    same(&written("limit.lcc", &format!("on 0 050101010101\n{messages}")));
}
