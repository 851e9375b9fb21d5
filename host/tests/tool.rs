//! The tool itself: its words, its exit status, what it explains and sums up.

use std::fs;
use std::io::Write;
use std::path::PathBuf;
use std::process::{Command, Output, Stdio};

use lcc::card::{Card, NOBODY, PLACES, TEXT_MAX, WORDS};
use lcc::save;

/// Runs the tool on a script at standard input.
fn lcc(words: &[&str], script: &str) -> Output {
    let mut child = Command::new(env!("CARGO_BIN_EXE_lcc"))
        .args(words)
        .stdin(Stdio::piped())
        .stdout(Stdio::piped())
        .stderr(Stdio::piped())
        .spawn()
        .expect("the tool starts");
    let mut stdin = child.stdin.take().expect("it is piped");
    // A tool that refuses its words reads no script.
    let _ = stdin.write_all(script.as_bytes());
    drop(stdin);
    child.wait_with_output().expect("it ends")
}

fn out(output: &Output) -> String {
    String::from_utf8(output.stdout.clone()).expect("it prints text")
}

fn err(output: &Output) -> String {
    String::from_utf8(output.stderr.clone()).expect("it prints text")
}

fn explained(script: &str) -> String {
    let output = lcc(&["run", "-", "--explain"], script);
    assert_eq!(output.status.code(), Some(0), "{}", err(&output));
    out(&output)
}

fn summed_up(script: &str) -> String {
    let output = lcc(&["run", "--summary", "-"], script);
    assert_eq!(output.status.code(), Some(0), "{}", err(&output));
    out(&output)
}

/// A file of this name for one test alone.
fn file(name: &str, text: &str) -> PathBuf {
    let folder = PathBuf::from(env!("CARGO_TARGET_TMPDIR"));
    let path = folder.join(name);
    fs::write(&path, text).expect("the folder can be written");
    path
}

const PERMITTED: &str = "on 0 05.01.01.01.01.01\nsettle 204\nsend 0\nsend 0\n";

#[test]
fn bad_words_are_refused() {
    let wrong: [(&[&str], &str); 21] = [
        (&[], "a word is missing"),
        (&["walk", "a.lcc"], "\"walk\" is nothing that lcc does"),
        (&["run"], "the file is missing"),
        (&["run", "a.lcc", "b.lcc"], "more than one file: a.lcc and b.lcc"),
        (&["run", "--", "a.lcc", "--explain"], "more than one file: a.lcc and --explain"),
        (&["run", "a.lcc", "--sumary"], "there is no option --sumary"),
        (&["run", "a.lcc", "-e"], "there is no option -e"),
        (&["run", "a.lcc", "--picture"], "--picture is followed by nothing"),
        (&["run", "--picture", "a.lcc"], "expected the picture's name, which ends in .svg"),
        (&["run", "-", "--picture", "a.svg", "--picture", "b.svg"], "--picture is there twice"),
        (&["hex", "-", "--explain"], "hex takes no option; --explain"),
        (
            &["names", "-", "--grid"],
            "names takes no option; --explain, --summary, --picture, --grid and --save",
        ),
        (&["run", "-", "--grid", "--explain"], "--grid goes with neither --explain nor --summary"),
        (&["run", "-", "--summary", "--grid"], "it prints frames alone, for a viewer to read"),
        (&["run", "-", "--save"], "--save is followed by nothing; expected the script's name"),
        (&["run", "-", "--save", "--summary"], "--save is followed by \"--summary\"; expected"),
        (&["run", "-", "--save", "a.svg"], "expected the script's name, which ends in .lcc"),
        (
            &["run", "-", "--save", "a.lcc", "--save", "b.lcc"],
            "--save is there twice; expected one",
        ),
        (&["run", "--save", "a.lcc"], "the file is missing; expected one script"),
        (&["bytes", "-", "--save", "a.lcc"], "bytes takes no option; --explain"),
        (&["run", "-", "--gird"], "--picture OUT.svg, --grid, --save OUT.lcc or --help"),
    ];
    for (words, why) in wrong {
        let output = lcc(words, "tick");
        assert_eq!((output.status.code(), out(&output).as_str()), (Some(2), ""), "{words:?}");
        assert!(err(&output).contains(why), "{words:?}: {}", err(&output));
    }
}

#[test]
fn a_file_that_is_not_there_is_named() {
    let output = lcc(&["run", "no-such.lcc"], "");
    assert_eq!((output.status.code(), out(&output).as_str()), (Some(2), ""));
    assert!(err(&output).starts_with("lcc: cannot read no-such.lcc: "), "{}", err(&output));
}

#[test]
fn a_name_with_an_equals_sign_is_a_file() {
    let path = file("x=1.hex", "05 05");
    let output = lcc(&["run", path.to_str().expect("a plain path")], "");
    assert_eq!(
        (output.status.code(), out(&output).as_str()),
        (Some(0), "1 05 ok\n2 05 ok\nkept\n")
    );
}

#[test]
fn help_is_a_screenful() {
    let output = lcc(&["--help"], "");
    let help = out(&output);
    assert_eq!(output.status.code(), Some(0));
    assert!(help.lines().count() <= 40, "{} lines", help.lines().count());
    for (name, _) in lcc::names::FORMS {
        assert!(
            help.contains(&format!("\n  {name} ")) || help.contains(&format!("    {name} ")),
            "{name}"
        );
    }
    assert_eq!(out(&lcc(&["run", "-", "-h"], "")), help);
}

/// Nothing is run, and no picture is made.
#[test]
fn a_bad_script_is_not_run() {
    let picture = file("never.svg", "as it was");
    let name = picture.to_str().expect("a plain path");
    let output = lcc(&["run", "-", "--summary", "--picture", name], "send 0\ntick x\n");
    assert_eq!((output.status.code(), out(&output).as_str()), (Some(2), ""));
    assert!(
        err(&output).starts_with("lcc: standard input: line 2: \"x\" is no count of ticks"),
        "{}",
        err(&output)
    );
    assert_eq!(fs::read_to_string(&picture).expect("it is there"), "as it was");
}

#[test]
fn a_picture_that_cannot_be_written_is_named() {
    let output = lcc(&["run", "-", "--picture", "no-such-folder/a.svg"], "tick");
    assert_eq!((output.status.code(), out(&output).as_str()), (Some(1), ""));
    assert!(
        err(&output).starts_with("lcc: cannot write no-such-folder/a.svg: "),
        "{}",
        err(&output)
    );
}

#[test]
fn refusals_leave_the_exit_status_0() {
    let output = lcc(&["run", "-"], "send 24\nbytes FF\n");
    let lines = "1 02 refused 1\n2 FF refused 10\nkept\n";
    assert_eq!((output.status.code(), out(&output).as_str()), (Some(0), lines));
}

#[test]
fn no_colours_but_on_a_terminal() {
    let script = format!("{PERMITTED}send 24\n");
    assert!(!explained(&script).contains('\x1b') && !summed_up(&script).contains('\x1b'));
}

/// The whole script is explained, however long it is; past the limit the program uses nothing.
#[test]
fn long_scripts_are_explained() {
    let script = "send 0\n".repeat(32_767);
    assert_eq!(explained(&script).lines().count(), 32_768);
    let output = lcc(&["run", "-", "--explain"], &"send 0\n".repeat(40_000));
    assert_eq!(out(&output).lines().count(), 32_769);
    let note = "lcc: the script has 80000 bytes, and the program uses the first 65536, which end in line 32768\n";
    assert_eq!(err(&output), note);
    let cut = lcc(&["run", "-", "--explain"], &format!("tick\n{}", "send 0\n".repeat(40_000)));
    let text = out(&cut);
    let last: Vec<&str> = text.lines().rev().take(2).collect();
    assert!(last[1].starts_with("32769 02 refused 11"), "{}", last[1]);
    let many = explained(&"tick 65536\n".repeat(3));
    assert!(
        many.starts_with("1-65536 05 ok ") && many.contains("65536 ticks, up to tick 65536"),
        "{many}"
    );
}

/// Foreign frames, and what is said of each.
const FRAMES: [(&str, &str); 22] = [
    ("foreign message 15B4 263 0101000000000201", "the report of a duplicate Node ID"),
    (
        "foreign message 15B4 263 0101000000000202",
        "message 15B4, alias 263, data 01.01.00.00.00.00.02.02:",
    ),
    (
        "foreign message 15B4 263 01010000000201",
        "message 15B4, alias 263, data 01.01.00.00.00.02.01:",
    ),
    (
        "foreign message 15B4 263 0101000000020100",
        "message 15B4, alias 263, data 01.01.00.00.00.02.01.00:",
    ),
    ("foreign message 15B4 263", "message 15B4, alias 263: it joins"),
    (
        "foreign message 05B4 263 0101000000000201",
        "message 05B4, alias 263, data 01.01.00.00.00.00.02.01:",
    ),
    ("foreign message 15B4 263 010203040506", "message 15B4, alias 263, data 01.02.03.04.05.06:"),
    ("foreign AMD 263 010203040506", "AMD, alias 263, Node ID 01.02.03.04.05.06:"),
    ("foreign AMD 263 0102030405", "AMD, alias 263, data 01.02.03.04.05:"),
    ("foreign AME 263 01020304050607", "AME, alias 263, data 01.02.03.04.05.06.07:"),
    ("foreign RID 263 010203040506", "RID, alias 263, data 01.02.03.04.05.06:"),
    ("foreign CID 7 263 050", "CID 7, alias 263, section 050:"),
    ("foreign remote 10701263", "remote frame 10701263:"),
    ("foreign short 123", "eleven-bit frame 123:"),
    ("foreign 10704263", "reserved frame 0704, alias 263:"),
    (
        "foreign error 0 263 010203040506",
        "error report 0 (Error Passive after Error Active), alias 263, Node ID 01.02.03.04.05.06:",
    ),
    (
        "foreign error 1 263 0102",
        "error report 1 (Error Passive after Bus Off), alias 263, data 01.02:",
    ),
    ("foreign error 2 263", "error report 2 (Error Active after Error Passive), alias 263:"),
    ("foreign error 3 263", "error report 3 (Error Active after Bus Off), alias 263:"),
    ("foreign 00700263", "RID, alias 263, bit 28 as 0:"),
    ("foreign FFFFFFFF", "frame FFFFFFFF, above 29 bits: refused, an operand is out of range"),
    (
        "foreign 10701263 01 length 9",
        "AMD, alias 263, length 9: refused, an operand is out of range",
    ),
];

/// A message of field 15B4 is a report by its eight bytes alone, and six bytes are a Node ID only in AMD, AME, AMR and error reports.
#[test]
fn frames_are_told_by_what_they_carry() {
    for (frame, words) in FRAMES {
        let text = explained(&format!("on 0 05.01.01.01.01.01\n{frame}\n"));
        let line = text.lines().nth(1).expect("two commands").to_string();
        assert!(line.contains(words), "{frame}: {line}");
        let reports = line.contains("report of a duplicate");
        assert_eq!(reports, frame.ends_with("15B4 263 0101000000000201"), "{frame}: {line}");
    }
}

#[test]
fn a_command_cut_short_is_not_explained_as_whole() {
    let text = explained("05 01 00 05 01");
    let words =
        "2 01 refused 11                       command 01 has 8 bytes, and not all are there: \
                 the script ends within the command, and the run ends";
    assert_eq!(text.lines().nth(1), Some(words));
    assert!(!text.contains("Node ID"), "{text}");
}

/// What happens to a frame that is delivered, by what the node shows before and after.
#[test]
fn deliveries_have_their_effects() {
    let effects = [
        ("foreign CID 7 263 000", "an answer to it is due, RID"),
        ("foreign RID 263", "collision, it is Leaving with alias 263; AMR is due"),
        ("foreign AME 111", "an answer to it is due, AMD"),
        ("foreign AME 111 05.01.01.01.01.02", "no effect"),
        ("foreign AMD 111 05.01.01.01.01.01", "an answer to it is due, report"),
        ("foreign message 15B4 111 01", "no effect"),
        ("message 0 15B4 01\nforeign RID 111", "what is due stays as it was"),
    ];
    for (frame, effect) in effects {
        let text = explained(&format!("{PERMITTED}{frame}\ndeliver 0\n"));
        let line = text.lines().rev().nth(1).expect("a delivery").to_string();
        assert!(line.ends_with(effect), "{frame}: {line}");
    }
    let text = explained("on 0 05.01.01.01.01.01\nforeign CID 1 263\ndeliver 0\nfail 0\n");
    assert!(
        text.contains(": collision, it starts again, Testing alias 4F8; CID 7 is due\n"),
        "{text}"
    );
    assert!(
        text.contains(
            "could not send CID 7, alias 4F8, section 050: it starts again, Testing alias "
        ),
        "{text}"
    );
}

/// Link orders to node 0, which is Permitted, and what is said of the last.
const TOLD: [(&str, &str); 15] = [
    ("link 0 passive", "link state Error Passive: error report 0 is due now"),
    ("link 0 off", "link state Bus Off: no frame is due"),
    ("link 0 active", "link state Error Active: no frame is due"),
    ("link 0 off\nlink 0 passive", "link state Error Passive: error report 1 is due now"),
    ("link 0 passive\nlink 0 active", "link state Error Active: error report 2 is due now"),
    ("link 0 off\nlink 0 active", "link state Error Active: error report 3 is due now"),
    ("link 0 passive\nlink 0 off", "link state Bus Off: error report 0 stays due"),
    ("message 0 15B4\nlink 0 passive", "error report 0 is due now"),
    ("message 0 15B4\nlink 0 off", "message stays due, and what waits behind it cannot be seen"),
    (
        "foreign CID 7 263\ndeliver 0\nlink 0 passive",
        "RID stays due, and what waits behind it cannot be seen",
    ),
    ("release 0\nlink 0 passive", "the node is Leaving, and only remembers it"),
    ("on 0 050101010101\nlink 0 2", "the node is Testing, and only remembers it"),
    (
        "link 24 off",
        "the host of node 24 tells it link state Bus Off: refused, the index is above 23",
    ),
    ("link 1 3", "the host of node 1 tells it link state 3: refused, the node is Off"),
    ("link 0 3", "the host of node 0 tells it link state 3: refused, the link state is above 2"),
];

#[test]
fn link_orders_are_explained_by_what_is_seen() {
    for (orders, words) in TOLD {
        let text = explained(&format!("{PERMITTED}{orders}\n"));
        let line = text.lines().rev().nth(1).expect("a link order").to_string();
        assert!(line.contains(" link ") && line.ends_with(words), "{orders}: {line}");
    }
    let text = explained(&format!("{PERMITTED}link 0 passive\nsend 0\n"));
    let words = "node 0 sends error report 0 (Error Passive after Error Active), alias 263, \
                 Node ID 05.01.01.01.01.01: it joins no inbox\n";
    assert!(text.contains(words), "{text}");
}

/// The lines of link orders have their name for a byte; the rest is as ever.
#[test]
fn link_orders_are_played() {
    let script =
        "link 0 off\non 0 05.01.01.01.01.01\nlink 0 3\nlink 0 passive\nlink 24 3\ntick\nsend 0\n";
    let lines = "1 link refused 2\n2 01 ok\n3 link refused 14\n4 link ok\n5 link refused 1\n6 05 ok\n7 02 ok 17050263\nkept\n";
    let output = lcc(&["run", "-"], script);
    assert_eq!((output.status.code(), out(&output).as_str()), (Some(0), lines));
    let orders = "link 0 passive\nsend 0\nlink 0 off\nsend 0\nlink 0 active\nsend 0\n";
    let text = out(&lcc(&["run", "-"], &format!("{PERMITTED}{orders}")));
    let last: Vec<&str> =
        text.lines().rev().take(7).map(|l| l.split_once(' ').map_or(l, |(_, rest)| rest)).collect();
    let expected = [
        "kept",
        "02 ok 10713263 050101010101",
        "link ok",
        "02 refused 4",
        "link ok",
        "02 ok 10710263 050101010101",
        "link ok",
    ];
    assert_eq!(last, expected);
}

/// What has no byte is not turned into bytes: nothing is printed, and what would be right is said.
#[test]
fn link_orders_and_turns_are_not_for_the_program() {
    let scripts = [
        ("tick\nlink 0 off\nlink 0 9\n", "link", "tick\nlink 0 off\nlink 0 9\n"),
        ("tick\nturn\nlink 0 9\n", "turn", "tick\nturn\nlink 0 9\n"),
        ("tick\nsettle 2 turns\n", "a turn of settle", "tick\nturn\ntick\nturn\ntick\n"),
    ];
    for (script, name, names) in scripts {
        for wish in ["bytes", "hex"] {
            let output = lcc(&[wish, "-"], script);
            assert_eq!((output.status.code(), out(&output).as_str()), (Some(2), ""), "{wish}");
            let why = format!(
                "lcc: standard input: line 2: {name} has no byte in a script, so neither hex nor the program can have it; \
                 play it with --explain, --summary, --picture or --grid\n"
            );
            assert_eq!(err(&output), why, "{wish}");
        }
        let output = lcc(&["names", "-"], script);
        assert_eq!((output.status.code(), out(&output).as_str()), (Some(0), names));
    }
}

/// The limit counts bytes: a link order or a turn right after the last of them is carried out, and none behind it.
#[test]
fn link_orders_and_turns_do_not_count_for_the_limit() {
    let text = out(&lcc(&["run", "-"], "tick 65536\nlink 0 off\n"));
    assert!(text.ends_with("65536 05 ok\n65537 link refused 2\nkept\n"));
    let text = out(&lcc(&["run", "-"], "tick 65535\nsend 0\nlink 0 off\n"));
    assert!(text.ends_with("65535 05 ok\n65536 02 refused 11\nkept\n"));
    let text = out(&lcc(&["run", "-"], "link 0 off\ntick 65536\ntick\nlink 0 off\n"));
    assert!(text.ends_with("65536 05 ok\n65537 05 ok\nkept\n"));
    let text = out(&lcc(&["run", "-"], "tick 65528\non 0 050101010101\nturn\nturn\ntick\nturn\n"));
    let last =
        "65530 choose ok 0\n65531 02 ok 17050263\n65532 choose ok 0\n65533 02 ok 16101263\nkept\n";
    assert!(text.ends_with(last), "{}", &text[text.len() - 200..]);
}

/// A script that was saved is one by itself: with more lines behind it the nodes come up under the aliases that they had.
#[test]
fn what_is_saved_can_be_played() {
    let path = file("saved.lcc", "");
    fs::remove_file(&path).expect("it is there");
    let name = path.to_str().expect("a plain path");
    let list = format!("{PERMITTED}on 7 05.01.01.01.11.00\nsettle 210\n");
    let plain = out(&lcc(&["run", "-"], &list));
    let output = lcc(&["run", "-", "--save", name], &list);
    assert_eq!((output.status.code(), out(&output)), (Some(0), plain), "{}", err(&output));
    let saved = fs::read_to_string(&path).expect("it is written");
    let lines: Vec<&str> = saved.lines().filter(|line| !line.starts_with('#')).collect();
    let expected = [
        "on 0 05.01.01.01.01.01                  # alias 263",
        "warm 7 05.01.01.01.11.00 220FA69D5CA9   # alias 8FA",
    ];
    assert_eq!(lines, expected);
    let text = summed_up(&format!("{saved}settle 210\n"));
    let back = "\n1 warm start, 1 of them up to Permitted under the alias that was given back:\n";
    assert!(text.contains(back) && text.contains("  Permitted  8FA    past "), "{text}");
    let again = lcc(&["run", "-", "--summary", "--save", name], &format!("{saved}settle 210\n"));
    assert_eq!(again.status.code(), Some(0), "{}", err(&again));
    assert_eq!(fs::read_to_string(&path).expect("it is written"), saved);
    let grid = lcc(&["run", "-", "--grid", "--save", name], "on 3 050101010103\nsend 3\n");
    assert_eq!((grid.status.code(), out(&grid).as_str()), (Some(0), ":X17050265N;\n"));
    let saved = fs::read_to_string(&path).expect("it is written");
    assert!(saved.ends_with("\non 3 05.01.01.01.01.03                  # alias 265\n"), "{saved}");
}

/// --save writes over what it has written, and over nothing else, nor where a line was added or changed since; then nothing is run.
#[test]
fn saving_writes_over_no_other_file() {
    let saved = save::script(&Card::new());
    let with_a_line = format!("{saved}settle 3\n");
    let with_a_comment = saved.replace("# No node was on.", "# No node was on, on Monday.");
    for text in ["send 0\n", "", "# Written by hand\n", &with_a_line, &with_a_comment] {
        let path = file("by-hand.lcc", text);
        let name = path.to_str().expect("a plain path");
        for words in [["run", "-", "--save", name], ["run", name, "--save", name]] {
            let output = lcc(&words, "tick\n");
            assert_eq!((output.status.code(), out(&output).as_str()), (Some(2), ""), "{words:?}");
            let why = format!(
                "lcc: {name} is there already, and --save has not written it, or lines were changed since; \
                 expected a new name, or a file as --save has written it\n"
            );
            assert_eq!(err(&output), why);
            assert_eq!(fs::read_to_string(&path).expect("it is there"), text);
        }
    }
    let folder = file("by-hand.lcc", &saved).with_file_name("folder.lcc");
    fs::create_dir_all(&folder).expect("a new folder");
    let name = folder.to_str().expect("a plain path");
    let output = lcc(&["run", "-", "--save", name], "tick\n");
    assert_eq!((output.status.code(), out(&output).as_str()), (Some(2), ""));
    assert!(err(&output).starts_with(&format!("lcc: cannot read {name}: ")), "{}", err(&output));
    let output = lcc(&["run", "-", "--save", "no-such-folder/a.lcc"], "tick");
    assert_eq!((output.status.code(), out(&output).as_str()), (Some(1), ""));
    assert!(
        err(&output).starts_with("lcc: cannot write no-such-folder/a.lcc: "),
        "{}",
        err(&output)
    );
}

/// Link orders that were accepted stand below the table and on the node's line, and only where there are some.
#[test]
fn link_orders_are_summed_up_and_drawn() {
    let picture = file("told.svg", "");
    let name = picture.to_str().expect("a plain path");
    let orders = "link 0 passive\nlink 0 off\nlink 0 3\nlink 9 off\n";
    let output =
        lcc(&["run", "-", "--summary", "--picture", name], &format!("{PERMITTED}{orders}"));
    let listed = "\n2 link states were told:\n  \
                  node 0 at tick 204: Error Passive; error report 0 is due\n  \
                  node 0 at tick 204: Bus Off\n";
    assert!(out(&output).contains(listed), "{}", out(&output));
    assert!(out(&output).contains("  0         error 0   0\n"), "{}", out(&output));
    let drawn = fs::read_to_string(&picture).expect("it is there");
    let sign = "node 0 at tick 204: Error Passive; error report 0 is due, command ";
    assert!(drawn.contains(sign) && drawn.contains("link state:") && drawn.contains(".link {"));
    assert_eq!(
        drawn.matches("class=\"link\"").count(),
        2 + 3,
        "two orders, and three in the legend"
    );
    lcc(&["run", "-", "--picture", name], &format!("{PERMITTED}link 0 3\n"));
    let plain = fs::read_to_string(&picture).expect("it is there");
    assert!(plain.contains("Permitted") && !plain.contains("link"));
    assert!(!summed_up(PERMITTED).contains("link"));
}

/// Lists, and what the verdict says of each. Those that power no node on follow one that is Permitted at tick 204.
const LISTS: [(&str, &str); 8] = [
    (
        "on 0 050101010101\ntick 2\nforeign RID 111\ntick 41\n",
        "late from tick 43 on (command 45): RID, alias 111, from foreign equipment, \
         has stood in the inbox of node 0 since tick 2 (command 4)",
    ),
    (
        "on 0 050101010101\non 1 050101010102\nsend 1\ntick 90\n",
        "late from tick 41 on (command 44): CID 7, alias 264, section 050, from node 1, \
         has stood in the inbox of node 0 since tick 0 (command 3)",
    ),
    (
        "on 0 050101010101\non 1 050101010102\nforeign RID 1\ntick 41\n",
        "in the inbox of node 0 since tick 0 (command 3); 1 other frame is as old",
    ),
    ("foreign CID 7 263\ndeliver 0\ntick 40\n", "kept: "),
    (
        "foreign CID 7 263\ndeliver 0\ntick 20\nforeign CID 7 263\ndeliver 0\ntick 21\n",
        "RID, alias 263, has been due at node 0 since tick 204",
    ),
    (
        "release 0\ntick 41\n",
        "AMR, alias 263, Node ID 05.01.01.01.01.01, has been due at node 0 since tick 204",
    ),
    ("foreign CID 7 263\ndeliver 0\ntick 30\nrelease 0\ntick 40\n", "kept: "),
    ("on 0 050101010101\nsettle 4\ntick 400\n", "kept: "),
];

/// Which frame made a list late: in an inbox, a reply RID, an AMR; never the RID that reserves.
#[test]
fn the_frame_that_was_late_is_named() {
    for (list, words) in LISTS {
        let before = if list.starts_with("on") { "" } else { PERMITTED };
        let text = summed_up(&format!("{before}{list}"));
        let verdict = |line: &&str| line.starts_with("kept: ") || line.starts_with("late from ");
        let verdict = text.lines().find(verdict).expect("a table");
        assert!(verdict.contains(words), "{list}: {verdict}");
    }
}

#[test]
fn the_table_has_a_row_for_each_exhibit() {
    let text = summed_up(
        "on 1 05.01.01.01.01.01\non 3 05.01.01.01.01.02\nsettle 230\nrelease 3\nsettle 1\nfail 1\n",
    );
    let rows: Vec<&str> =
        text.lines().skip_while(|line| !line.starts_with("node ")).skip(1).take(5).collect();
    assert_eq!(
        rows[0],
        "0      -                  Off        -      -            -             -           -           -         -         -"
    );
    assert_eq!(
        rows[1],
        "1      05.01.01.01.01.01  Permitted  263    not past     050101010101  tick 204    tick 205    0         -         1"
    );
    assert_eq!(
        rows[3],
        "3      05.01.01.01.01.02  Resting    -      not past     050101010102  tick 204    tick 205    0         -         0"
    );
    assert_eq!(
        rows[4],
        "4-23   -                  Off        -      -            -             -           -           -         -         -"
    );
    assert!(
        text.contains("\n2 nodes on: 1 Permitted, 1 Resting; one uses an alias.\nNo collisions.\n"),
        "{text}"
    );
}

/// The table and the text that are lent to the library have the words and bytes that its header asks for; its nodes are as many, and
/// nobody has the same number.
#[test]
fn the_words_are_those_of_the_header() {
    let header = fs::read_to_string(concat!(env!("CARGO_MANIFEST_DIR"), "/../c/card.h"))
        .expect("it is there");
    let numbers = [
        ("CARD_WORDS", WORDS),
        ("CARD_NODES", PLACES),
        ("CARD_NOBODY", NOBODY as usize),
        ("GRID_TEXT_MAX", TEXT_MAX),
    ];
    for (name, size) in numbers {
        let line = format!("#define {name} {size}");
        assert!(header.lines().any(|found| found == line), "c/card.h has no line {line}");
    }
}
