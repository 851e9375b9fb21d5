//! Warm starts (request A.9): which alias each brings and what is said of it, what is read out of nodes and given back, and the
//! script that --save writes.

mod examples;
mod random;
mod shown;

use examples::{example, names};
use lcc::card::{Answer, Card, ReadOut, PLACES};
use lcc::command::Command;
use lcc::watch::{Moment, Watch};
use lcc::{play, save, warm};
use random::Random;
use shown::{expanded, shown};

const SCRIPTS: u64 = 400;

/// Lists with warm starts, and others.
fn lists() -> impl Iterator<Item = String> {
    (0..SCRIPTS).flat_map(|seed| [random::list(seed), random::by_warm_starts(seed)])
}

/// The moments of a list, each with the card after it; gives the card as it is left.
fn moments(list: &str, mut check: impl FnMut(&Moment, &Card)) -> Card {
    let (script, mut watch, mut card) = (expanded(list), Watch::default(), Card::new());
    play::play(&script.bytes, &script.beside, &mut card, |played, card| {
        check(&watch.look(played, card), card)
    });
    card
}

/// The line of a script's last command, in words.
fn last_line(script: &str) -> String {
    shown(script).explained.lines().rev().nth(1).expect("a command").into()
}

/// States of any sort, every third such whose four parts are 0 together.
fn states() -> impl Iterator<Item = u64> {
    let mut random = Random::new(9);
    (0..900).map(move |at| {
        let [a, b, c, d] = std::array::from_fn(|_| random.below(0x1000));
        let last = if at % 3 == 0 { a ^ b ^ c } else { d };
        a << 36 | b << 24 | c << 12 | last
    })
}

/// The parts that are named are the state, and their exclusive-or is the alias that the node then tests; or 1, and that is said.
#[test]
fn the_alias_of_a_state_is_explained() {
    let mut ones = 0;
    for state in states() {
        let line = last_line(&format!("warm 5 05.01.01.01.01.01 {state:X}\n"));
        let (_, rest) = line.split_once(": Testing alias ").expect("it starts");
        let (alias, rest) = rest.split_once(", ").expect("why");
        let (how, rest) = rest.split_once("the exclusive-or of ").expect("the parts");
        let (parts, end) = rest.split_at(21);
        let parts: Vec<&str> =
            parts.split([',', ' ']).filter(|part| !["", "and"].contains(part)).collect();
        assert_eq!(parts.concat(), format!("{state:012X}"), "{line}");
        let number = |digits: &str| u16::from_str_radix(digits, 16).expect("hex");
        let all = parts.iter().fold(0, |all, part| all ^ number(part));
        let zero = all == 0;
        assert_eq!(number(alias), if zero { 1 } else { all }, "{line}");
        let words = if zero { ("since ", " is 0; CID 7 is due") } else { ("", "; CID 7 is due") };
        assert_eq!((how, end), words, "{line}");
        ones += usize::from(zero);
    }
    assert!(ones >= 300, "{ones}");
}

/// What is said of the last command of a list.
const TOLD: [(&str, &str); 10] = [
    (
        "warm 1 05.01.01.01.10.FF 220FA69D5AA8",
        "1 0A ok                               power on node 1 warm, state 220FA69D5AA8, with Node ID 05.01.01.01.10.FF: \
         Testing alias EFB, the exclusive-or of 220, FA6, 9D5 and AA8; CID 7 is due",
    ),
    (
        "warm 1 05.01.01.01.10.FF 1 flag 1",
        " warm, state 000000000001, with Node ID 05.01.01.01.10.FF: \
         Testing alias 001, the exclusive-or of 000, 000, 000 and 001; CID 7 is due",
    ),
    (
        "warm 1 05.01.01.01.10.FF 0",
        ": Testing alias 001, since the exclusive-or of 000, 000, 000 and 000 is 0; CID 7 is due",
    ),
    (
        "warm 1 05.01.01.01.10.FF 220FA69D5AA8 flag 0",
        "power on node 1 by flag 0, state 220FA69D5AA8, with Node ID 05.01.01.01.10.FF: \
         Testing alias 262, the first alias of its Node ID; the state is not used; CID 7 is due",
    ),
    (
        "on 1 050101010101\nforeign RID 1\nforeign RID 1\nwarm 1 05.01.01.01.10.FF 220FA69D5AA8",
        ", which was on: Testing alias EFB, the exclusive-or of 220, FA6, 9D5 and AA8; CID 7 is due; \
         2 frames are dropped from its inbox",
    ),
    (
        "warm 1 05.01.01.01.10.FF 220FA69D5AA8 flag 2",
        "1 0A refused 18                       power on node 1 by flag 2, state 220FA69D5AA8, with Node ID 05.01.01.01.10.FF: \
         refused, the flag is 2; expected 1 for a start with the alias of the state, or 0 for one with the first alias",
    ),
    ("warm 1 05.01.01.01.10.FF 0 flag 255", ": refused, the flag is 255; expected 1 for a start with the alias of the state, or 0 for one with the first alias"),
    ("warm 24 05.01.01.01.10.FF 0 flag 2", " power on node 24 by flag 2, state 000000000000, with Node ID 05.01.01.01.10.FF: refused, the index is above 23"),
    ("warm 23 00.00.00.00.00.00 0 flag 2", ": refused, the Node ID is 0"),
    (
        "on 0 05.01.01.01.01.01\nwarm 23 05.01.01.01.01.01 0 flag 2",
        ": refused, the Node ID is in use at node 0, Testing alias 263; \
         node 23 stays Off until it is powered on with one of its own",
    ),
];

#[test]
fn a_start_is_explained() {
    for (list, words) in TOLD {
        let line = last_line(&format!("{list}\n"));
        assert!(line.ends_with(words), "{list}:\n{line}\n{words}");
    }
}

/// A state above 48 bits, which no script can carry: refused with flag 1, and what would be right is said.
#[test]
fn a_state_above_48_bits_is_refused() {
    let start = |flag, state| Command::Warm { index: 3, id: 0x0501_0101_0101, flag, state };
    for state in [1 << 48, u64::MAX] {
        assert_eq!(Card::new().carry_out(&start(1, state)), Answer::Refused(18));
        assert_eq!(Card::new().carry_out(&start(0, state)), Answer::Accepted);
        let why = warm::why_refused(1, state).expect("it is refused");
        assert_eq!(
            why,
            format!("the state {state:X} has more than 48 bits; expected 12 hex digits at most")
        );
        assert_eq!(warm::why_refused(0, state), None);
    }
    let most = (1 << 48) - 1;
    assert_eq!(Card::new().carry_out(&start(1, most)), Answer::Accepted);
    assert_eq!(warm::why_refused(1, most), None);
    assert!(warm::why_refused(2, u64::MAX).expect("it is refused").starts_with("the flag is 2; "));
}

/// What is read out changes by power-ons and by new starts alone. A power-on by 01 or flag 0 gives the Node ID and not past; one by
/// flag 1 the given state and past; a new start another state and past. Of a node that is Off nothing is read out.
#[test]
fn what_is_read_out_changes_by_starts_alone() {
    let (mut cold, mut warm, mut anew, mut kept) = (0, 0, 0, 0);
    for list in lists() {
        let mut before: [Option<ReadOut>; PLACES] = [None; PLACES];
        moments(&list, |moment, card| {
            for (index, last) in before.iter_mut().enumerate() {
                let why = format!("node {index}, {:?}:\n{list}", moment.played);
                let (out, seen) = (card.read_out(index), &moment.after[index]);
                assert_eq!(out.is_some(), seen.id != 0, "{why}");
                if moment.powered_on() == Some(index) {
                    let (state, past) = match moment.command() {
                        Some(Command::Warm { flag: 1, state, .. }) => (state, true),
                        _ => (seen.id, false),
                    };
                    assert_eq!(out, Some(ReadOut { state, past }), "{why}");
                    (cold, warm) = (cold + usize::from(!past), warm + usize::from(past));
                } else if moment.restarted(index) {
                    assert!(out.is_some_and(|out| out.past) && out != *last, "{why}");
                    anew += 1;
                } else {
                    assert_eq!(out, *last, "{why}");
                    kept += usize::from(out.is_some());
                }
                *last = out;
            }
        });
    }
    assert!(
        cold > 1_500 && warm > 1_000 && anew > 1_000 && kept > 10_000,
        "{cold} cold starts, {warm} warm, {anew} new ones, {kept} times the same"
    );
}

/// The table has what is read out.
#[test]
fn the_table_shows_what_is_read_out() {
    let (mut past, mut not_past) = (0, 0);
    for list in lists().step_by(5) {
        let (card, summary) = (moments(&list, |_, _| {}), shown(&list).summary);
        for index in 0..PLACES {
            let row = summary.lines().find(|line| line.starts_with(&format!("{index} ")));
            let Some(out) = card.read_out(index) else { continue };
            let row = row.unwrap_or_else(|| panic!("no row {index} in\n{summary}"));
            let cell = if out.past { "past    " } else { "not past" };
            let cells = format!("{cell}     {:012X}  ", out.state);
            assert_eq!(&row[44..71], cells, "{row}\n{list}");
            (past, not_past) = (past + usize::from(out.past), not_past + usize::from(!out.past));
        }
    }
    assert!(past > 100 && not_past > 100, "{past} past, {not_past} not");
}

/// Lists, and what the summary says of their warm starts.
const SUMMED_UP: [(&str, &str); 7] = [
    ("on 0 050101010101\nwarm 1 050101010102 7 flag 0\nwarm 2 050101010103 7 flag 2\n", ""),
    (
        "tick\nwarm 1 05010101101F 220FA69D5AA8\nsettle 203\n",
        "1 warm start, 0 of them up to Permitted under the alias that was given back:\n  \
         node 1 at tick 1: started warm with alias EFB; not Permitted yet\n",
    ),
    // Reserved is not up yet; the next tick brings the AMD.
    (
        "warm 1 05010101101F 220FA69D5AA8\nsettle 205\n",
        "1 warm start, 0 of them up to Permitted under the alias that was given back:\n  \
         node 1 at tick 0: started warm with alias EFB; not Permitted yet\n",
    ),
    (
        "warm 1 05010101101F 220FA69D5AA8\nsettle 206\n",
        "1 warm start, 1 of them up to Permitted under the alias that was given back:\n  \
         node 1 at tick 0: started warm with alias EFB; Permitted under it at tick 205\n",
    ),
    // Once it is up it has come back, whatever follows; those that have not are named first.
    (
        "warm 1 05010101101F 220FA69D5AA8\nsettle 206\nrelease 1\nwarm 2 050101010102 1\nfail 2\nsettle 3\nwarm 1 05010101101F 3\non 1 05010101101F\n",
        "3 warm starts, 1 of them up to Permitted under the alias that was given back:\n  \
         node 2 at tick 206: started warm with alias 001; gave it up, and started again with 71D\n  \
         node 1 at tick 209: started warm with alias 003; powered on again before it was Permitted\n  \
         node 1 at tick 0: started warm with alias EFB; Permitted under it at tick 205\n",
    ),
    // A start that is refused leaves the one before as it was.
    (
        "warm 1 05010101101F 3\nwarm 1 05010101101F 4 flag 2\nwarm 1 000000000000 4\n",
        "1 warm start, 0 of them up to Permitted under the alias that was given back:\n  \
         node 1 at tick 0: started warm with alias 003; not Permitted yet\n",
    ),
    (
        "warm 1 05010101101F 3\nwarm 1 05010101101F 3 flag 0\nsettle 206\n",
        "1 warm start, 0 of them up to Permitted under the alias that was given back:\n  \
         node 1 at tick 0: started warm with alias 003; powered on again before it was Permitted\n",
    ),
];

#[test]
fn the_summary_says_who_came_back() {
    for (list, words) in SUMMED_UP {
        assert_eq!(shown(list).in_between(), words, "{list}");
    }
}

/// For every node that is on there is a line, `warm` where its first alias is past, and the alias that it names is that which the
/// line brings, and which the node has, where it has one.
#[test]
fn the_lines_bring_the_aliases_that_the_nodes_had() {
    let (mut by_warm, mut by_on, mut without) = (0, 0, 0);
    for list in lists() {
        let card = moments(&list, |_, _| {});
        let mut lines = save::lines(&card).into_iter();
        for index in 0..PLACES {
            let (seen, Some(out)) = (card.look(index), card.read_out(index)) else { continue };
            let line = lines.next().unwrap_or_else(|| panic!("no line of {index}:\n{list}"));
            let name = if out.past { "warm" } else { "on" };
            assert!(line.starts_with(&format!("{name} {index} ")), "{line}:\n{list}");
            let back = moments(&line, |moment, _| assert!(moment.accepted(), "{line}:\n{list}"));
            assert_eq!(back.read_out(index), Some(out), "{line}:\n{list}");
            let alias = back.look(index).alias;
            assert!(line.ends_with(&format!("# alias {alias:03X}")), "{line}:\n{list}");
            assert!(seen.alias == 0 || seen.alias == alias, "{seen:?}, {line}:\n{list}");
            assert_eq!(back.look(index).id, seen.id, "{line}:\n{list}");
            (by_warm, by_on) = (by_warm + usize::from(out.past), by_on + usize::from(!out.past));
            without += usize::from(seen.alias == 0);
        }
        assert_eq!(lines.next(), None, "{list}");
    }
    assert!(by_warm > 500 && by_on > 500 && without > 20, "{by_warm}, {by_on}, {without} without");
}

/// Saved, given back and saved again: the same script, and its lines are those at the end of the summary.
#[test]
fn what_is_saved_comes_back() {
    let of_examples = names().into_iter().map(|name| example(&name));
    let mut saved_lines = 0;
    for list in lists().step_by(7).chain(of_examples) {
        let saved = save::script(&moments(&list, |_, _| {}));
        let again = save::script(&moments(&saved, |moment, _| assert!(moment.accepted())));
        assert_eq!(saved, again, "{list}");
        let lines: Vec<&str> = saved.lines().filter(|line| !line.starts_with('#')).collect();
        let summary = shown(&list).summary;
        let shown: String = lines.iter().map(|line| format!("  {line}\n")).collect();
        assert!(summary.ends_with(&shown), "{saved}\n{summary}");
        saved_lines += lines.len();
    }
    assert!(saved_lines > 200, "{saved_lines} lines");
}

/// The example, saved before its breaker trips: the lines that it then has are those that were saved.
#[test]
fn the_example_has_what_would_be_saved() {
    let text = example("warm-start");
    let (before, after) = text.split_once("# the breaker trips").expect("it trips");
    let lines = save::lines(&moments(before, |_, _| {}));
    let given: Vec<&str> = after.lines().skip(1).take_while(|line| !line.is_empty()).collect();
    assert_eq!(lines, given);
    assert_eq!(lines.len(), 3);
}

/// Without a node that is on there is nothing to give back.
#[test]
fn nobody_on_is_a_script_too() {
    let saved = save::script(&Card::new());
    assert!(saved.starts_with("# Written by --save: ") && saved.ends_with("\n# No node was on.\n"));
    assert!(expanded(&saved).bytes.is_empty());
    assert!(!shown("tick\n").summary.contains("come back"));
}
