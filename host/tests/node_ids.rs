//! Node IDs tested at power-on (request A.6): what is said of one that is in use at another index, and that it is in use there.

mod random;
mod shown;

use lcc::card::{Answer, Card, Seen, PLACES};
use lcc::command::Command;
use lcc::in_use::InUse;
use lcc::play;
use lcc::watch::{Moment, Watch};
use shown::{expanded, shown};

const SCRIPTS: u64 = 1_000;

const ON: &str = "on 1 05.01.01.01.01.01\n";
const SENDS_AND_WAITS: &str = "send 1\nsend 1\nsend 1\nsend 1\ntick 201\n";

/// What node 1 does once its RID is due, and how it then stands.
const STANDINGS: [(&str, &str); 6] = [
    ("", "Testing alias 263"),
    ("send 1\n", "Reserved with alias 263"),
    ("send 1\nsend 1\n", "Permitted with alias 263"),
    ("send 1\nsend 1\nrelease 1\n", "Leaving with alias 263"),
    ("send 1\nsend 1\nrelease 1\nsend 1\n", "Resting, without an alias"),
    (
        "send 1\nsend 1\nforeign AMD 111 05.01.01.01.01.01\ndeliver 1\nsend 1\n",
        "Silent, without an alias",
    ),
];

/// The line of a script's last command, in words.
fn last_line(script: &str) -> String {
    let explained = shown(script).explained;
    explained.lines().rev().nth(1).expect("a command").into()
}

/// Whatever the node does that has the Node ID, it is named, and so is its state; the other may be at either end of the card.
#[test]
fn the_node_that_has_the_node_id_is_named() {
    for (then, standing) in STANDINGS {
        for index in [0, 23] {
            let on = format!("on {index} 05.01.01.01.01.01\n");
            let line = last_line(&format!("{ON}{SENDS_AND_WAITS}{then}{on}"));
            let words = format!(
                " power on node {index} with Node ID 05.01.01.01.01.01: refused, \
                 the Node ID is in use at node 1, {standing}; \
                 node {index} stays Off until it is powered on with one of its own"
            );
            assert!(line.contains(" 01 refused 15 ") && line.ends_with(&words), "{line}");
            let warm = format!("warm {index} 05.01.01.01.01.01 220FA69D5AA8 flag 9\n");
            let line = last_line(&format!("{ON}{SENDS_AND_WAITS}{then}{warm}"));
            let words = words.split_once(": refused").expect("it is said").1;
            assert!(line.contains(" 0A refused 15 ") && line.ends_with(words), "{line}");
        }
    }
}

/// A node that is on is not stopped: what it was doing is said.
#[test]
fn a_node_that_is_on_goes_on() {
    let first = "on 0 05.01.01.01.01.02\n";
    for (then, standing) in STANDINGS {
        let on = "on 1 05.01.01.01.01.02\n";
        let line = last_line(&format!("{first}{ON}{SENDS_AND_WAITS}{then}{on}"));
        let words = format!(
            ": refused, the Node ID is in use at node 0, Testing alias 264; \
             node 1 goes on as it was, {standing}"
        );
        assert!(line.contains(" 01 refused 15 ") && line.ends_with(&words), "{line}");
    }
}

/// Other refusals come first, and the own Node ID, or one that its node has no longer, is in nobody's way.
#[test]
fn nothing_is_said_of_other_power_ons() {
    let lists = [
        ("on 24 05.01.01.01.01.01\n", "refused 1 "),
        ("on 0 00.00.00.00.00.00\n", "refused 3 "),
        ("on 0 05.01.01.01.01.02\n", "ok "),
        ("on 1 05.01.01.01.01.01\n", "ok "),
        ("release 1\non 1 05.01.01.01.01.01\n", "ok "),
        ("on 1 05.01.01.01.01.02\non 0 05.01.01.01.01.01\n", "ok "),
    ];
    for (list, answer) in lists {
        let script = format!("{ON}{list}");
        let line = last_line(&script);
        assert!(line.contains(&format!(" 01 {answer}")), "{line}");
        let shown = shown(&script);
        assert!(!shown.explained.contains("in use at") && !shown.summary.contains("in use at"));
    }
}

/// Scripts, and what the summary says between their collisions and their commands.
const SUMMED_UP: [(&str, &str); 6] = [
    // By command 0A as by 01.
    (
        "warm 0 050101010101 7\nwarm 1 050101010101 7\non 2 050101010101\nsend 0\n",
        "2 power-ons were refused because the Node ID is in use at another index:\n  \
         line 2: node 1 with 05.01.01.01.01.01, which node 0 took in line 1\n  \
         line 3: node 2 with 05.01.01.01.01.01, which node 0 took in line 1\n\
         1 warm start, 0 of them up to Permitted under the alias that was given back:\n  \
         node 0 at tick 0: started warm with alias 007; not Permitted yet\n",
    ),
    (
        "# two lines\non 0 05.01.01.01.01.01\n\non 1 05.01.01.01.01.01 # the same\n",
        "1 power-on was refused because the Node ID is in use at another index:\n  \
         line 4: node 1 with 05.01.01.01.01.01, which node 0 took in line 2\n",
    ),
    // A power-on with the own Node ID is not the line to look for; one with another is.
    (
        "on 0 050101010101\non 0 050101010101\non 1 050101010102\non 1 050101010101\n\
         on 0 050101010103\non 1 050101010101\non 0 050101010101\n",
        "2 power-ons were refused because the Node ID is in use at another index:\n  \
         line 4: node 1 with 05.01.01.01.01.01, which node 0 took in line 1\n  \
         line 7: node 0 with 05.01.01.01.01.01, which node 1 took in line 6\n",
    ),
    // In hex, with a command over two lines.
    (
        "05 05\n01 17 05 01\n01 01 01 01\n01 00 05 01 01 01 01 01\n",
        "1 power-on was refused because the Node ID is in use at another index:\n  \
         line 4: node 0 with 05.01.01.01.01.01, which node 23 took in line 2\n",
    ),
    // Lines that have many bytes, and one that has none.
    (
        "on 0 050101010101\nsettle 3\ndeliver all\nsend 1\non 1 050101010101\n",
        "1 power-on was refused because the Node ID is in use at another index:\n  \
         line 5: node 1 with 05.01.01.01.01.01, which node 0 took in line 1\n",
    ),
    ("on 0 050101010101\non 1 050101010102\non 24 050101010101\n", ""),
];

#[test]
fn the_summary_names_the_lines() {
    for (list, words) in SUMMED_UP {
        assert_eq!(shown(list).in_between(), words, "{list}");
    }
}

#[test]
fn of_many_ten_are_named() {
    let list: String = (0..24).map(|index| format!("on {index} 05.01.01.01.01.01\n")).collect();
    let summary = shown(&list).summary;
    assert_eq!(summary.matches(", which node 0 took in line 1\n").count(), 10);
    let ten =
        "\n  line 11: node 10 with 05.01.01.01.01.01, which node 0 took in line 1\n  and 13 more\n";
    assert!(
        summary.contains("\n23 power-ons were refused because ") && summary.contains(ten),
        "{summary}"
    );
}

/// How often a node started again stays in the table, whatever power-on was refused since.
#[test]
fn a_refused_power_on_leaves_the_row_of_its_node() {
    let on = "on 0 05.01.01.01.01.02\non 1 05.01.01.01.01.01\nfail 1\nfail 1\n";
    for refused in ["", "on 1 05.01.01.01.01.02\n", "on 1 00.00.00.00.00.00\n"] {
        let summary = shown(&format!("{on}{refused}")).summary;
        let row = summary.lines().find(|line| line.starts_with("1 ")).expect("a row").to_string();
        assert!(row.ends_with("  -           -           2         CID 7     0"), "{row}");
    }
}

/// The moments of the random scripts.
fn moments(mut check: impl FnMut(&Moment, u64)) {
    for seed in 0..SCRIPTS {
        let (script, mut watch) = (expanded(&random::list(seed)), Watch::default());
        play::play(&script.bytes, &script.beside, &mut Card::new(), |played, card| {
            check(&watch.look(played, card), seed);
        });
    }
}

/// The nodes that have a Node ID; it is 0 where a node is Off.
fn users(seen: &[Seen; PLACES], id: u64) -> Vec<usize> {
    (0..PLACES).filter(|&index| seen[index].id == id && id != 0).collect()
}

/// A power-on is refused by 15 exactly where another node has its Node ID, and that one is named; then nothing has changed. So no
/// two nodes ever have one Node ID.
#[test]
fn a_node_id_is_refused_where_it_is_in_use() {
    let (mut refused, mut on, mut own, mut warm) = (0, 0, 0, 0);
    moments(|moment, seed| {
        let why = format!("seed {seed}, {:?}", moment.played);
        for node in &moment.after {
            assert!(users(&moment.after, node.id).len() <= 1, "{why}");
        }
        let id = moment.command().and_then(|command| command.powers_on());
        let (Some(id), Some(index)) = (id, moment.node()) else {
            return assert_eq!(InUse::of(moment), None, "{why}");
        };
        warm += usize::from(matches!(moment.command(), Some(Command::Warm { .. })));
        let before = users(&moment.before, id);
        let user = before.iter().copied().find(|&user| user != index);
        assert_eq!(moment.played.answer == Answer::Refused(15), user.is_some(), "{why}");
        assert_eq!(InUse::of(moment).map(|in_use| in_use.user), user, "{why}");
        assert!(user.is_none() || moment.before == moment.after, "{why}");
        refused += usize::from(user.is_some());
        on += usize::from(moment.accepted());
        own += usize::from(before == [index]);
    });
    assert!(
        refused > 300 && on > 2_000 && own > 100 && warm > 300,
        "{refused} refused, {on} accepted, {own} own, {warm} by command 0A"
    );
}
