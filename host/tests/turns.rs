//! Turns (request A.8): whose each is, what is said of it and how they are summed up. It is held to what the nodes show.

mod random;
mod shown;

use lcc::card::{Answer, Card, Seen, PLACES};
use lcc::command::Command;
use lcc::play::{self, Act};
use lcc::turn::Choice;
use lcc::watch::{Moment, Watch};
use shown::{expanded, shown};

const SCRIPTS: u64 = 300;

/// Lists with turns, among them such of all 24 nodes.
fn lists() -> impl Iterator<Item = String> {
    (0..SCRIPTS).flat_map(|seed| [random::list(seed), random::by_turns(seed)])
}

/// The moments of a list.
fn moments(list: &str, mut check: impl FnMut(&Moment)) {
    let (script, mut watch) = (expanded(list), Watch::default());
    play::play(&script.bytes, &script.beside, &mut Card::new(), |played, card| {
        check(&watch.look(played, card))
    });
}

/// The first node with a due frame after the mark, which is looked at last.
fn first_due(nodes: &[Seen; PLACES], mark: usize) -> Option<usize> {
    (1..=PLACES).map(|step| (mark + step) % PLACES).find(|&index| nodes[index].due.is_some())
}

/// Whom each choice names, by what the nodes show before it; what the tool says of it is the same. It changes nothing that is seen.
#[test]
fn a_choice_names_the_first_with_a_due_frame_after_the_last() {
    let (mut wraps, mut again, mut nobody) = (0, 0, 0);
    let mut named = [0; PLACES];
    for list in lists() {
        let (mut mark, mut last) = (PLACES - 1, None);
        moments(&list, |moment| {
            if moment.played.act != Act::Choice {
                return assert_eq!(moment.choice, None, "{:?}:\n{list}", moment.played);
            }
            let first = first_due(&moment.before, mark);
            let answer = Answer::Chosen(first.map(|index| index as u8));
            assert_eq!(moment.played.answer, answer, "mark {mark}:\n{list}");
            assert_eq!(moment.choice, Some(Choice { last, named: first }), "{list}");
            assert_eq!(moment.choice.map(|choice| choice.mark()), Some(mark), "{list}");
            assert_eq!(moment.before, moment.after, "{list}");
            let Some(index) = first else { return nobody += 1 };
            wraps += usize::from(index < mark);
            again += usize::from(index == mark);
            named[index] += 1;
            (mark, last) = (index, first);
        });
    }
    assert!(
        wraps > 1_000 && again > 500 && nobody > 10_000 && named.iter().all(|&times| times > 50),
        "{wraps} wraps, {again} times again, {nobody} times nobody, {named:?}"
    );
}

/// The send of a turn is that of the node which was named right before, and no other send is one of a turn.
#[test]
fn the_node_that_is_named_sends() {
    let (mut sent, mut refused) = (0, 0);
    for list in lists() {
        let mut before: Option<Choice> = None;
        moments(&list, |moment| {
            let named = before.and_then(|choice| choice.named);
            let turn = matches!(moment.played.act, Act::SendInTurn(_));
            assert_eq!(turn, named.is_some(), "{:?}:\n{list}", moment.played);
            assert_eq!(moment.turn, before.filter(|_| turn), "{list}");
            if let Some(index) = named {
                let send = Command::Send { index: index as u8 };
                assert_eq!(moment.command(), Some(send), "{list}");
                let five = moment.played.answer == Answer::Refused(5);
                assert!(moment.accepted() || five, "{:?}:\n{list}", moment.played);
                (sent, refused) = (sent + usize::from(!five), refused + usize::from(five));
            }
            before = moment.choice;
        });
    }
    assert!(sent > 10_000 && refused > 50, "{sent} sent, {refused} refused");
}

/// The choices of a list: which nodes have a due frame at each, and which is named.
fn choices(list: &str) -> Vec<([bool; PLACES], Option<usize>)> {
    let mut all = Vec::new();
    moments(list, |moment| {
        let due = moment.before.map(|seen| seen.due.is_some());
        all.extend(moment.choice.map(|choice| (due, choice.named)));
    });
    all
}

/// The most choices in a row at which a node has a due frame and of which at most the last names it.
fn longest(choices: &[([bool; PLACES], Option<usize>)]) -> usize {
    let wait = |index: usize, from: usize| {
        let kept = choices[from..].iter().take_while(|(due, _)| due[index]);
        let waits = kept.clone().take_while(|(_, named)| *named != Some(index)).count();
        (waits + 1).min(kept.count())
    };
    let waits = (0..PLACES).flat_map(|index| (0..choices.len()).map(move |from| (index, from)));
    waits.map(|(index, from)| wait(index, from)).max().unwrap_or(0)
}

/// The sentence on turns is true of the list, and so is the column; no node ever waits for more than 24 choices.
#[test]
fn the_summary_counts_turns_and_waits() {
    let (mut summed_up, mut greatest) = (0, 0);
    for list in lists().step_by(3) {
        let (choices, summary) = (choices(&list), shown(&list).summary);
        let nobodys = choices.iter().filter(|(_, named)| named.is_none()).count();
        let (named, longest) = (choices.len() - nobodys, longest(&choices));
        if named == 0 {
            assert!(!summary.contains(" named a node"), "{list}");
            continue;
        }
        let plural = |count: usize| if count == 1 { "choice" } else { "choices" };
        let words = [
            format!("\n{} {}: {named} named a node, ", choices.len(), plural(choices.len())),
            format!(" named a node, {nobodys} nobody"),
            format!(" waited for {longest} {} at most, its own turn", plural(longest)),
        ];
        for words in words {
            assert!(summary.contains(&words), "{words:?} in\n{summary}\n{list}");
        }
        for index in 0..PLACES {
            let had = choices.iter().filter(|(_, named)| *named == Some(index)).count();
            let row = summary.lines().find(|line| line.starts_with(&format!("{index} ")));
            let cell = row.and_then(|row| row.split_whitespace().last()).unwrap_or("-");
            assert_eq!(cell.parse().unwrap_or(0), had, "node {index} in\n{summary}\n{list}");
        }
        assert!(longest <= PLACES, "{list}");
        (summed_up, greatest) = (summed_up + 1, greatest.max(longest));
    }
    assert!(summed_up > 100 && greatest == PLACES, "{summed_up} lists, {greatest} at most");
}

/// Lists, and what the summary says of their turns.
const SUMMED_UP: [(&str, &str); 6] = [
    ("turn\n", "1 choice named nobody: no node had a due frame.\n"),
    ("settle 3 turns\n", "3 choices named nobody: no node had a due frame.\n"),
    // A send that is refused is that of no turn.
    (
        "on 1 050101010101\nsend 9\nturn\n",
        "1 choice: 1 named a node, 0 nobody.\n\
         A node with a due frame waited for 1 choice at most, its own turn among them; request A.8 allows 24.\n",
    ),
    // Node 2 is named by the second choice; then its frames leave by other sends, and it waits no more.
    (
        "on 1 050101010101\non 2 050101010102\nturn\nturn\nsend 2\nsend 2\nsend 2\nturn\nturn\nturn\nturn\n",
        "6 choices: 5 named a node, 1 nobody.\n\
         A node with a due frame waited for 2 choices at most, its own turn among them; request A.8 allows 24.\n",
    ),
    // Node 9 waits at the end: each time one that has come on before it is named.
    (
        "on 9 050101010109\non 1 050101010101\nturn\non 2 050101010102\nturn\non 3 050101010103\nturn\n",
        "3 choices: 3 named a node, 0 nobody.\n\
         A node with a due frame waited for 3 choices at most, its own turn among them; request A.8 allows 24.\n",
    ),
    ("on 1 050101010101\nsend 1\n", ""),
];

#[test]
fn the_summary_says_what_there_is_to_say() {
    for (list, words) in SUMMED_UP {
        let shown = shown(list);
        assert_eq!(shown.in_between(), words, "{list}");
        assert_eq!(shown.summary.contains("  inbox  turns\n"), !words.is_empty(), "{list}");
    }
}

/// 24 nodes that all have a due frame: the last of them waits for 24 choices, and with 23 it has not been named.
#[test]
fn the_last_of_24_waits_for_24_choices() {
    let on: String =
        (0..PLACES).map(|index| format!("on {index} 0501010102{index:02X}\n")).collect();
    for (turns, last) in [(23, "0"), (24, "1")] {
        let summary = shown(&format!("{on}{}", "turn\n".repeat(turns))).summary;
        let words = format!(" waited for {turns} choices at most");
        assert!(summary.contains(&words), "{summary}");
        let row = summary.lines().find(|line| line.starts_with("23 ")).expect("a row");
        assert!(row.ends_with(&format!("  {last}")), "{row}");
    }
}

const ON: &str = "on 3 050101010103\non 7 050101010107\n";

/// What follows on two nodes with a due frame, or on none, and what is said of the last command.
const TOLD: [(&str, &str); 9] = [
    (
        "turn\n",
        "turn of node 3, the first with a due frame after node 23, where the mark is at first",
    ),
    ("turn\nsend 7\nturn\n", "turn of node 7, the first with a due frame after node 3"),
    ("turn\nturn\nturn\n", "turn of node 3, the first with a due frame after node 7, past 23"),
    ("turn\non 5 050101010105\nturn\n", "turn of node 5, the first with a due frame after node 3"),
    (
        "on 23 050101010123\nturn\nturn\nturn\non 0 050101010100\nturn\n",
        "turn of node 0, the first with a due frame after node 23",
    ),
    (
        "turn\nsend 7\nsend 7\nsend 7\nsend 7\nturn\n",
        "turn of node 3 again: no other node has a due frame",
    ),
    ("settle 8 turns\nturn\n", "nobody's turn: no node has a due frame; the mark stays at 7"),
    // Power-on leaves the mark, and so does whatever else is done.
    (
        "turn\non 3 050101010103\nfail 7\ntick\nturn\n",
        "turn of node 7, the first with a due frame after node 3",
    ),
    (
        "turn\nturn\nrelease 3\nsend 3\nlink 3 off\nturn\n",
        "turn of node 3, the first with a due frame after node 7, past 23",
    ),
];

/// The words beside the last choice of a list.
fn last_choice(list: &str) -> String {
    let explained = shown(list).explained;
    let line = explained.lines().rev().find(|line| line.contains(" choose ok ")).expect("a choice");
    line.split_once("  ").expect("words").1.trim_start().into()
}

#[test]
fn a_choice_is_explained() {
    for (list, words) in TOLD {
        assert_eq!(last_choice(&format!("{ON}{list}")), words, "{list}");
    }
    let words = "nobody's turn: no node has a due frame; the mark stays at 23";
    assert_eq!(last_choice("turn\n"), words);
}

/// Its inbox is full: the node that is named cannot send, the mark is at it all the same, and the next one is after it.
#[test]
fn a_send_that_is_refused_has_been_a_turn() {
    let full = format!("{ON}{}", "foreign RID 111\n".repeat(32));
    let shown = shown(&format!("{full}turn\nturn\nturn\n"));
    let lines: Vec<&str> = shown.explained.lines().rev().skip(1).take(6).collect();
    for (place, index) in [(0, 3), (2, 7), (4, 3)] {
        let (refused, chosen) = (lines[place], lines[place + 1]);
        assert!(chosen.contains(&format!(" choose ok {index}  ")), "{chosen}");
        let words = format!(
            "node {index} shall send: refused, an inbox that the frame would join is full; \
             the mark is at {index} all the same"
        );
        assert!(refused.contains(" 02 refused 5 ") && refused.ends_with(&words), "{refused}");
    }
    let words = "\n3 choices: 3 named a node, 0 nobody; 3 of the sends were refused.\nA node with a due frame waited for 2 choices ";
    assert!(shown.summary.contains(words), "{}", shown.summary);
    let one = self::shown(&format!("{full}turn\n")).summary;
    assert!(one.contains(" 0 nobody; 1 of the sends was refused.\nA node"), "{one}");
}

/// Lists, and the lines of their explanations: ticks in a row are one, and so are ticks with nobody's turn before each.
const FOLDED: [(&str, &[&str]); 6] = [
    ("turn\n", &["1 choose ok none"]),
    ("turn\ntick\n", &["1-2 choose ok none, 05 ok"]),
    ("settle 3 turns\n", &["1-6 choose ok none, 05 ok"]),
    (
        "turn\nturn\ntick\ntick\nturn\n",
        &["1 choose ok none", "2-3 choose ok none, 05 ok", "4 05 ok", "5 choose ok none"],
    ),
    ("tick 2\nsettle 2 turns\ntick\n", &["1-2 05 ok", "3-6 choose ok none, 05 ok", "7 05 ok"]),
    (
        "settle 2 turns\nturn\nsend 0\nturn\ntick\n",
        &[
            "1-4 choose ok none, 05 ok",
            "5 choose ok none",
            "6 02 refused 2",
            "7-8 choose ok none, 05 ok",
        ],
    ),
];

#[test]
fn nobodys_turns_and_ticks_are_one_line() {
    for (list, expected) in FOLDED {
        let explained = shown(list).explained;
        let mut lines: Vec<&str> =
            explained.lines().map(|line| line.split("  ").next().expect("a line")).collect();
        assert_eq!(lines.pop(), Some("kept"), "{list}");
        assert_eq!(lines, expected, "{list}");
    }
}

/// What such a line says: how many ticks, what came to be due by them, and that the list is late.
#[test]
fn a_line_of_nobodys_turns_says_what_passed() {
    let mark = "nobody's turn: no node has a due frame; the mark stays at";
    let explained = |list: &str| shown(list).explained;
    assert!(explained("turn\ntick\n").contains(&format!("  {mark} 23; then a tick, tick 1\n")));
    let three = format!("  3 times {mark} 23; each time then a tick, up to tick 3\n");
    assert!(explained("settle 3 turns\n").contains(&three));
    let up = explained("on 5 050101010105\nsettle 206 turns\n");
    let due = format!(
        "  200 times {mark} 5; each time then a tick, up to tick 204; RID is due now at node 5\n"
    );
    assert!(up.contains(&due), "{up}");
    let stands =
        format!("on 5 050101010105\nsettle 4 turns\nforeign RID 1\n{}", "turn\ntick\n".repeat(42));
    let late = explained(&stands);
    let words = format!(
        "  42 times {mark} 5; each time then a tick, up to tick 46; late from tick 45 on (command "
    );
    assert!(late.contains(&words), "{late}");
}

/// `settle 3 turns` is 3 times `deliver all`, a turn, a tick: one frame leaves in a millisecond at most.
#[test]
fn settle_goes_by_turns_where_asked() {
    let by_hand = format!("{ON}{}", "deliver all\nturn\ntick\n".repeat(20));
    let (settled, by_hand) = (expanded(&format!("{ON}settle 20 turns\n")), expanded(&by_hand));
    assert_eq!((&settled.bytes, &settled.beside), (&by_hand.bytes, &by_hand.beside));
    let all = expanded(&format!("{ON}settle 20\n"));
    assert!(all.beside.is_empty() && all.bytes != settled.bytes);
}

/// All 24 exhibits come up by turns, are then asked for their aliases, and answer within 24 ticks: nothing is late.
#[test]
fn a_card_that_goes_by_turns_is_kept() {
    let on: String =
        (0..PLACES).map(|index| format!("on {index} 0501010102{index:02X}\n")).collect();
    let list =
        format!("{on}settle 350 turns\nforeign AME 111\nforeign CID 7 365\nsettle 24 turns\n");
    let (mut frames, mut last, mut kept) = (Vec::new(), 0, true);
    moments(&list, |moment| {
        if moment.turn.is_some() {
            frames.push(moment.tick);
        }
        (last, kept) = (moment.tick, kept && moment.late.is_none());
        assert!(moment.longest.waited <= PLACES, "{:?}", moment.longest);
    });
    assert!(frames.windows(2).all(|pair| pair[0] < pair[1]), "{frames:?}");
    // Four CIDs, RID and AMD each; then an AMD each, but the one of which a CID asks for its alias answers by its RID first.
    assert_eq!((frames.len(), last, kept), (PLACES * 7, 374, true));
}
