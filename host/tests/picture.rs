//! What a drawing shows of ages: lines of what stood or waited too long, and marks where two nodes come to use one alias.

mod examples;
mod places;
mod random;
mod shapes;
mod shown;

use examples::{example, names};
use places::{are_apart, number, places, Place};
use shapes::{of_class, titles};

fn drawn(text: &str) -> String {
    shown::shown(text).picture
}

/// The words that are written in a class.
fn texts<'a>(picture: &'a str, class: &str) -> Vec<&'a str> {
    let text = |line: &'a str| Some(line.split_once('>')?.1.split_once("</text>")?.0);
    of_class(picture, class).into_iter().filter_map(text).collect()
}

/// What the lines of a class say, without the one in the legend.
fn said<'a>(picture: &'a str, class: &str) -> Vec<&'a str> {
    let mut said = titles(picture, class);
    let legend = said.pop();
    assert!(legend.is_none_or(|words| words.ends_with(" for more than 40 ticks")), "{legend:?}");
    said
}

/// The examples just beyond request A.3: how long the CIDs of node 1 stand and the reply to them waits, and then a frame for as long
/// as the last number: the class of its line, and what it does.
const BEYOND: [(&str, [usize; 3], &str, &str); 3] = [
    ("limits-68-65", [68, 65, 68], "stood", REPLY_STOOD),
    ("limits-65-68", [65, 68, 68], "waited", AMR_WAITED),
    ("limits-67-67", [67, 67, 67], "stood", REPLY_STOOD),
];
const REPLY_STOOD: &str = "RID, alias 263, from node 0, stood in the inbox of node 1";
const AMR_WAITED: &str = "AMR, alias 263, Node ID 05.01.01.01.01.01, waited at node 0";

/// The lines of such an example, each with its class, the text on it and its title. Node 1's CID 7 is command 210, at tick 201; the
/// four are delivered one after another.
fn beyond([stand, wait, again]: [usize; 3], class: &'static str, what: &str) -> [Drawn; 3] {
    let (asked, left) = (201 + stand, 201 + stand + wait);
    let (first, last, leaves) = (214 + stand, 217 + stand, 218 + stand + wait);
    let line = |class, ticks, what: &str, way: String| {
        (class, format!("{ticks} ticks"), format!("{what} for {ticks} ticks, from {way}"))
    };
    let stood = format!("tick 201 (command 210) to tick {asked} (command {last})");
    let waited = format!("tick {asked} (command {first}) to tick {left} (command {leaves})");
    [
        line("stood", stand, "4 frames stood in the inbox of node 0", stood),
        line("waited", wait, "RID, alias 263, waited at node 0", waited),
        line(class, again, what, format!("tick {left} (command {leaves}) to the end")),
    ]
}

type Drawn = (&'static str, String, String);

/// Four CIDs that came and went together are one line.
#[test]
fn what_stood_and_waited_too_long_is_drawn() {
    for (name, ticks, last, what) in BEYOND {
        let (picture, lines) = (drawn(&example(name)), beyond(ticks, last, what));
        for class in ["stood", "waited"] {
            let lines = lines.iter().filter(|line| line.0 == class);
            let (written, titled): (Vec<_>, Vec<_>) =
                lines.map(|line| (line.1.as_str(), line.2.as_str())).unzip();
            assert_eq!(said(&picture, class), titled, "{name}");
            assert_eq!(texts(&picture, &format!("{class}-text")), written, "{name}");
        }
    }
}

/// A sign on both rows, with words, and one in the legend.
#[test]
fn two_nodes_on_one_alias_are_marked() {
    let title = "nodes 0, 1 use alias 263 at tick 402 (command 420)";
    for (name, ..) in BEYOND {
        let picture = drawn(&example(name));
        assert_eq!(
            titles(&picture, "shared"),
            [title, title, "two nodes come to use one alias"],
            "{name}"
        );
        let below = ["late from here on", "two nodes come to use alias 263"];
        assert_eq!(texts(&picture, "late-text"), below, "{name}");
        assert!(picture.contains(">two nodes come to use one alias<"), "{name}");
    }
}

/// The lines, their styles and their legend are there only where the list is late.
#[test]
fn drawings_of_kept_lists_have_no_signs_of_ages() {
    let mut kept = 0;
    for name in names() {
        let picture = drawn(&example(&name));
        if !texts(&picture, "late-text").is_empty() {
            continue;
        }
        for word in ["stood-text", "waited-text", "shared"] {
            assert!(!picture.contains(word), "{name}: {word}");
        }
        let verdict_alone = picture.matches(" for more than 40 ticks<").count() == 1;
        assert!(verdict_alone, "{name}: the legend speaks of ages");
        kept += 1;
    }
    assert!(kept >= 6, "{kept} examples are kept");
}

#[test]
fn a_late_list_has_no_more_signs_than_it_needs() {
    let late = drawn(&example("late"));
    let words = "eleven-bit frame 123, data 07.07, from foreign equipment, stood in the inbox of node 0 for 41 ticks, \
                 from tick 0 (command 2) to tick 41 (command 44)";
    assert_eq!(said(&late, "stood"), [words]);
    assert_eq!(texts(&late, "stood-text"), ["41 ticks"]);
    assert_eq!(of_class(&late, "waited").len() + of_class(&late, "shared").len(), 0);
    assert!(!late.contains("two nodes use") && !late.contains("a reply RID or AMR waited"));
}

/// A line begins where its frame came onto the bus, or where the reply came to be due, and ends where that left.
#[test]
fn lines_begin_and_end_at_their_commands() {
    let picture = drawn(&example("limits-68-65"));
    let on_the_bus = |command: usize| {
        let found = of_class(&picture, "frame").into_iter();
        let mut found = found.filter(|line| line.contains(&format!("command {command}<")));
        let frame = found.next().expect("it is drawn");
        number(frame, "x") + number(frame, "width") / 2.0
    };
    let reach = |class: &str, place: usize| {
        let line = of_class(&picture, class)[place];
        (number(line, "x"), number(line, "x") + number(line, "width"))
    };
    let near = |a: f64, b: f64| assert!((a - b).abs() < 0.2, "{a} is not {b}");
    let (stood, waited, then) = (reach("stood", 0), reach("waited", 0), reach("stood", 1));
    near(stood.0, on_the_bus(210));
    near(waited.1, on_the_bus(351));
    near(then.0, on_the_bus(351));
    // The first CID is delivered before the last.
    assert!(waited.0 < stood.1 && stood.0 < waited.0, "{stood:?} {waited:?}");
}

/// Frames of one inbox that stood at one time are one line, others are not; a fresh line begins where none stood.
#[test]
fn frames_that_stood_together_are_one_line() {
    let on = "on 0 050101010101\n";
    let cases: [(&str, &[&str]); 3] = [
        (
            "foreign RID 1\ntick 5\nforeign RID 2\ntick 50\ndeliver all\n",
            &["2 frames stood in the inbox of node 0 for 50 to 55 ticks, \
                 from tick 0 (command 2) to tick 55 (command 60)"],
        ),
        (
            "foreign RID 1\ntick 41\ndeliver 0\nforeign RID 2\ntick 42\n",
            &[
                "RID, alias 001, from foreign equipment, stood in the inbox of node 0 for 41 ticks, \
                 from tick 0 (command 2) to tick 41 (command 44)",
                "RID, alias 002, from foreign equipment, stood in the inbox of node 0 for 42 ticks, \
                 from tick 41 (command 45) to the end",
            ],
        ),
        ("foreign RID 1\ntick 40\ndeliver 0\nforeign RID 2\ntick 40\n", &[]),
    ];
    for (list, titled) in cases {
        assert_eq!(said(&drawn(&format!("{on}{list}")), "stood"), titled, "{list}");
    }
    let dropped = drawn("on 0 050101010101\nforeign RID 1\ntick 60\non 0 050101010101\ntick 60\n");
    assert!(said(&dropped, "stood")[0]
        .ends_with("for 60 ticks, from tick 0 (command 2) to tick 60 (command 63)"));
}

/// The text of a line of a drawing: its class, its place with the white under it, and which line of the drawing's text it is.
struct Label<'a> {
    class: &'a str,
    place: Place,
    at: usize,
}

fn labels(picture: &str) -> Vec<Label<'_>> {
    let lines: Vec<&str> = picture.lines().collect();
    let label = |at: usize| {
        let class = ["stood", "waited"]
            .into_iter()
            .find(|class| lines[at].contains(&format!("class=\"{class}-text\"")))?;
        Some(Label { class, place: Place::of_rect(lines[at - 1]), at })
    };
    (1..lines.len()).filter_map(label).collect()
}

const LINES: [&str; 2] = ["stood", "waited"];
const BANDS: [&str; 6] = ["testing", "reserved", "permitted", "leaving", "resting", "silent"];
const SIGNS: [&str; 9] =
    ["plate", "on-dark", "shared", "link", "restart", "ring", "cross", "turn", "turn-refused"];
/// What goes through the rows from top to bottom.
const CROSSING: [&str; 4] = ["fold", "late", "lead", "shared-way"];

/// The examples, and lists in which much is late.
fn lists() -> impl Iterator<Item = String> {
    let random = (0..300).flat_map(|seed| [random::list(seed), random::contest(seed)]);
    let examples = names().into_iter().map(|name| example(&name));
    let crowds = (0..10).map(|seed| random::crowd(seed) + &random::contest(seed));
    let turns = (0..10).map(|seed| random::by_turns(seed) + "turn\ntick 50\n");
    examples.chain(random).chain(crowds).chain((0..40).map(random::neglect)).chain(turns)
}

/// Lines and their texts cover no band, no sign, and no other of them; a text stands in its line, and nothing lies upon it.
#[test]
fn lines_and_their_texts_are_apart_from_all_else() {
    let (mut lines, mut written) = (0, 0);
    for list in lists() {
        let picture = drawn(&list);
        let others = [places(&picture, &BANDS), places(&picture, &SIGNS)].concat();
        are_apart(&places(&picture, &LINES), &others, &list);
        let labels = labels(&picture);
        are_apart(&labels.iter().map(|label| label.place).collect::<Vec<_>>(), &others, &list);
        for label in &labels {
            is_in_its_line(label, &picture, &list);
            let later = picture.lines().skip(label.at + 1).flat_map(Place::all_of);
            later.for_each(|other| assert!(!label.place.meets(&other), "{other:?}:\n{list}"));
        }
        (lines, written) = (lines + places(&picture, &LINES).len(), written + labels.len());
    }
    assert!(lines > 500 && written > 500, "{lines} lines, {written} texts");
}

/// A text meets one line, of its own sort, which goes on to either side of it.
fn is_in_its_line(label: &Label, picture: &str, list: &str) {
    let met = |class: &str| {
        let lines = places(picture, &[class]).into_iter();
        lines.filter(|line| line.meets(&label.place)).collect::<Vec<_>>()
    };
    let all: usize = LINES.iter().map(|class| met(class).len()).sum();
    let [own] = met(label.class)[..] else { panic!("{:?} is in no line:\n{list}", label.place) };
    assert!(all == 1 && own.left < label.place.left && own.right > label.place.right, "{list}");
}

/// Where lines are as long as in the examples, nothing goes through their texts.
#[test]
fn texts_of_the_examples_are_beside_what_crosses_the_rows() {
    let mut written = 0;
    for picture in names().iter().map(|name| drawn(&example(name))) {
        for label in labels(&picture) {
            are_apart(&[label.place], &places(&picture, &CROSSING), &picture);
            written += 1;
        }
    }
    assert!(written >= 10, "{written} texts");
}

/// The letters of a class, in pixels.
fn letters(picture: &str, class: &str) -> f64 {
    let (_, style) = picture.split_once(&format!("\n.{class} {{ font-size: ")).expect("a style");
    style.split_once("px").expect("in pixels").0.parse().expect("a number")
}

/// Texts of lines have letters as high as other small ones, and the white under them is as high.
#[test]
fn texts_of_lines_can_be_read() {
    for (name, ..) in BEYOND {
        let picture = drawn(&example(name));
        let small = letters(&picture, "small");
        for class in LINES {
            assert!(letters(&picture, &format!("{class}-text")) >= small, "{name}: {class}");
        }
        for Label { place, .. } in labels(&picture) {
            assert!(place.bottom - place.top >= small, "{name}: {place:?}");
        }
    }
}

/// The words below the rows cover one another nowhere, nor a line, its text, or a way to them.
#[test]
fn words_below_the_rows_are_apart() {
    let mut marks = 0;
    for list in lists() {
        let picture = drawn(&list);
        let words = places(&picture, &["late-text"]);
        let ways = places(&picture, &["shared-way"]);
        are_apart(&words, &places(&picture, &LINES), &list);
        are_apart(
            &words,
            &labels(&picture).iter().map(|label| label.place).collect::<Vec<_>>(),
            &list,
        );
        are_apart(&words, &ways, &list);
        marks += ways.len();
    }
    assert!(marks > 50, "{marks} marks");
}

#[test]
fn nothing_leaves_the_page() {
    for list in lists() {
        let picture = drawn(&list);
        let page = picture.lines().next().expect("a drawing");
        let (width, height) = (number(page, "width"), number(page, "height"));
        for line in picture.lines() {
            for Place { left, right, top, bottom } in Place::all_of(line) {
                let is_inside = left >= 0.0 && right <= width && top >= 0.0 && bottom <= height;
                assert!(is_inside && left <= right, "{line}:\n{list}");
            }
        }
    }
}
