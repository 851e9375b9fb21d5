//! How a drawing marks whose turn it was (request A.8): in the row of the node, where its frame is on the bus, and what it means.

mod examples;
mod places;
mod random;
mod shapes;
mod shown;

use examples::{example, names};
use lcc::card::{Card, PLACES};
use lcc::play;
use lcc::watch::Watch;
use places::{are_apart, places, Place};
use shapes::{of_class, titles};
use shown::{expanded, shown};

const SENDS: &str = "turn of this node: it sends";
const REFUSED: &str = "turn of this node, but its send is refused";

/// What is to be seen of a mark: the node, the words, and the command of the send.
type Mark = (usize, String, usize);

/// The turns of a list: those whose frame left, and those whose send was refused.
fn turns(list: &str) -> [Vec<Mark>; 2] {
    let (script, mut watch) = (expanded(list), Watch::default());
    let mut turns = [Vec::new(), Vec::new()];
    play::play(&script.bytes, &script.beside, &mut Card::new(), |played, card| {
        let moment = watch.look(played, card);
        let Some((choice, index)) = moment.turn.zip(moment.node()) else { return };
        turns[usize::from(!moment.accepted())].push((index, choice.words(), played.count));
    });
    turns
}

/// From the top of the bands of a node to those of the next, where its marks are; it has one band at least.
fn row(picture: &str, index: usize) -> Place {
    let of_node = |line: &&str| line.contains(&format!("<title>node {index}: "));
    let band = picture.lines().find(of_node).expect("a band");
    let Place { top, bottom, .. } = Place::of_rect(band);
    Place { left: 168.0, right: 994.0, top, bottom: bottom + 7.5 }
}

fn middle(place: &Place) -> f64 {
    (place.left + place.right) / 2.0
}

/// Each turn of a node has its mark, in the row of the node, with whose it was and why; a frame on the bus stands above it.
fn is_drawn(list: &str) -> [usize; 2] {
    let picture = shown(list).picture;
    let [sent, refused] = turns(list);
    for (class, turns, end, legend) in
        [("turn", &sent, "", SENDS), ("turn-refused", &refused, "; its send is refused", REFUSED)]
    {
        let (titled, marks) = (titles(&picture, class), places(&picture, &[class]));
        let drawn = sent.len() + refused.len() > 0;
        assert_eq!(titled.last().copied(), drawn.then_some(legend), "{list}");
        assert_eq!(titled.len(), turns.len() + usize::from(drawn), "{list}");
        let mut expected: Vec<&Mark> = turns.iter().collect();
        expected.sort_by_key(|(index, _, count)| (*index, *count));
        for (at, (index, words, count)) in expected.into_iter().enumerate() {
            assert_eq!(titled[at], format!("{words}{end}, command {count}"), "{list}");
            let (mark, row) = (&marks[at], row(&picture, *index));
            assert!(mark.top >= row.top && mark.bottom <= row.bottom, "{mark:?} {row:?}:\n{list}");
            let frame = picture.lines().find(|line| {
                line.contains(&format!(", command {count}<")) && !line.contains(" class=\"turn")
            });
            assert_eq!(frame.is_some(), class == "turn", "command {count}:\n{list}");
            let frame = frame.map(|frame| middle(&Place::of_rect(frame)));
            assert!(frame.is_none_or(|x| (x - middle(mark)).abs() < 0.2), "{mark:?}:\n{list}");
        }
    }
    [sent.len(), refused.len()]
}

#[test]
fn the_example_has_its_marks() {
    assert_eq!(is_drawn(&example("turns")), [24, 2]);
    let picture = shown(&example("turns")).picture;
    assert!(picture.contains(" 26 turns, 220 ticks of 1 ms.<"), "the line below the title");
    for text in [SENDS, REFUSED, "nobody's turns have no mark"] {
        assert!(picture.contains(&format!(">{text}</text>")), "{text}");
    }
}

/// Lists of few nodes and of many. Frames that lie close are not each drawn, and neither are their marks: such are left out here.
#[test]
fn every_turn_has_its_mark() {
    let (mut sent, mut refused) = (0, 0);
    for seed in 0..100 {
        let list = random::by_turns(seed);
        let [all, none] = turns(&list).map(|turns| turns.len());
        if all + none < 100 {
            is_drawn(&list);
            (sent, refused) = (sent + all, refused + none);
        }
    }
    assert!(sent > 1_000 && refused > 20, "{sent} sent, {refused} refused");
}

/// Shapes, not colours, tell the two apart, and from frames, which are rectangles higher than wide.
#[test]
fn marks_are_told_apart_in_grey_too() {
    let picture = shown(&example("turns")).picture;
    assert!(of_class(&picture, "turn").iter().all(|mark| mark.starts_with("<polygon ")));
    assert!(of_class(&picture, "turn-refused").iter().all(|mark| mark.starts_with("<rect ")));
    for Place { left, right, top, bottom } in places(&picture, &["turn-refused"]) {
        assert!(right - left > 2.0 * (bottom - top));
    }
}

/// Style, strips, marks and legend are there only where a node has had a turn.
#[test]
fn other_drawings_have_no_sign_of_turns() {
    let mut others = 0;
    for name in names().into_iter().filter(|name| name != "turns") {
        assert!(!shown(&example(&name)).picture.contains("turn"), "{name}");
        others += 1;
    }
    assert!(others >= 12, "{others} other examples");
    let (without, nobodys) =
        ("on 3 050101010103\nsettle 4\n", "on 3 050101010103\nsettle 4\nturn\n");
    assert_eq!(shown(without).picture, shown(nobodys).picture);
}

/// Marks lie on no band, on no sign, and not on one another.
#[test]
fn marks_are_apart_from_all_else() {
    let classes =
        ["testing", "reserved", "permitted", "leaving", "plate", "on-dark", "cross", "restart"];
    let mut marks = 0;
    for seed in 0..40 {
        let list = random::by_turns(seed);
        let picture = shown(&list).picture;
        let all = places(&picture, &["turn", "turn-refused"]);
        let each = turns(&list).map(|turns| turns.len());
        if each[0] + each[1] < 100 {
            are_apart(&all, &places(&picture, &classes), &list);
            marks += all.len();
        }
    }
    assert!(marks > 500, "{marks} marks");
}

fn all_on() -> String {
    (0..PLACES).map(|index| format!("on {index} 0501010102{index:02X}\n")).collect()
}

/// Hundreds of turns in which each of 24 nodes has its own: every mark is as wide as any, and beside the others of its row.
#[test]
fn hundreds_of_turns_can_be_told_apart() {
    let messages: String = (0..PLACES).map(|index| format!("message {index} 05B4\n")).collect();
    let round = format!("{messages}settle 24 turns\n").repeat(8);
    let picture = shown(&format!("{}settle 350 turns\n{round}", all_on())).picture;
    let marks = places(&picture, &["turn"]);
    assert_eq!(marks.len(), PLACES * (6 + 8) + 1, "and the legend's");
    let width = |place: &Place| place.right - place.left;
    let narrow = marks.iter().map(width).fold(f64::MAX, f64::min);
    assert!(narrow > 5.0, "{narrow}");
    are_apart(&marks, &[], "336 turns");
}

/// One node that has nearly all of 700 turns: its marks are narrow, and no more of them are drawn than can lie side by side; the few of
/// the other stand out.
#[test]
fn a_chatty_node_hides_no_other() {
    let chatty = "message 3 05B4\nsettle 1 turns\n".repeat(350);
    let list = format!(
        "on 3 050101010103\non 9 050101010109\nsettle 220 turns\n{chatty}message 9 05B4\n{chatty}"
    );
    let picture = shown(&list).picture;
    let (row_3, row_9) = (row(&picture, 3), row(&picture, 9));
    let of_row = |row: &Place| {
        let marks = places(&picture, &["turn"]).into_iter();
        marks.filter(|mark| mark.top >= row.top && mark.bottom <= row.bottom).collect::<Vec<_>>()
    };
    let (marks_3, marks_9) = (of_row(&row_3), of_row(&row_9));
    assert!((300..=706).contains(&marks_3.len()), "{}", marks_3.len());
    assert!(marks_3.windows(2).all(|pair| middle(&pair[1]) - middle(&pair[0]) > 0.5));
    assert_eq!(marks_9.len(), 6 + 1, "its way up, and its message");
    let last = marks_9.last().expect("its message");
    assert!(last.right - last.left > 5.0, "{last:?}");
}
