//! How a drawing marks frames that came with bit 28 as 0 (request A.5): another shape in another colour, and what it means.

mod examples;
mod places;
mod shapes;
mod shown;

use examples::{example, names};
use places::{are_apart, places, Place};
use shapes::{of_class, titles};
use shown::shown;

const LEGEND: &str = "foreign frame that came with bit 28 as 0";

/// Three frames, one that collided, and one more in the legend; those with bit 28 as 1 are drawn as ever.
#[test]
fn the_example_has_its_marks() {
    let picture = shown(&example("reserved-bit")).picture;
    let marked = [
        "CID 7, alias 263, section 0A0, bit 28 as 0, of foreign equipment, command ",
        "AME, alias 111, Node ID 05.01.01.01.01.02, bit 28 as 0, of foreign equipment, command ",
        "remote frame 07050263, bit 28 as 0, of foreign equipment, command ",
        LEGEND,
    ];
    let titled = titles(&picture, "bit28");
    assert_eq!(titled.len(), marked.len(), "{titled:?}");
    for (title, words) in titled.iter().zip(marked) {
        assert!(title.starts_with(words), "{title}");
    }
    let hits = titles(&picture, "bit28-hit");
    let words = "message 15B4, alias 264, data 07, bit 28 as 0, of foreign equipment, command ";
    assert!(hits.len() == 1 && hits[0].starts_with(words), "{hits:?}");
    let (others, other_hits) = (titles(&picture, "foreign"), titles(&picture, "foreign-hit"));
    assert_eq!((others.len(), other_hits.len()), (3, 1));
    let told = "node 1 at tick 217: message, bit 28 as 0, of foreign equipment has its alias 264; it gives the alias up<";
    assert!(picture.contains(told) && picture.contains(&format!(">{LEGEND}</text>")));
}

/// Colour and shape are both others than those of any other frame.
#[test]
fn marks_are_told_from_other_frames_in_grey_too() {
    let picture = shown(&example("reserved-bit")).picture;
    for class in ["bit28", "bit28-hit"] {
        assert!(of_class(&picture, class).iter().all(|shape| shape.starts_with("<polygon ")));
    }
    for class in ["frame", "hit", "foreign", "foreign-hit"] {
        assert!(of_class(&picture, class).iter().all(|shape| shape.starts_with("<rect ")));
    }
    let fills = |class: &str| {
        let (_, style) = picture.split_once(&format!("\n.{class} {{ fill: ")).expect("a style");
        style.split_once(';').expect("it ends").0
    };
    let own = fills("bit28");
    assert_eq!(fills("bit28-hit"), own);
    assert_eq!(picture.matches(own).count(), 2, "{own}");
}

/// Style, shape and legend are there only where such a frame is drawn.
#[test]
fn other_drawings_have_no_sign_of_it() {
    let mut others = 0;
    for name in names().into_iter().filter(|name| name != "reserved-bit") {
        let picture = shown(&example(&name)).picture;
        assert!(!picture.contains("bit28") && !picture.contains("bit 28"), "{name}");
        others += 1;
    }
    assert!(others >= 10, "{others} other examples");
}

/// All exhibits, whose frames lie close to one another, and then foreign frames, four with bit 28 as 0 and four with 1.
fn crowd() -> String {
    let on = (0..24).map(|index| format!("on {index} 0501010102{index:02X}\n"));
    let foreign = [" bit28 0\n", "\n"].map(|end| format!("foreign CID 7 1{end}").repeat(4));
    on.chain(["send all\n".into()]).chain(foreign).chain(["settle 206\n".into()]).collect()
}

/// Each is drawn, after all other frames, so that none covers it; and none lies on another.
#[test]
fn marks_are_drawn_over_other_frames() {
    let picture = shown(&crowd()).picture;
    let marks = of_class(&picture, "bit28");
    assert_eq!(marks.len(), 4 + 1, "four frames, and the legend's");
    let lines: Vec<&str> = picture.lines().collect();
    let at = |shape: &&str| lines.iter().position(|line| line == shape).expect("it is drawn");
    let first = marks.iter().map(at).min().expect("there are some");
    let others = lines.iter().rposition(|line| {
        line.contains("class=\"frame\"><title>") || line.contains("class=\"foreign\"><title>")
    });
    assert!(others.is_some_and(|last| last < first));
    are_apart(&places(&picture, &["bit28"]), &[], &picture);
}

/// Of as many as 200 pairs in one lane no mark reaches the middle of another frame.
#[test]
fn marks_leave_other_frames_to_be_seen() {
    for count in [10, 60, 120, 200] {
        let pair = "foreign RID 111 bit28 0\ndeliver 0\nforeign RID 111\ndeliver 0\n".repeat(count);
        let picture = shown(&format!("on 0 050101010101\n{pair}")).picture;
        let (marks, others) = (places(&picture, &["bit28"]), places(&picture, &["foreign"]));
        assert_eq!((marks.len(), others.len()), (count + 1, count + 1), "with the legend's");
        let middle = |place: &Place| (place.left + place.right) / 2.0;
        for other in others {
            let place = Place { left: middle(&other), right: middle(&other), ..other };
            assert!(!marks.iter().any(|mark| mark.meets(&place)), "{place:?}, of {count} pairs");
        }
    }
}

/// Of so many frames not each is drawn, since they would cover one another; one with bit 28 as 0 among them is.
#[test]
fn a_mark_is_not_left_out_for_other_frames() {
    for before in 1_900..1_904 {
        let others = |count| "foreign RID 111\ndeliver 0\n".repeat(count);
        let marked = "foreign RID 111 bit28 0\ndeliver 0\n";
        let list = format!("on 0 050101010101\n{}{marked}{}", others(before), others(1_900));
        let picture = shown(&list).picture;
        assert!(titles(&picture, "foreign").len() < 1_900);
        assert_eq!(titles(&picture, "bit28").len(), 1 + 1, "the frame, and the legend's");
    }
}

/// Four exhibits that such frames with their aliases meet: what is told of that stands beside nothing else, and the legend's row too.
#[test]
fn words_on_marks_are_apart() {
    let on: String = (0..4).map(|index| format!("on {index} 05010101010{index}\n")).collect();
    let hits = (0..4).map(|index| format!("foreign error 3 26{} bit28 0\n", 2 + index));
    let list = format!("{on}settle 2000\n{}deliver all\n", hits.collect::<String>());
    let picture = shown(&list).picture;
    let told = " at tick 2000: error report 3, bit 28 as 0, of foreign equipment has its alias ";
    assert_eq!(picture.matches(told).count(), 4);
    let texts =
        picture.lines().filter(|line| line.starts_with("<text ") && line.contains(" class=\"\""));
    let texts: Vec<Place> = texts.flat_map(Place::all_of).collect();
    are_apart(&texts, &places(&picture, &["bit28", "bit28-hit", "cross", "hit", "restart"]), &list);
}
