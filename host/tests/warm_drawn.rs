//! How a drawing marks warm starts (request A.9): a sign at the beginning of the node's band, which a cold start has not, and what
//! it means.

mod examples;
mod places;
mod random;
mod shapes;
mod shown;

use examples::{example, names};
use lcc::card::Card;
use lcc::command::Command;
use lcc::play;
use lcc::watch::Watch;
use places::{are_apart, places, Place};
use shapes::{of_class, titles};
use shown::{expanded, shown};

const MEANING: &str = "started warm: it tests the alias that it is given back";
const COLD: &str = "a start without this sign is cold: it tests the first alias of its Node ID";

/// The warm starts of a list that were accepted: the node, and the words of the sign.
fn starts(list: &str) -> Vec<(usize, String)> {
    let (script, mut watch, mut starts) = (expanded(list), Watch::default(), Vec::new());
    play::play(&script.bytes, &script.beside, &mut Card::new(), |played, card| {
        let moment = watch.look(played, card);
        let Some(Command::Warm { flag: 1, index, .. }) = moment.command() else { return };
        if moment.accepted() {
            let (index, tick, count) = (usize::from(index), moment.tick, played.count);
            let alias = moment.after[index].alias;
            let words = format!(
                "node {index} at tick {tick}: started warm with alias {alias:03X}, command {count}"
            );
            starts.push((index, words));
        }
    });
    starts
}

/// The bands of a node in test.
fn bands(picture: &str, index: usize) -> Vec<Place> {
    let of_node = |line: &&&str| line.contains(&format!("<title>node {index}: Testing "));
    of_class(picture, "testing").iter().filter(of_node).map(|band| Place::of_rect(band)).collect()
}

/// Each sign is a start's, in the row of its node and in the middle of where a band in test begins; and each node with a start has
/// one. Gives how many there are.
fn is_drawn(list: &str) -> usize {
    let (picture, starts) = (shown(list).picture, starts(list));
    let (titled, signs) = (titles(&picture, "warm"), places(&picture, &["warm"]));
    assert_eq!(titled.last().copied(), (!starts.is_empty()).then_some(MEANING), "{list}");
    let mut drawn = 0;
    for (title, sign) in titled.iter().zip(&signs).take(titled.len().saturating_sub(1)) {
        let start = starts.iter().find(|(_, words)| words == title);
        let (index, _) = start.unwrap_or_else(|| panic!("{title} is no start of\n{list}"));
        let (x, y) = ((sign.left + sign.right) / 2.0, (sign.top + sign.bottom) / 2.0);
        let begins = |band: &Place| (band.left - x).abs() < 0.2 && band.top < y && y < band.bottom;
        assert!(bands(&picture, *index).iter().any(begins), "{title}:\n{list}");
        drawn += 1;
    }
    // Of signs that would cover one another the first is drawn, so that each node with a start has one.
    for (index, _) in &starts {
        let of_node = |title: &&&str| title.starts_with(&format!("node {index} at "));
        assert!(titled.iter().any(|title| of_node(&title)), "node {index}:\n{list}");
    }
    drawn
}

#[test]
fn the_example_has_its_signs() {
    assert_eq!(is_drawn(&example("warm-start")), 2);
    let picture = shown(&example("warm-start")).picture;
    for text in [MEANING, COLD] {
        assert!(picture.contains(&format!(">{text}</text>")), "{text}");
    }
    assert_eq!(of_class(&picture, "warm-text").len(), 3, "two starts, and the legend");
}

#[test]
fn every_warm_start_has_its_sign() {
    let signs: usize = (0..200).map(|seed| is_drawn(&random::by_warm_starts(seed))).sum();
    assert!(signs > 500, "{signs} signs");
    let apart =
        "warm 3 050101010103 7\nsettle 3\nwarm 3 050101010103 7\nsettle 3\nwarm 3 050101010103 9\n";
    assert_eq!(is_drawn(apart), 3);
}

/// A start by 01, by flag 0, and one that is refused: style, sign and legend are not there.
#[test]
fn other_drawings_have_no_sign_of_warm_starts() {
    let mut others = 0;
    for name in names().into_iter().filter(|name| name != "warm-start") {
        let picture = shown(&example(&name)).picture;
        assert!(!picture.contains("warm"), "{name}");
        others += 1;
    }
    assert!(others >= 13, "{others} other examples");
    let on = shown("on 3 050101010103\nsettle 4\n").picture;
    assert_eq!(shown("warm 3 050101010103 7 flag 0\nsettle 4\n").picture, on);
    assert_eq!(shown("on 3 050101010103\nsettle 4\nwarm 3 050101010103 7 flag 2\n").picture, on);
    assert_ne!(shown("warm 3 050101010103 7\nsettle 4\n").picture, on);
}

/// It is told from other signs in grey print: it alone is white on black. No text of a band and no name of a node lies upon it, and
/// no other such sign.
#[test]
fn signs_are_apart_from_texts() {
    let picture = shown(&example("warm-start")).picture;
    assert!(picture.contains(".warm { fill: #111;") && picture.contains("fill: #fff; }\n</style>"));
    let mut signs = 0;
    for seed in 0..100 {
        let list = random::by_warm_starts(seed);
        let picture = shown(&list).picture;
        let all = places(&picture, &["warm"]);
        are_apart(&all, &places(&picture, &["plate", "on-dark", "mono", "strong"]), &list);
        signs += all.len();
    }
    assert!(signs > 250, "{signs} signs");
}
