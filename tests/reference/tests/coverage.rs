//! The stored corpus reaches every cell that scripts can reach, and every mark; lists with link
//! orders reach every cell and every link mark; lists with choices reach every turn cell, and lists with
//! read-outs every warm mark.

mod common;

use common::{in_state, ID};
use reference::generate::changes::Change;
use reference::generate::corpus;
use reference::generate::coverage::{in_scripts, Coverage, Event, Heed, Row};
use reference::generate::draft::Draft;
use reference::generate::id_marks::IdMark;
use reference::generate::link_lists;
use reference::generate::look_ups::{Followed, Gone, Outcome};
use reference::generate::map_corpus::{self, MapRule};
use reference::generate::marks::{Mark, Sort};
use reference::generate::prng::Prng;
use reference::generate::turn_cells::{Act, TurnCell};
use reference::generate::turn_lists;
use reference::generate::walker::{walk, walk_list, Temper};
use reference::generate::warm_lists;
use reference::generate::warm_marks::WarmMark;
use reference::header::{self, Header, AMD, AME, RID};
use reference::map::Entry;
use reference::{Alias, AliasMap, Frame, State};

#[test]
fn corpus_of_scripts_is_complete() {
    let scripts = corpus::scripts(corpus::SEED);
    let mut cover = Coverage::new();
    for script in &scripts {
        cover.count_script(script);
    }
    let cells = Row::all().len() * Event::all().len();
    let least = cover.cells.values().min().unwrap_or(&0);
    println!("{} scripts; {} of {cells} cells reached", scripts.len(), cover.cells.len());
    println!("{} marks; a cell is reached {least} times at least", Mark::all().len());
    assert_eq!(cover.missing_cells(), []);
    assert_eq!(cover.missing_marks(), []);
    assert_eq!(cover.missing_id_marks(), []);
    assert_eq!(cover.missing_warm_marks_of_scripts(), []);
    assert_eq!(cover.unlisted_cells(), []);
}

#[test]
fn lists_with_link_orders_are_complete() {
    let lists = link_lists::lists(corpus::SEED);
    let mut cover = Coverage::new();
    lists.iter().for_each(|list| cover.count_list(list));
    println!("{} lists; {} cells reached", lists.len(), cover.cells.len());
    assert_eq!(cover.missing_in_lists(), []);
    assert_eq!(cover.missing_link_marks(), []);
    assert_eq!(cover.unlisted_cells(), []);
    assert_eq!(cover.impossible_cells(), []);
}

#[test]
fn lists_with_choices_are_complete() {
    let lists = turn_lists::lists(corpus::SEED);
    let mut cover = Coverage::new();
    lists.iter().for_each(|list| cover.count_list(list));
    let commands: usize = lists.iter().map(Vec::len).sum();
    println!("{} lists of {commands} commands; {} turn cells", lists.len(), TurnCell::all().len());
    assert_eq!(cover.missing_turn_cells(), []);
    assert!(cover.turns.counts.keys().all(|cell| TurnCell::all().contains(cell)));
    assert_eq!(cover.unlisted_cells(), []);
    assert_eq!(cover.impossible_cells(), []);
}

#[test]
fn lists_with_read_outs_are_complete() {
    let lists = warm_lists::lists(corpus::SEED);
    let mut cover = Coverage::new();
    lists.iter().for_each(|list| cover.count_list(list));
    let commands: usize = lists.iter().map(Vec::len).sum();
    println!("{} lists of {commands} commands; {} warm marks", lists.len(), WarmMark::all().len());
    let mut missing = cover.missing_warm_marks();
    missing.retain(|mark| !mark.in_scripts());
    assert_eq!(missing, [], "the corpus has the others");
    let listed = |mark: &WarmMark| {
        matches!(mark, WarmMark::Given { flag: 2.., .. }) || WarmMark::all().contains(mark)
    };
    assert!(cover.warm.counts.keys().all(listed));
    assert_eq!(cover.unlisted_cells(), []);
    assert_eq!(cover.impossible_cells(), []);
}

/// By the corpus and by random scripts, which do not know what is called impossible.
#[test]
fn no_cell_that_is_called_impossible_is_met() {
    let mut cover = Coverage::new();
    for script in corpus::scripts(corpus::SEED) {
        cover.count_script(&script);
    }
    for seed in 0..300 {
        let mut rng = Prng::new(seed);
        let temper = Temper { warm: 30, ..Temper::random(&mut rng, 1_000) };
        cover.count_script(&walk(&mut rng, temper));
    }
    assert_eq!(cover.impossible_cells(), []);
    assert!(cover.met.keys().all(|&(row, event)| in_scripts(row, event)));
}

#[test]
fn no_list_meets_a_cell_that_is_called_impossible() {
    let mut cover = Coverage::new();
    for seed in 0..300 {
        let mut rng = Prng::new(seed);
        let temper = Temper::random(&mut rng, 1_000);
        let temper = Temper { links: 10, turns: 10, warm: 30, reads: 5, ..temper };
        cover.count_list(&walk_list(&mut rng, temper));
    }
    assert_eq!(cover.impossible_cells(), []);
    assert!(!cover.met.keys().all(|&(row, event)| in_scripts(row, event)));
}

#[test]
fn corpus_of_scripts_is_of_the_right_size() {
    let scripts = corpus::scripts(corpus::SEED);
    let (input, output) = corpus::files(&scripts);
    assert!(scripts.len() >= 300);
    assert!(input.len() <= 400_000 && output.len() <= 1_700_000);
    assert!(scripts.iter().all(|script| script.len() <= reference::script::INPUT_MAX));
    let kept = scripts.iter().filter(|script| ends_kept(script)).count();
    assert!(kept >= 100 && scripts.len() - kept >= 50, "{kept} kept");
}

fn ends_kept(script: &[u8]) -> bool {
    let mut out = Vec::new();
    reference::run(script, &mut out);
    out.ends_with(b"kept\n")
}

#[test]
fn corpus_of_the_map_is_complete() {
    let ops = map_corpus::ops(corpus::SEED);
    let met = map_corpus::rules_met(&ops);
    let missing: Vec<_> = MapRule::all().into_iter().filter(|rule| !met.contains(rule)).collect();
    assert_eq!(missing, []);
    let (input, output) = map_corpus::files(&ops);
    assert!(input.len() <= 60_000);
    assert_eq!(output.iter().filter(|&&byte| byte == b'\n').count(), ops.len());
}

/// The map after these notes, followed from one to the next: AMDs of an alias and a Node ID, AMRs
/// where the Node ID is 0.
fn followed(notes: &[(u32, u64)]) -> Followed {
    let (mut map, mut followed) = (AliasMap::new(), Followed::default());
    for &(alias, id) in notes {
        let header = if id == 0 { 0x1070_3000 } else { 0x1070_1000 } | alias;
        map.note(&Frame::with_node_id(header, id)).expect("room");
        followed.follow(&map);
    }
    followed
}

#[test]
fn an_entry_comes_nearer_by_what_becomes_of_older_ones() {
    let three = [(1, 1), (2, 2), (3, 3)];
    let outcomes = |more: &[(u32, u64)], alias| {
        let followed = followed(&[&three[..], more].concat());
        followed.outcomes(|entry| entry.alias == Alias(alias))
    };
    let hit = |oldest, newest| Outcome::Hit { oldest, newest };
    assert_eq!(outcomes(&[], 2), [hit(false, false)]);
    assert_eq!(outcomes(&[(1, 0)], 2), [hit(true, false), Outcome::Nearer(Gone::Removed)]);
    assert_eq!(outcomes(&[(1, 1)], 2), [hit(true, false), Outcome::Nearer(Gone::MovedLast)]);
    assert_eq!(outcomes(&[(1, 9)], 3), [hit(false, false), Outcome::Nearer(Gone::Replaced)]);
    assert_eq!(outcomes(&[(3, 1)], 2), [hit(true, false), Outcome::Nearer(Gone::Replaced)]);
    assert_eq!(outcomes(&[(1, 0), (2, 2)], 3), [hit(true, false)], "by two ways");
    assert_eq!(outcomes(&[(1, 0), (2, 2)], 2), [hit(false, true)], "it is the last again");
    assert_eq!(outcomes(&[(3, 0)], 2), [hit(false, true)], "only a newer one has gone");
    assert_eq!(outcomes(&[(4, 4)], 1), [hit(true, false)], "none has gone");
    assert_eq!(outcomes(&[(3, 0)], 3), [Outcome::Absent { empty: false, full: false }]);
}

#[test]
fn look_ups_in_full_and_empty_maps_are_told() {
    let full: Vec<_> = (1..=64).map(|n| (n, u64::from(n))).collect();
    let full = followed(&full);
    let empty = followed(&[(1, 1), (1, 0)]);
    for place in 1..=64 {
        let hit = Outcome::Hit { oldest: place == 1, newest: place == 64 };
        let outcomes = full.outcomes(|entry| entry.id == place as u64);
        assert_eq!(outcomes, [hit, Outcome::HitInFull(place)]);
    }
    assert_eq!(full.outcomes(|_| false), [Outcome::Absent { empty: false, full: true }]);
    assert_eq!(empty.outcomes(|_| true), [Outcome::Absent { empty: true, full: false }]);
}

/// What a Permitted node has met after a control frame of this field, alias and bit 28.
fn cover_after(field: u16, alias: Alias, bit_28: bool) -> Coverage {
    let header = header::join(Header { bit_28, message: false, field, alias });
    let mut draft = in_state(State::Permitted);
    draft.foreign(Frame::with_node_id(header, ID)).deliver(0);
    let mut cover = Coverage::new();
    cover.count_list(&draft.list);
    cover
}

#[test]
fn a_frame_counts_by_its_own_bit_28_alone() {
    let own = Alias(0x263);
    let frames = [
        (0x7050, own, Heed::OwnCid),
        (RID, own, Heed::OwnOther),
        (AME, Alias(1), Heed::Ame),
        (AMD, Alias(1), Heed::Amd),
    ];
    for (field, alias, heed) in frames {
        for bit_28 in [false, true] {
            let cover = cover_after(field, alias, bit_28);
            let by_bit = |(_, event): &&(Row, Event)| matches!(event, Event::DeliverBit28 { .. });
            let met: Vec<_> = cover.met.keys().filter(by_bit).map(|&(_, event)| event).collect();
            assert_eq!(met, [Event::DeliverBit28 { heed, bit_28 }]);
        }
    }
}

#[test]
fn a_frame_that_joined_later_does_not_show_that_frames_stayed() {
    for joins in [false, true] {
        let mut draft = in_state(State::Permitted);
        draft.power_on(1, ID + 1).idle_frame().power_on(0, ID + 1);
        if joins {
            draft.idle_frame();
        }
        let mut cover = Coverage::new();
        cover.count_list(&draft.deliver(0).list);
        assert_eq!(cover.ids.met(&IdMark::FramesStayed(State::Permitted)), !joins);
    }
}

/// A reply RID has waited 41 ticks, and a power-on was refused by 15 after so many of them; perhaps
/// another frame has stood as long.
#[test]
fn an_age_ran_on_if_it_alone_made_the_list_late() {
    let lists = [(1, false, true), (40, false, true), (0, false, false), (20, true, false)];
    for (after, another, counts) in lists {
        let mut draft = in_state(State::Permitted);
        draft.foreign_cid(0).deliver(0).power_on(1, ID + 1);
        if another {
            draft.idle_frame().deliver(0);
        }
        draft.ticks(after).power_on(0, ID + 1).ticks(41 - after);
        let mut cover = Coverage::new();
        cover.count_list(&draft.list);
        assert_eq!(cover.ids.met(&IdMark::LateBy(Sort::Reply)), counts, "{after} {another}");
    }
}

/// The turn cells that a list meets, of those that are wanted.
fn turn_cells(draft: &Draft, wanted: fn(&TurnCell) -> bool) -> Vec<TurnCell> {
    let mut cover = Coverage::new();
    cover.count_list(&draft.list);
    cover.turns.counts.into_keys().filter(wanted).collect()
}

#[test]
fn what_comes_between_two_choices_counts_if_both_name_a_node() {
    let between = |draft: &Draft| turn_cells(draft, |cell| matches!(cell, TurnCell::Between(_)));
    let mut draft = Draft::new();
    draft.choose().power_on(3, ID).power_on(9, ID + 9).choose();
    assert_eq!(between(&draft), [], "the first named nobody");
    draft.send(3).fail(9).deliver(3);
    assert_eq!(between(&draft), [], "no second has come");
    draft.choose();
    assert_eq!(between(&draft), [TurnCell::Between(Act::Sent)], "the rest is no act of node 3");
    draft.choose().choose();
    assert_eq!(between(&draft), [TurnCell::Between(Act::Sent)], "nothing comes between these");
    draft.ticks(1).fail(9).choose();
    let more = [Act::Sent, Act::Failed { restarts: true }, Act::Tick].map(TurnCell::Between);
    assert_eq!(between(&draft), more);
}

#[test]
fn a_node_is_named_last_where_23_others_were_named_since() {
    for (nodes, ticks, last) in [(23, 0, None), (24, 0, Some(false)), (24, 1, Some(true))] {
        let mut draft = Draft::new();
        (0..nodes).for_each(|index| _ = draft.power_on(index, ID + u64::from(index)));
        (0..24).for_each(|_| _ = draft.choose().ticks(ticks));
        let met = turn_cells(&draft, |cell| matches!(cell, TurnCell::NamedLast { .. }));
        let expected = last.map(|amid| TurnCell::NamedLast { amid, place: 23 });
        assert_eq!(met, Vec::from_iter(expected), "{nodes} nodes");
    }
}

#[test]
fn a_change_of_the_map_is_told_by_its_entries() {
    let entries = |pairs: &[(u16, u64)]| -> Vec<Entry> {
        pairs.iter().map(|&(alias, id)| Entry { alias: Alias(alias), id }).collect()
    };
    let before = entries(&[(1, 1), (2, 2)]);
    let change = |after: &[(u16, u64)]| Change::of(&before, &entries(after));
    assert_eq!(change(&[(1, 1), (2, 2)]), None);
    assert_eq!(change(&[(1, 1), (2, 2), (3, 3)]), Some(Change::Enters));
    assert_eq!(change(&[(2, 2), (1, 1)]), Some(Change::Replaces));
    assert_eq!(change(&[(2, 2), (1, 9)]), Some(Change::Replaces));
    assert_eq!(change(&[(2, 1)]), Some(Change::Replaces));
    assert_eq!(change(&[(1, 1)]), Some(Change::Removes));
}
