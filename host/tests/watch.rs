//! What the tool keeps in mind of a run, against what the card shows: frames as they are delivered, how old they became, and
//! aliases that two nodes use.

mod random;

use lcc::ages::Ages;
use lcc::card::{Answer, Card, Seen, State, PLACES};
use lcc::command::Command;
use lcc::expand::{expand, Expanded};
use lcc::frame::{Frame, Sort};
use lcc::shared::Shared;
use lcc::told::Told;
use lcc::watch::{Aged, Late, Moment, Watch};
use lcc::{play, script};

const SCRIPTS: u64 = 1_000;

fn expanded(text: &str) -> Expanded {
    expand(&script::parse(text).expect("it is right"))
}

/// The moments of a random script, each with the frame that stood first in the inbox of the node that the command names.
fn moments(seed: u64, mut check: impl FnMut(&Moment, Option<Frame>)) {
    let script = expanded(&random::list(seed));
    let mut watch = Watch::default();
    let mut first = [None; PLACES];
    play::play(&script.bytes, &script.beside, &mut Card::new(), |played, card| {
        let moment = watch.look(played, card);
        check(&moment, moment.node().and_then(|index| first[index]));
        first = std::array::from_fn(|index| card.inbox(index, 0));
    });
}

#[test]
fn what_is_delivered_is_what_stood_first() {
    let (mut deliveries, mut collisions) = (0, 0);
    for seed in 0..SCRIPTS {
        moments(seed, |moment, first| {
            let delivers =
                matches!(moment.command(), Some(Command::Deliver { .. })) && moment.accepted();
            let expected = first.filter(|_| delivers);
            assert_eq!(
                moment.delivered.map(|arrival| arrival.frame),
                expected,
                "seed {seed}, {:?}",
                moment.played
            );
            deliveries += usize::from(delivers);
            collisions += usize::from(moment.node().is_some_and(|index| moment.collided(index)));
        });
    }
    assert!(
        deliveries > 5_000 && collisions > 200,
        "{deliveries} deliveries, {collisions} collisions"
    );
}

/// A frame collides where it has the node's alias: what a delivery changed was caused by that.
#[test]
fn a_frame_that_collides_has_the_alias() {
    for seed in 0..SCRIPTS {
        moments(seed, |moment, _| {
            if let Some((index, arrival)) =
                moment.node().filter(|&i| moment.collided(i)).zip(moment.delivered)
            {
                assert_eq!(
                    arrival.frame.alias(),
                    moment.before[index].alias,
                    "seed {seed}, {:?}",
                    moment.played
                );
            }
        });
    }
}

/// The limit is the library's: what the tool names has then stood or waited for 41 ticks, whatever it is.
#[test]
fn what_is_late_is_41_ticks_old() {
    let (mut stood, mut waited) = (0, 0);
    for seed in 0..SCRIPTS {
        moments(seed, |moment, _| {
            let Some(Late { tick, what, .. }) = moment.late else { return };
            assert_eq!(what.age(tick), 41, "seed {seed}, {:?}", moment.played);
            stood += usize::from(matches!(what, Aged::Inbox(_)));
            waited += usize::from(matches!(what, Aged::Due(_)));
        });
    }
    assert!(stood > 100 && waited > 10, "{stood} stood, {waited} waited");
}

/// The greatest ages are counted as the card counts them: at every command it is late exactly when one of them is above its limit.
#[test]
fn the_card_is_late_by_the_greatest_ages() {
    let (mut stood, mut waited) = (0, 0);
    for seed in 0..SCRIPTS {
        let (mut watch, mut last) = (Watch::default(), Ages::default());
        let script = expanded(&random::list(seed));
        play::play(&script.bytes, &script.beside, &mut Card::new(), |played, card| {
            last = watch.look(played, card).longest;
            assert_eq!(last.are_kept(), !card.is_late(), "seed {seed}, {last:?}, {played:?}");
        });
        stood += usize::from(!Ages { waited: 0, ..last }.are_kept());
        waited += usize::from(!Ages { stood: 0, ..last }.are_kept());
    }
    assert!(stood > 100 && waited > 50, "{stood} stood, {waited} waited");
}

/// Whether two nodes use one alias.
fn is_shared(seen: &[Seen; PLACES]) -> bool {
    let users: Vec<&Seen> = seen.iter().filter(|node| node.state.uses_alias()).collect();
    (1..users.len()).any(|i| users[..i].iter().any(|other| other.alias == users[i].alias))
}

/// What request A.3 promises, as far as the tool can see it; and an alias that two nodes use is told by the command that led to it.
#[test]
fn aliases_are_single_while_the_sums_are_low() {
    let (mut late_and_single, mut shared) = (0, 0);
    for seed in 0..SCRIPTS {
        for script in [random::list(seed), random::contest(seed)] {
            let (script, mut watch) = (expanded(&script), Watch::default());
            let (mut was_shared, mut single_while_late) = (false, false);
            play::play(&script.bytes, &script.beside, &mut Card::new(), |played, card| {
                let moment = watch.look(played, card);
                let is_shared = is_shared(&moment.after);
                let single = moment.longest.keep_aliases_single();
                assert!(!(single && is_shared), "seed {seed}, {played:?}");
                let told = Shared::of(&moment).is_some();
                assert!(!told || is_shared, "seed {seed}, {played:?}");
                assert!(told || was_shared || !is_shared, "seed {seed}, {played:?}");
                was_shared = is_shared;
                single_while_late = single && card.is_late();
                shared += usize::from(told);
            });
            late_and_single += usize::from(single_while_late);
        }
    }
    assert!(late_and_single > 100 && shared > 100, "{late_and_single} late, {shared} shared");
}

/// A list that is late has a frame that made it so.
#[test]
fn whatever_is_late_has_a_cause() {
    for seed in 0..SCRIPTS {
        let (mut card, mut watch, mut named) = (Card::new(), Watch::default(), false);
        let script = expanded(&random::list(seed));
        play::play(&script.bytes, &script.beside, &mut card, |played, card| {
            named |= watch.look(played, card).late.is_some()
        });
        assert_eq!(named, card.is_late(), "seed {seed}");
    }
}

/// What the tool says of a link order is what is seen: an error report is due by it, at a Permitted node, or nothing has changed.
#[test]
fn by_a_link_order_an_error_report_is_due_or_nothing() {
    let (mut reports, mut others) = (0, 0);
    for seed in 0..SCRIPTS {
        moments(seed, |moment, _| {
            if moment.link().is_none() {
                return;
            }
            let Some(told) = Told::of(moment) else {
                assert!(!moment.accepted() && moment.before == moment.after, "seed {seed}");
                return;
            };
            let mut expected = moment.before;
            expected[told.index].due = told.due.or(expected[told.index].due);
            assert_eq!(moment.after, expected, "seed {seed}, {:?}", moment.played);
            let report = |frame: Frame| matches!(frame.sort(), Some(Sort::ErrorReport(_)));
            assert!(told.due.is_none_or(report), "seed {seed}, {:?}", moment.played);
            let permitted = moment.after[told.index].state == State::Permitted;
            assert!(permitted || told.due.is_none(), "seed {seed}, {:?}", moment.played);
            reports += usize::from(told.due.is_some());
            others += usize::from(told.due.is_none());
        });
    }
    assert!(reports > 200 && others > 500, "{reports} reports, {others} other link orders");
}

/// Accepted sends alone carry a frame.
#[test]
fn frames_come_onto_the_bus_by_send_and_foreign_alone() {
    for seed in 0..SCRIPTS {
        moments(seed, |moment, _| {
            let sent = matches!(moment.played.answer, Answer::Sent(_));
            let foreign =
                matches!(moment.command(), Some(Command::Foreign(_))) && moment.accepted();
            assert_eq!(moment.on_the_bus().is_some(), sent || foreign, "seed {seed}");
            assert!(moment.joined() == 0 || sent || foreign, "seed {seed}");
        });
    }
}
