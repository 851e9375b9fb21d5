//! A.3: for which limits aliases must stay single, that they do at every corner in the worst lists
//! and in random ones, and that just outside they do not.

mod common;

use common::{in_state, refusal, seed, ID};
use reference::generate::contests;
use reference::generate::draft::Draft;
use reference::generate::prng::Prng;
use reference::generate::slow::{slow_amr, slow_reply};
use reference::generate::walker::{Temper, Walker};
use reference::node::Owed;
use reference::{Alias, Command, Limits, Node, Segment, State, Watch};

/// Limits that A.3 does not allow, by one or two ticks.
const OUTSIDE: [(u64, u64); 7] =
    [(68, 65), (65, 68), (67, 67), (101, 0), (0, 101), (100, 1), (1, 100)];

/// Whatever is allowed is within one of these: the whole numbers on the two lines of A.3, as far as
/// each is the nearer one.
#[test]
fn the_corners_are_where_the_two_lines_are() {
    let corners: Vec<Limits> =
        (0..=33).flat_map(|k| [Limits::new(100 - k, 2 * k), Limits::new(2 * k, 100 - k)]).collect();
    let found = Limits::corners();
    assert!(found.iter().all(|corner| corners.contains(corner)));
    assert!(corners.iter().all(|corner| found.contains(corner)) && found.len() == 68);
    for inbox in 0..=201 {
        for waiting in 0..=201 {
            let limits = Limits::new(inbox, waiting);
            let within = corners.iter().any(|&corner| limits.are_within(corner));
            assert_eq!(limits.are_allowed(), within, "{limits:?}");
        }
    }
    assert!(Limits::KEPT.are_allowed() && Limits::new(66, 66).are_allowed());
    assert!(!OUTSIDE.iter().any(|&(inbox, waiting)| Limits::new(inbox, waiting).are_allowed()));
}

/// Whether node 1's RID is due, so that two nodes use one alias in a list that keeps the limits.
fn breaks(mut draft: Draft, limits: Limits) -> bool {
    if refusal(draft.send(1)) != 0 {
        return false;
    }
    assert_eq!(draft.state(1), State::Reserved);
    assert_eq!([draft.alias(0), draft.alias(1)], [Alias(0x263); 2]);
    assert_eq!(
        Watch::of(draft.list),
        Watch { greatest: limits, broken: Some(limits), ..Watch::default() }
    );
    true
}

#[test]
fn outside_two_nodes_use_one_alias() {
    for (inbox, waiting) in [(68, 65), (67, 67), (100, 1), (101, 0)] {
        let limits = Limits::new(inbox, waiting);
        assert_eq!(slow_reply(limits).state(0), State::Permitted);
        assert!(breaks(slow_reply(limits), limits), "{limits:?}");
    }
    for (inbox, waiting) in [(65, 68), (67, 67), (1, 100), (0, 101)] {
        let limits = Limits::new(inbox, waiting);
        assert_eq!(slow_amr(limits).state(0), State::Leaving);
        assert!(breaks(slow_amr(limits), limits), "{limits:?}");
    }
    let (reply_only, amr_only) = (Limits::new(68, 65), Limits::new(65, 68));
    assert!(!breaks(slow_amr(reply_only), reply_only));
    assert!(!breaks(slow_reply(amr_only), amr_only));
}

#[test]
fn no_limit_can_be_raised_at_a_corner() {
    for raised in Limits::corners().into_iter().flat_map(Limits::raised) {
        let broken = breaks(slow_reply(raised), raised) || breaks(slow_amr(raised), raised);
        assert!(broken, "{raised:?}");
    }
}

/// The corners, and a point of the region beside them.
fn inside() -> Vec<Limits> {
    let mut inside = Limits::corners();
    inside.push(Limits::new(66, 66));
    inside
}

/// Node 1's RID is not due yet, and a frame with its alias is delivered: it tests another one.
fn gives_way(mut draft: Draft, limits: Limits) {
    assert_eq!((refusal(draft.send(1)), draft.alias(1)), (4, Alias(0x263)));
    assert_eq!(refusal(draft.deliver(1)), 0);
    assert_eq!(draft.state(1), State::Testing);
    assert_ne!(draft.alias(1), Alias(0x263));
    assert_eq!(Watch::of(draft.list), Watch { greatest: limits, ..Watch::default() });
}

#[test]
fn inside_the_reply_comes_in_time() {
    for limits in inside() {
        let draft = slow_reply(limits);
        assert_eq!(draft.state(0), State::Permitted);
        gives_way(draft, limits);
    }
}

#[test]
fn inside_the_amr_leaves_in_time() {
    for limits in inside() {
        let mut draft = slow_amr(limits);
        assert_eq!(refusal(draft.send(1)), 4);
        draft.send(0);
        assert_eq!(draft.state(0), State::Resting);
        gives_way(draft, limits);
    }
}

/// A tick after the AMR has left node 1 takes the alias, which nobody uses any more.
#[test]
fn inside_an_alias_is_taken_only_after_its_amr() {
    for (inbox, waiting) in [(66, 67), (64, 68), (2, 99)] {
        let limits = Limits::new(inbox, waiting);
        let mut draft = slow_amr(limits);
        draft.send(0).ticks(1).send(1);
        assert_eq!((draft.state(0), draft.state(1)), (State::Resting, State::Reserved));
        assert_eq!(draft.alias(1), Alias(0x263));
        assert_eq!(Watch::of(draft.list), Watch { greatest: limits, ..Watch::default() });
    }
}

#[test]
fn a_later_cid_does_not_renew_the_age_of_a_reply() {
    for state in [State::Reserved, State::Permitted] {
        let mut draft = in_state(state);
        draft.foreign_cid(0).deliver(0).ticks(60).foreign_cid(0).deliver(0).ticks(40);
        assert_eq!(draft.segment.owed_age(0), Some(100));
        draft.send(0).foreign_cid(0).deliver(0).ticks(30);
        assert_eq!(draft.segment.owed_age(0), Some(30));
        assert_eq!(Watch::of(draft.list).greatest, Limits::new(0, 100));
    }
}

#[test]
fn an_amr_has_an_age_of_its_own() {
    for released in [true, false] {
        let mut draft = in_state(State::Permitted);
        draft.foreign_cid(0).deliver(0).ticks(70);
        if released {
            draft.release(0);
        } else {
            draft.foreign_message(0).deliver(0);
        }
        draft.ticks(50).foreign_cid(0).deliver(0).foreign_message(0).deliver(0).ticks(45);
        assert_eq!(draft.segment.owed_age(0), Some(95));
        assert_eq!(Watch::of(draft.list).greatest, Limits::new(0, 95));
    }
}

#[test]
fn every_frame_of_an_inbox_has_an_age_of_its_own() {
    let mut draft = in_state(State::Resting);
    draft.idle_frame().ticks(70).idle_frame().ticks(30).deliver(0).ticks(70);
    assert_eq!(Watch::of(draft.list.clone()).greatest, Limits::new(100, 0));
    draft.ticks(1);
    assert_eq!(Watch::of(draft.list.clone()).greatest, Limits::new(101, 0));
    draft.power_on(0, ID).idle_frame().ticks(100);
    assert_eq!(Watch::of(draft.list).greatest, Limits::new(101, 0));
}

/// In how many random lists something was met.
#[derive(Debug, Default)]
struct Counts {
    late: usize,
    at_both_limits: usize,
    several_users: usize,
    contested: usize,
    /// A node had waited for 200 ticks to reserve an alias that another used: where inbox frames
    /// may stand longer than replies may wait, and where they may not.
    last_tick: [usize; 2],
    /// A release or a collision dropped a reply that waited.
    dropped: [usize; 2],
    reported: usize,
    /// A choice moved the mark.
    chosen: usize,
}

impl Counts {
    fn add(&mut self, walker: &Walker, corner: Limits) {
        self.late += usize::from(walker.watch.is_late_but_allowed());
        self.at_both_limits += usize::from(walker.watch.greatest == corner);
        self.several_users += usize::from(walker.most_users > 1);
        self.contested += usize::from(walker.contested.is_some());
        let last_tick = walker.contested == Some(Node::WAIT - 1);
        self.last_tick[usize::from(corner.inbox < corner.waiting)] += usize::from(last_tick);
        let dropped = dropped_replies(&walker.draft.list);
        (0..2).for_each(|cause| self.dropped[cause] += usize::from(dropped[cause]));
        self.reported += usize::from(walker.reported);
        self.chosen += usize::from(walker.draft.segment.mark() != Segment::new().mark());
    }
}

/// Whether in a list a release makes an AMR of a reply that waited, and whether a collision does.
fn dropped_replies(list: &[Command]) -> [bool; 2] {
    let mut segment = Segment::new();
    let mut dropped = [false; 2];
    for command in list {
        let before = owed(&segment);
        let _ = segment.carry_out(command);
        let drops =
            before.into_iter().zip(owed(&segment)).any(|ends| ends == (Owed::Reply, Owed::Amr));
        dropped[0] |= drops && matches!(command, Command::Release { .. });
        dropped[1] |= drops && matches!(command, Command::Deliver { .. });
    }
    dropped
}

fn owed(segment: &Segment) -> [Owed; Segment::PLACES] {
    std::array::from_fn(|place| segment.node(place).owed())
}

#[test]
fn aliases_are_single_in_random_lists_at_random_corners() {
    let mut counts = Counts::default();
    for number in 0..2_000 {
        let mut rng = Prng::new(seed().wrapping_add(number));
        let (corner, temper) = contests::at_corner(&mut rng);
        let links = if number % 2 == 0 { 0 } else { 10 };
        let turns = if number % 4 < 2 { 0 } else { 10 };
        let (warm, reads) = if number % 3 == 0 { (50, 2) } else { (0, 0) };
        let temper = Temper { links, turns, warm, reads, ..temper };
        let mut walker = Walker::new(&mut rng, temper);
        walker.run();
        let watch = walker.watch;
        assert!(watch.claim_held(), "seed {} list {number} at {corner:?}: {watch:?}", seed());
        assert!(watch.greatest.are_within(corner), "list {number} should keep {corner:?}");
        counts.add(&walker, corner);
    }
    println!("2,000 lists: {counts:?}");
    let Counts { late, at_both_limits, several_users, contested, .. } = counts;
    assert!(late >= 1_000 && at_both_limits >= 600 && several_users >= 800 && contested >= 600);
    assert!(counts.last_tick.into_iter().all(|lists| lists >= 15));
    assert!(counts.dropped.into_iter().all(|lists| lists >= 10) && counts.reported >= 100);
    assert!(counts.chosen >= 500);
}

/// The generator finds what it looks for: just outside its lists break the claim, within the limits.
#[test]
fn random_lists_outside_the_region_break_the_claim() {
    for (inbox, waiting) in OUTSIDE {
        let limits = Limits::new(inbox, waiting);
        let mut broken = 0;
        for number in 0..300 {
            let mut rng = Prng::new(seed().wrapping_add(number));
            let temper = contests::temper(&mut rng, limits);
            let mut walker = Walker::new(&mut rng, temper);
            walker.run();
            assert!(walker.watch.claim_held() && walker.watch.greatest.are_within(limits));
            broken += usize::from(walker.watch.broken.is_some());
        }
        println!("{broken} of 300 lists at {limits:?} break the claim");
        assert!(broken > 0, "no list at {limits:?} breaks the claim");
    }
}
