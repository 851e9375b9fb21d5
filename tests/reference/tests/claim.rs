//! The claim itself, after every command of random kept lists; and other facts of all lists.

mod common;

use common::{picture, seed};
use reference::alias::ALIASES;
use reference::generate::contests;
use reference::generate::corpus;
use reference::generate::draft::Draft;
use reference::generate::prng::Prng;
use reference::generate::walker::{walk_list, Temper, Walker};
use reference::node::Owed;
use reference::{
    claim_holds, run, whole_commands, Command, Limits, Refusal, Segment, State, View, Watch,
};

#[test]
fn aliases_are_single_in_kept_lists() {
    let (mut kept, mut several_users, mut contested, mut reported) = (0, 0, 0, 0);
    let (mut chosen, mut warm) = (0, 0);
    for number in 0..2_000 {
        let mut rng = Prng::new(seed().wrapping_add(number));
        let mut temper = Temper::random(&mut rng, 2_500);
        temper.limits = (number % 10 != 0).then_some(Limits::KEPT);
        temper.links = if number % 2 == 0 { 0 } else { 10 };
        temper.turns = if number % 4 < 2 { 0 } else { 20 };
        temper.warm = if number % 3 == 0 { 50 } else { 0 };
        temper.reads = temper.warm / 10;
        let mut walker = Walker::new(&mut rng, temper);
        walker.run();
        assert!(walker.watch.claim_held(), "seed {} script {number}", seed());
        let segment = &walker.draft.segment;
        assert!(number % 10 == 0 || !segment.is_late(), "script {number} should be kept");
        kept += usize::from(!segment.is_late());
        several_users += usize::from(walker.most_users > 1);
        contested += usize::from(walker.contested.is_some());
        reported += usize::from(walker.reported);
        chosen += usize::from(walker.draft.segment.mark() != Segment::new().mark());
        let is_warm = |command: &Command| matches!(command, Command::WarmOn { flag: 1, .. });
        warm += usize::from(walker.contested.is_some() && walker.draft.list.iter().any(is_warm));
    }
    println!("{kept} kept; {several_users} with several users, {contested} with a contested alias");
    println!("{reported} with an error report, {chosen} with choices that moved the mark");
    println!("{warm} with a contested alias and a warm power-on");
    assert!(kept >= 1_800 && several_users >= 700 && contested >= 400 && reported >= 400);
    assert!(chosen >= 800 && warm >= 100, "{chosen}, {warm}");
}

#[test]
fn aliases_are_single_in_the_corpus() {
    for script in corpus::scripts(corpus::SEED) {
        assert!(Watch::of(whole_commands(&script)).claim_held());
    }
}

/// What the claim is about: in a late list two nodes do come to use one alias.
#[test]
fn a_late_list_can_break_the_claim() {
    let mut draft = Draft::permitted(&[0x0501_0101_0101]);
    draft.power_on(1, 0x0501_0101_0101 + ALIASES);
    draft.send(1).send(1).send(1).send(1).ticks(201).send(1);
    assert_eq!(draft.alias(0), draft.alias(1));
    assert_eq!(draft.state(1), State::Reserved);
    assert!(draft.segment.is_late() && !claim_holds(&draft.segment));
}

#[test]
fn refusals_change_nothing() {
    let (mut refused, mut links, mut in_use, mut marked, mut warm) = (0, 0, 0, 0, 0);
    for number in 0..60 {
        let mut rng = Prng::new(seed() ^ number);
        let mut temper = Temper::random(&mut rng, 700);
        temper.weights = [8, 30, 8, 40, 20, 15, 15, 15];
        temper.links = 10;
        temper.turns = 10;
        temper.warm = 50;
        temper.reads = 5;
        let mut segment = Segment::new();
        for command in walk_list(&mut rng, temper) {
            let before = picture(&segment);
            if let Err(refusal) = segment.carry_out(&command) {
                refused += 1;
                marked += usize::from(segment.mark() != Segment::new().mark());
                links += usize::from(matches!(command, Command::Link { .. }));
                in_use += usize::from(refusal == Refusal::NodeIdInUse);
                warm += usize::from(refusal == Refusal::BadStart);
                assert!(picture(&segment) == before, "{command:?}");
            }
        }
    }
    println!(
        "{refused} refused, {links} of them links, {in_use} by 15, {warm} by 18, {marked} with a \
         moved mark"
    );
    assert!(refused > 1_000 && links > 100 && in_use > 80, "{refused}, {links}, {in_use}");
    assert!(marked > 1_000 && warm > 30, "{marked}, {warm}");
}

/// Ages counted one by one, as document 01 says it, beside the segment's own way.
#[derive(Default, Clone)]
struct Ages {
    inbox: Vec<u64>,
    owed: Option<(bool, u64)>,
}

fn count_ages(ages: &mut [Ages], before: &[View], segment: &Segment, command: &Command) {
    for (place, ages) in ages.iter_mut().enumerate() {
        let index = place as u8;
        let now = segment.inbox_len(place);
        match *command {
            Command::PowerOn { index: i, .. } | Command::WarmOn { index: i, .. }
                if i == index && now == 0 =>
            {
                ages.inbox.clear()
            }
            Command::Deliver { index: i } if i == index && now < before[place].inbox.len() => {
                ages.inbox.remove(0);
            }
            _ if now > before[place].inbox.len() => ages.inbox.push(0),
            _ => {}
        }
        let node = segment.node(place);
        ages.owed = match (node.owed(), ages.owed) {
            (Owed::Nothing, _) => None,
            (Owed::Reply, Some((true, age))) | (Owed::Amr, Some((false, age))) => {
                Some((node.owed() == Owed::Reply, age))
            }
            (owed, _) => Some((owed == Owed::Reply, 0)),
        };
        if *command == Command::Tick {
            ages.inbox.iter_mut().for_each(|age| *age += 1);
            ages.owed = ages.owed.map(|(reply, age)| (reply, age + 1));
        }
    }
}

/// The greatest of the ages that are counted here.
fn greatest(ages: &[Ages], before: Limits) -> Limits {
    let inbox = ages.iter().flat_map(|ages| ages.inbox.iter().copied());
    let waiting = ages.iter().filter_map(|ages| ages.owed.map(|(_, age)| age));
    Limits::new(inbox.fold(before.inbox, u64::max), waiting.fold(before.waiting, u64::max))
}

#[test]
fn late_and_the_greatest_ages_are_as_the_ages_say() {
    let (mut late_lists, mut kept_lists, mut long) = (0, 0, [0; 2]);
    for number in 0..250 {
        let mut rng = Prng::new(seed() ^ 0x5000 ^ number);
        let temper = match number {
            0..150 => Temper::random(&mut rng, 500),
            _ => contests::at_corner(&mut rng).1,
        };
        let (mut segment, mut watch, mut most) =
            (Segment::new(), Watch::default(), Limits::default());
        let mut ages = vec![Ages::default(); Segment::PLACES];
        for command in
            walk_list(&mut rng, Temper { links: 10, turns: 5, warm: 20, reads: 2, ..temper })
        {
            let before: Vec<View> = (0..Segment::PLACES).map(|p| segment.view(p)).collect();
            let _ = segment.carry_out(&command);
            watch.see(&segment);
            count_ages(&mut ages, &before, &segment, &command);
            most = greatest(&ages, most);
            assert_eq!(watch.greatest, most);
            assert_eq!(segment.is_late(), most.inbox.max(most.waiting) > 40);
        }
        late_lists += usize::from(segment.is_late());
        kept_lists += usize::from(!segment.is_late());
        long[0] += usize::from(most.inbox > 60);
        long[1] += usize::from(most.waiting > 60);
    }
    println!("{late_lists} late, {kept_lists} kept; inbox, waiting above 60: {long:?}");
    assert!(late_lists >= 15 && kept_lists >= 50 && long.into_iter().all(|lists| lists >= 15));
}

/// The output is one line for each command and a last word, at any length.
#[test]
fn long_scripts_have_a_line_for_each_command() {
    let mut out = Vec::new();
    run(&[0x05; 200_000], &mut out);
    let text = String::from_utf8(out).unwrap();
    assert_eq!(text.lines().count(), 200_001);
    assert!(text.ends_with("200000 05 ok\nkept\n"));
}
