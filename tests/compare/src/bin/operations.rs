//! Compares the operations for C with the other implementation. The table: OPERATIONS commands, and all that is seen after each of
//! them, what is read out, and the mark; first the lists of the stored corpus, which meet every state with every event that a script can
//! carry, then lists with link orders, choices and read-outs, which meet the rest too, then lists at random corners of A.3, then others
//! by chance. Some of the lists are also carried out on two proved tables, with bit 28 of foreign frames turned in one. Then tables of
//! any words, headers, aliases, GridConnect text and the map. SEED may be given.

use compare::operations::map::{self, Counts, LookUps};
use compare::operations::operation::Operation;
use compare::operations::twins::{self, MapCounts};
use compare::operations::{any_words, corners, cover, grid_marks, gridconnect, headers, list, pair, warm};
use compare::setting::{fresh_seed, setting};
use compare::shrink::fewest;
use reference::generate::coverage::Coverage;
use reference::generate::prng::Prng;
use reference::generate::{corpus, link_lists, turn_lists, warm_lists};
use reference::{Command, Limits};
use std::fmt::{Debug, Display};
use std::process::exit;

/// How many frames are noted in maps, about so many in each.
const NOTES: usize = 200_000;
const NOTES_OF_A_MAP: usize = 400;

/// One of so many lists by chance is compared on twin tables; of the lists that are the same in every run each is.
const TWINS_AMONG: u64 = 10;

fn main() {
    let seed = setting("SEED", 0, fresh_seed());
    let wanted = setting("OPERATIONS", 1, 2_000_000) as usize;
    let at_corners = compare_tables(seed, wanted);
    let calls = any_words::try_all(seed).unwrap_or_else(|what| fail(&format!("SEED={seed}: {what}")));
    println!("operations: {calls} warm power-ons, each between two read-outs, return on tables of any words");
    compare_headers(seed);
    compare_gridconnect(seed);
    compare_maps(seed);
    println!("operations: {at_corners}");
}

fn compare_headers(seed: u64) {
    let headers::Counts { calls, read_again, written_back, alias_zero } =
        headers::compare(seed).unwrap_or_else(|what| fail(&what));
    println!("operations: {calls} calls for headers and aliases agree;");
    println!(
        "operations: {read_again} headers that were written are read as their parts; {written_back} that were read are written \
         back as they were, with their own bit 28, and {alias_zero} with alias 0 are refused by 9"
    );
}

fn compare_gridconnect(seed: u64) {
    let counts = gridconnect::compare(seed).unwrap_or_else(|what| fail(&format!("SEED={seed}: {what}")));
    all_met("these marks of GridConnect text were never met", &counts.missing());
    let grid_marks::Counts { written, malformed, short, read, refused, read_again, written_back, .. } = counts;
    println!(
        "operations: GridConnect text agrees: {written} frames written, {malformed} refused by 9, {short} by 17; {read} texts \
         read, {refused} refused by 16;"
    );
    println!("operations: of frames with 0 to 8 bytes, {read_again:?} were written and are read as themselves;");
    println!("operations: {written_back:?} were read, and are written as their texts with the letters raised");
}

/// Compares tables, and gives a line on the lists at corners.
fn compare_tables(seed: u64, wanted: usize) -> String {
    let mut run = Run { wanted, ..Run::default() };
    for script in corpus::scripts(corpus::SEED) {
        run.compare(&list::of_script(&script), "of the stored corpus", true);
    }
    run.compare_all(link_lists::lists(corpus::SEED), "with link orders, of those made for every run");
    run.compare_all(turn_lists::lists(corpus::SEED), "with choices, of those made for every run");
    run.compare_all(warm_lists::lists(corpus::SEED), "with read-outs, of those made for every run");
    for number in 0..corners::LISTS {
        let seed = seed.wrapping_add(number);
        let (corner, list) = corners::random(&mut Prng::new(seed));
        let greatest = run.compare(&list, &format!("at {corner:?}, made by SEED={seed},"), number % TWINS_AMONG == 0);
        run.corners.add(corner, greatest).unwrap_or_else(|what| fail(&format!("SEED={seed}: {what}")));
    }
    for number in 0.. {
        if run.done >= wanted {
            break;
        }
        let seed = seed.wrapping_add(number);
        run.compare(&list::random(&mut Prng::new(seed)), &format!("made by SEED={seed}"), number % TWINS_AMONG == 0);
    }
    println!("{}", cover::table(&run.cover));
    println!("{}", cover::id_marks(&run.cover));
    println!("{}", cover::link_marks(&run.cover));
    println!("{}", cover::turn_cells(&run.cover));
    println!("{}", cover::warm_marks(&run.cover));
    run.end(seed);
    run.corners.line().unwrap_or_else(|unmet| fail(&unmet))
}

/// What was compared of tables so far.
#[derive(Default)]
struct Run {
    cover: Coverage,
    corners: corners::Counts,
    twins: twins::Counts,
    warm: warm::Counts,
    lists: usize,
    late: usize,
    done: usize,
    far: usize,
    links: usize,
    choices: usize,
    wanted: usize,
}

impl Run {
    /// Compares lists, on twin tables too.
    fn compare_all(&mut self, lists: Vec<Vec<Command>>, whose: &str) {
        for commands in lists {
            let list: Vec<Operation> = commands.into_iter().map(Operation::from).collect();
            self.compare(&list, whose, true);
        }
    }

    /// Compares a list, on twin tables too where that is wanted, and gives its greatest ages.
    fn compare(&mut self, list: &[Operation], whose: &str, with_twins: bool) -> Limits {
        let (greatest, warm) = pair::compare(list, &mut self.cover).unwrap_or_else(|what| {
            let differs = |less: &[Operation]| pair::compare(less, &mut Coverage::new()).err();
            report(list, whose, &what, "card_new(table);", differs, Operation::clone)
        });
        if with_twins {
            self.compare_twins(list, whose);
        }
        self.show_progress(list.len());
        self.warm.add(&warm);
        self.lists += 1;
        self.late += usize::from(!greatest.are_kept());
        self.done += list.len();
        self.far += list.iter().filter(|operation| operation.command().is_none()).count();
        self.links += list.iter().filter(|operation| matches!(operation, Operation::Link { .. })).count();
        self.choices += list.iter().filter(|operation| matches!(operation, Operation::Choose)).count();
        greatest
    }

    fn compare_twins(&mut self, list: &[Operation], whose: &str) {
        twins::compare(list, &mut self.twins).unwrap_or_else(|what| {
            let differs = |less: &[Operation]| twins::compare(less, &mut twins::Counts::default()).err();
            report(list, whose, &what, "card_new(table);", differs, Operation::twin)
        });
    }

    /// A line for each tenth.
    fn show_progress(&self, more: usize) {
        let tenths = |done: usize| (10 * done / self.wanted).min(10);
        if tenths(self.done + more) > tenths(self.done) {
            eprintln!("operations: {} of {} compared", self.done + more, self.wanted);
        }
    }

    fn end(&self, seed: u64) {
        all_met("these states and events never met, though they can", &self.cover.unmet_cells());
        all_met("these link marks were never met", &self.cover.missing_link_marks());
        all_met("these marks of Node IDs at power-on were never met", &self.cover.missing_id_marks());
        all_met("these turn cells were never met", &self.cover.missing_turn_cells());
        all_met("these warm marks were never met", &self.cover.missing_warm_marks());
        all_met("this was never met of warm power-ons", &self.warm.missing());
        let Run { lists, late, done, far, links, choices, .. } = self;
        println!("operations: {done} commands agree, SEED={seed}: in {lists} lists, {late} of them late;");
        println!(
            "operations: {far} of them have operands that no script can carry, {links} are link orders, {choices} are choices;"
        );
        println!("operations: after each, every node, due frame and inbox; and no word was changed by a refusal or by a look;");
        println!("operations: after each, the mark, by a choice in a copy of the table; after each list, 25 choices more;");
        println!("operations: of any 24 choices at which a node was due one named it, and no choice changed more than the mark");
        self.end_warm();
        self.end_twins();
    }

    fn end_warm(&self) {
        let warm::Counts { back: [first, past], elsewhere: [first_elsewhere, past_elsewhere], .. } = self.warm;
        println!(
            "operations: after each, what is read out of every node; 01, and 0A with flag 0, leave the same words of the table;"
        );
        println!(
            "operations: {past} nodes were given back what was read out of them, {past_elsewhere} at other indexes, and {first} with \
             flag 0, {first_elsewhere} at others: each has the alias that it had, and tests it in full;"
        );
        println!("operations: {} warm power-ons have a state above 48 bits: accepted with flag 0 alone", self.warm.wide());
    }

    fn end_twins(&self) {
        let twins::Counts { commands, turned, delivered, .. } = self.twins;
        println!("operations: {commands} commands on twin tables, {turned} foreign frames among them with bit 28 turned in one, agree:");
        println!("operations: the same answers, and after each the same nodes, due frames and inboxes, but for that bit;");
        let heard: Vec<String> = self.twins.heard().map(|(state, count)| format!("{count} changed a {state:?} node")).collect();
        println!("operations: {delivered} frames were delivered with it turned: of them {}", heard.join(", "));
        if self.twins.heard().any(|(_, count)| count == 0) {
            fail("on twin tables some frame with bit 28 turned shall change a node in each of these states");
        }
    }
}

fn compare_maps(seed: u64) {
    let (mut counts, mut twin_counts) = (Counts::default(), MapCounts::default());
    for number in 0.. {
        if counts.notes >= NOTES {
            break;
        }
        let seed = seed.wrapping_add(number);
        let mut rng = Prng::new(seed);
        let count = rng.between(1, 2 * NOTES_OF_A_MAP);
        let notes = map::notes(&mut rng, count);
        if let Err(what) = map::compare(&notes, &mut counts) {
            let differs = |less: &[map::Note]| map::compare(less, &mut Counts::default()).err();
            report(&notes, &format!("made by SEED={seed}"), &what, "map_new(map);", differs, map::Note::clone);
        }
        if let Err(what) = twins::compare_maps(&notes, &mut twin_counts) {
            let differs = |less: &[map::Note]| twins::compare_maps(less, &mut MapCounts::default()).err();
            report(&notes, &format!("made by SEED={seed}"), &what, "map_new(map);", differs, map::Note::twin);
        }
    }
    end_maps(&counts);
    end_twin_maps(&twin_counts);
}

fn end_twin_maps(counts: &MapCounts) {
    let MapCounts { notes, changes } = counts;
    println!("operations: {notes} notes on twin maps leave the same map, {changes} of them changes with bit 28 turned in one");
    if *changes == 0 {
        fail("on twin maps some note with bit 28 turned shall change the map");
    }
}

fn end_maps(counts: &Counts) {
    let Counts { notes, malformed, full, by_alias, by_id, .. } = counts;
    if *malformed == 0 || *full == 0 {
        fail("the notes never met 9 or 12");
    }
    println!(
        "operations: {notes} notes agree, {malformed} refused by 9, {full} by 12; after each, look-ups agree in what they find \
         and in how many entries they compare:"
    );
    end_look_ups([("alias", by_alias), ("Node ID", by_id)]);
    for bit_28 in [false, true] {
        let (bit, [entered, replaced, removed]) = (u8::from(bit_28), counts.changed(bit_28));
        println!("operations: with bit 28 as {bit}, {entered} AMDs entered, {replaced} replaced, and {removed} AMRs removed");
        if entered.min(replaced).min(removed) == 0 {
            fail("AMDs shall enter and replace, and AMRs remove, with bit 28 as 0 and as 1");
        }
    }
}

fn end_look_ups(ways: [(&str, &LookUps); 2]) {
    for (way, look_ups) in ways {
        let LookUps { done, found, places } = look_ups;
        println!("operations: {done} by {way}, {found} of them found, at {} different places", places.len());
        let never_hit = look_ups.never_hit();
        if !never_hit.is_empty() {
            fail(&format!("look-ups by {way} shall hit at each of the map's 64 places, and never did at {never_hit:?}"));
        }
    }
}

fn all_met(what: &str, unmet: &[impl Debug]) {
    if !unmet.is_empty() {
        fail(&format!("{what}: {unmet:?}"));
    }
}

fn fail(what: &str) -> ! {
    println!("operations: {what}");
    exit(1);
}

/// Prints the shortest list found that still differs, as calls in C, and ends the run; the calls on the second of two tables or maps
/// too, where these are others.
fn report<T: Clone + PartialEq + Display>(
    list: &[T],
    whose: &str,
    what: &str,
    start: &str,
    differs: impl Fn(&[T]) -> Option<String>,
    second: impl Fn(&T) -> T,
) -> ! {
    eprintln!("operations: {what}; leaving out calls ..");
    let list = fewest(list.to_vec(), |less| differs(less).is_some());
    println!("/* operations: a list {whose} differs; of it this is enough: */");
    print_calls(start, &list);
    let seconds: Vec<T> = list.iter().map(second).collect();
    if seconds != list {
        println!("/* operations: and the same with bit 28 of foreign frames turned, which shall do the same: */");
        print_calls(start, &seconds);
    }
    fail(&differs(&list).unwrap_or_default());
}

fn print_calls<T: PartialEq + Display>(start: &str, list: &[T]) {
    println!("{start}");
    for run in list.chunk_by(|one, next| one == next) {
        match run {
            [one] => println!("{one}"),
            more => println!("for (int i = 0; i < {}; i++) {}", more.len(), more[0]),
        }
    }
}
