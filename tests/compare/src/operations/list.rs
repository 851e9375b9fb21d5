//! Lists of operations: the commands of a script or of a list with link orders, choices and read-outs, and among them operations with
//! operands that no command can carry.

use super::operation::Operation;
use crate::ROUND;
use reference::alias::MAX_48;
use reference::generate::draft::Draft;
use reference::generate::prng::Prng;
use reference::generate::walker::{walk_list, walk_list_on, Temper};
use reference::{whole_commands, Command, Segment};

/// The whole commands of a script.
pub fn of_script(script: &[u8]) -> Vec<Operation> {
    whole_commands(script).map(Operation::from).collect()
}

/// Nothing, mostly; else ticks until the proved clock is about to go round.
pub fn first_ticks(rng: &mut Prng) -> Vec<Operation> {
    let ticks = if rng.below(2_000) == 0 { rng.between(ROUND - 250, ROUND) } else { 0 };
    vec![Operation::Tick; ticks]
}

/// A list by chance with far operands among the others.
pub fn random(rng: &mut Prng) -> Vec<Operation> {
    let commands = commands(rng);
    let mut list = first_ticks(rng);
    let mut id = 1;
    for command in commands {
        if let Command::PowerOn { id: next, .. } | Command::WarmOn { id: next, .. } = command {
            id = next;
        }
        if rng.percent(8) {
            list.push(far(rng, id));
        }
        list.push(command.into());
    }
    list
}

/// Commands, many or few, from all nodes Off or from some that are Permitted; with link orders often, seldom or not at all, and with
/// turns, power-ons by 0A and read-outs likewise.
fn commands(rng: &mut Prng) -> Vec<Command> {
    let commands = match rng.below(40) {
        0 => 6_000,
        1..=9 => 10,
        10..=19 => 250,
        _ => 1_000,
    };
    let (links, turns) = (rng.pick(&[0, 2, 10, 30]), rng.pick(&[0, 2, 10, 30]));
    let (warm, reads) = rng.pick(&[(0, 0), (20, 2), (50, 10), (90, 5)]);
    let temper = Temper { links, turns, warm, reads, ..Temper::random(rng, commands) };
    if temper.nodes == Segment::PLACES || rng.percent(30) {
        return walk_list(rng, temper);
    }
    let up = Draft::permitted(&temper.node_ids);
    walk_list_on(rng, temper, up)
}

/// An index: of a node, just behind the last, or far from it.
fn index(rng: &mut Prng) -> usize {
    let far = rng.number() as usize | 1 << rng.between(8, 63);
    let node = rng.below(Segment::PLACES);
    rng.pick(&[node, node, node, Segment::PLACES, 255, 256, 1 << 32, usize::MAX, far])
}

/// A length: within the frame, just above eight, or far from it.
fn len(rng: &mut Prng) -> u8 {
    let any = rng.byte();
    rng.pick(&[0, 6, 7, 8, 9, 255, any])
}

/// An operation whose operands go beyond what is accepted, or beyond what a command can carry; some are accepted nevertheless. `id`
/// is the Node ID of the list's last power-on.
fn far(rng: &mut Prng, id: u64) -> Operation {
    let (index, len, bytes) = (index(rng), len(rng), rng.number());
    match rng.below(12) {
        0 => Operation::PowerOn { index, id: rng.pick(&[0, 1 << 48, u64::MAX, bytes | 1 << 63, id, id | 1 << 48]) },
        1 => Operation::Send { index },
        2 => Operation::Fail { index },
        3 => Operation::Deliver { index },
        4 => {
            let header = rng.number() as u32;
            let header = rng.pick(&[header, header & 0x1FFF_FFFF, header & 0xFFF, 1 << 29, 0x7FF, 0x800, u32::MAX]);
            Operation::Foreign { kind: rng.pick(&[0, 1, 2, 3, 255, bytes as u8]), header, len, bytes }
        }
        5 => Operation::Message { index, field: rng.pick(&[0, 0x7FFF, 0x8000, 0xFFFF, bytes as u16]), len, bytes },
        6 => Operation::Enquiry { index, len, bytes },
        7 => Operation::Release { index },
        8 | 9 => warm_on(rng, index, id),
        10 => Operation::ReadOut { index },
        _ => Operation::Link { index, state: rng.pick(&[0, 1, 2, 3, 4, 128, 255, bytes as u8]) },
    }
}

/// A power-on by 0A: with any flag, and with a state of 48 bits or above.
fn warm_on(rng: &mut Prng, index: usize, id: u64) -> Operation {
    let (any, flag) = (rng.number(), rng.byte());
    let id = rng.pick(&[0, 1 << 48, any | 1 << 63, any >> 17, any >> 17, id, id, id | 1 << 48]);
    let flag = rng.pick(&[0, 0, 1, 1, 1, 2, 255, flag]);
    let state = rng.pick(&[0, MAX_48, MAX_48 + 1, u64::MAX, any, any | 1 << 63, any & MAX_48, id]);
    Operation::WarmOn { index, id, flag, state }
}

#[cfg(test)]
mod tests {
    use super::*;
    use reference::generate::walker::walk;

    #[test]
    fn a_script_and_its_operations_say_the_same() {
        for seed in 0..50 {
            let mut rng = Prng::new(seed);
            let temper = Temper { warm: 30, ..Temper::random(&mut rng, 250) };
            let script = walk(&mut rng, temper);
            let mut again = Vec::new();
            for operation in of_script(&script) {
                operation.command().expect("a script can say it").write(&mut again);
            }
            assert_eq!(again, script);
        }
    }

    #[test]
    fn far_operands_are_among_the_others() {
        let list: Vec<Operation> = (0..100).flat_map(|seed| random(&mut Prng::new(seed))).collect();
        let unsaid = list.iter().filter(|operation| operation.command().is_none()).count();
        assert!(unsaid * 50 > list.len(), "{unsaid} of {}", list.len());
        let met = |wanted: fn(&Operation) -> bool| assert!(list.iter().any(wanted));
        met(|operation| matches!(operation, Operation::Send { index: usize::MAX }));
        met(|operation| matches!(operation, Operation::PowerOn { index: 0..=23, id } if *id > u64::MAX / 2));
        met(|operation| matches!(operation, Operation::PowerOn { index: usize::MAX, id: 1..=0xFFFF_FFFF_FFFF }));
        met(|operation| matches!(operation, Operation::PowerOn { index: 0..=23, id } if id >> 48 == 1 && *id > 1 << 48));
        met(|operation| matches!(operation, Operation::Message { index: 0..=23, len: 255, .. }));
        met(|operation| matches!(operation, Operation::Enquiry { len: 6, bytes, .. } if bytes & 0xFFFF != 0));
        met(|operation| matches!(operation, Operation::Foreign { header: u32::MAX, .. }));
        met(|operation| matches!(operation, Operation::Link { index: usize::MAX, .. }));
        met(|operation| matches!(operation, Operation::Link { index: 0..=23, state: 255 }));
        met(|operation| matches!(operation, Operation::ReadOut { index: usize::MAX }));
        met(|operation| matches!(operation, Operation::WarmOn { index: 0..=23, flag: 0, state: u64::MAX, .. }));
        met(|operation| matches!(operation, Operation::WarmOn { index: 0..=23, flag: 1, state: 0x1_0000_0000_0000, .. }));
        met(|operation| matches!(operation, Operation::WarmOn { index: 0..=23, flag: 255, state: 0, .. }));
    }
}
