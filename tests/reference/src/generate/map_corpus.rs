//! The stored corpus of the map: its operations as bytes, its answers as lines, its rules counted.

use std::collections::BTreeSet;

use crate::alias::Alias;
use crate::frame::{Frame, ELEVEN_BIT, EXTENDED, REMOTE};
use crate::generate::changes::Change;
use crate::generate::look_ups::{Followed, Outcome, Way};
use crate::generate::marks::{why_malformed, Malformed};
use crate::generate::prng::Prng;
use crate::header::{self, Header, Kind, AMD, AME, AMR, RID};
use crate::map::{AliasMap, Entry};

#[derive(Clone, Copy, Debug, PartialEq, Eq)]
pub enum MapOp {
    Note(Frame),
    ByAlias(u16),
    ByNodeId(u64),
    New,
}

impl MapOp {
    fn write(&self, bytes: &mut Vec<u8>) {
        match self {
            MapOp::Note(frame) => {
                bytes.extend([0, frame.kind]);
                bytes.extend(frame.header.to_be_bytes());
                bytes.push(frame.len);
                bytes.extend(frame.data);
            }
            MapOp::ByAlias(alias) => {
                bytes.push(1);
                bytes.extend(alias.to_be_bytes());
            }
            MapOp::ByNodeId(id) => {
                bytes.push(2);
                bytes.extend(&id.to_be_bytes()[2..]);
            }
            MapOp::New => bytes.push(3),
        }
    }

    /// Carries out the operation and gives its line.
    pub fn answer(&self, map: &mut AliasMap) -> String {
        let answer = match self {
            MapOp::Note(frame) => map.note(frame).map(|()| "ok".to_string()),
            MapOp::ByAlias(alias) => {
                let found = map.node_id_of(Alias(*alias));
                found.map(|hit| format!("ok {:012X} {}", hit.value, hit.compared))
            }
            MapOp::ByNodeId(id) => {
                let found = map.alias_of(*id);
                found.map(|hit| format!("ok {:03X} {}", hit.value.0, hit.compared))
            }
            MapOp::New => {
                *map = AliasMap::new();
                Ok("new".to_string())
            }
        };
        answer.unwrap_or_else(|refusal| format!("refused {}", refusal.number()))
    }
}

/// The corpus as two files: operations and answers.
pub fn files(ops: &[MapOp]) -> (Vec<u8>, Vec<u8>) {
    let (mut input, mut output) = (Vec::new(), Vec::new());
    let mut map = AliasMap::new();
    for op in ops {
        op.write(&mut input);
        output.extend(op.answer(&mut map).into_bytes());
        output.push(b'\n');
    }
    (input, output)
}

/// All operations, in a fixed order.
pub fn ops(seed: u64) -> Vec<MapOp> {
    let mut ops = Vec::new();
    for part in [full_map, removals, ignored_frames, malformed_frames, edges] {
        part(&mut ops);
        look_at_all(&mut ops);
        ops.push(MapOp::New);
    }
    let mut rng = Prng::new(seed);
    for pool in [20, 66, 90] {
        by_chance(&mut ops, &mut rng, pool);
        ops.push(MapOp::New);
    }
    none_or_one(&mut ops);
    ops.push(MapOp::New);
    ops
}

const BASE: u64 = 0x0501_0101_0100;

/// The parts of a control frame as nodes send it.
fn sent(field: u16, alias: u16) -> Header {
    Header::sent(false, field, Alias(alias))
}

fn control(field: u16, alias: u16) -> u32 {
    header::join(sent(field, alias))
}

fn amd(alias: u16, id: u64) -> MapOp {
    MapOp::Note(Frame::with_node_id(control(AMD, alias), id))
}

fn amr(alias: u16, id: u64) -> MapOp {
    MapOp::Note(Frame::with_node_id(control(AMR, alias), id))
}

/// Entries 1 to `count`: alias n with Node ID BASE + n.
fn entries(ops: &mut Vec<MapOp>, count: u16) {
    ops.extend((1..=count).map(|n| amd(n, BASE + u64::from(n))));
}

/// Looks up aliases and Node IDs 0 to 67, and some that cannot be there.
fn look_at_all(ops: &mut Vec<MapOp>) {
    for n in 0..68 {
        ops.push(MapOp::ByAlias(n));
        ops.push(MapOp::ByNodeId(BASE + u64::from(n)));
    }
    ops.extend([0x0FFF, 0x1001, 0x8001, 0xFFFF].map(MapOp::ByAlias));
    ops.extend([0, 1, 0xFFFF_FFFF_FFFF].map(MapOp::ByNodeId));
}

fn full_map(ops: &mut Vec<MapOp>) {
    entries(ops, 64);
    look_at_all(ops);
    ops.extend([amd(65, BASE + 65), amd(65, BASE + 66), amd(3, BASE + 65), amd(66, BASE + 3)]);
    ops.extend([amd(66, BASE + 4), amd(64, BASE + 64), amd(5, BASE + 5)]);
    ops.extend([amd(10, BASE + 20), amd(67, BASE + 67), amd(65, BASE + 10)]);
    look_at_all(ops);
    ops.extend([amr(1, BASE + 1), amd(65, BASE + 1), amd(1, BASE + 66), amr(65, BASE + 1)]);
    ops.extend([amd(1, BASE + 66), amd(2, BASE + 2)]);
}

fn removals(ops: &mut Vec<MapOp>) {
    entries(ops, 10);
    let amr_alone = |alias| MapOp::Note(Frame { header: control(AMR, alias), ..Frame::EMPTY });
    ops.extend([amr_alone(5), amr(1, BASE + 9), amr(10, BASE + 10), amr(11, BASE + 2)]);
    look_at_all(ops);
    ops.extend([amr_alone(5), amr_alone(0), amd(2, BASE + 9), amd(3, BASE + 3)]);
    let bit_28_clear = |field, alias| header::join(Header { bit_28: false, ..sent(field, alias) });
    ops.push(MapOp::Note(Frame::with_node_id(bit_28_clear(AMD, 12), BASE + 12)));
    ops.push(MapOp::Note(Frame { header: bit_28_clear(AMR, 4), ..Frame::EMPTY }));
}

/// Frames that change nothing, each with data that would fit.
fn ignored_frames(ops: &mut Vec<MapOp>) {
    entries(ops, 3);
    for len in [0, 1, 2, 3, 4, 5, 7, 8] {
        let frame = Frame { len, ..Frame::with_node_id(control(AMD, 4), BASE + 4) };
        ops.push(MapOp::Note(frame));
        ops.push(MapOp::Note(Frame { header: control(AMD, 1), ..frame }));
    }
    ops.extend([amd(0, BASE + 1), amd(0, BASE + 4), amd(1, 0), amd(4, 0), amd(0, 0)]);
    for field in [AMD, AMR] {
        let header = control(field, 1);
        ops.push(MapOp::Note(Frame { header, kind: REMOTE, ..Frame::EMPTY }));
        let message = header::join(Header { message: true, ..sent(field, 1) });
        ops.push(MapOp::Note(Frame::with_node_id(message, BASE + 4)));
    }
    for field in [RID, AME, 0x0704, 0x0710, 0x0713, 0x0700, 0x0000, 0x1701, 0x7703, 0x4702] {
        ops.push(MapOp::Note(Frame::with_node_id(control(field, 1), BASE + 4)));
    }
    for header in [0x701, 0x703, 0x001, 0x7FF] {
        let frame = Frame { header, kind: ELEVEN_BIT, ..Frame::with_node_id(0, BASE + 4) };
        ops.push(MapOp::Note(frame));
    }
}

/// Frames that would add or remove if they were well-formed.
fn malformed_frames(ops: &mut Vec<MapOp>) {
    entries(ops, 3);
    for field in [AMD, AMR] {
        for alias in [1, 4] {
            let good = Frame::with_node_id(control(field, alias), BASE + 4);
            let header = good.header;
            ops.extend([3, 4, 255].map(|kind| MapOp::Note(Frame { kind, ..good })));
            ops.extend([9, 16, 255].map(|len| MapOp::Note(Frame { len, ..good })));
            for high in [0x2000_0000, 0x4000_0000, 0x8000_0000] {
                let frame = Frame { header: header | high, ..good };
                ops.push(MapOp::Note(frame));
                ops.push(MapOp::Note(Frame { kind: REMOTE, len: 0, ..frame }));
            }
            ops.push(MapOp::Note(Frame { kind: REMOTE, ..good }));
            ops.push(MapOp::Note(Frame { kind: ELEVEN_BIT, header: 0x800, ..good }));
            ops.push(MapOp::Note(Frame { kind: ELEVEN_BIT, ..good }));
        }
    }
}

/// The largest and smallest aliases and Node IDs, and data past the length.
fn edges(ops: &mut Vec<MapOp>) {
    ops.extend([amd(0xFFF, 1), amd(1, 0xFFFF_FFFF_FFFF), amd(0x800, BASE)]);
    ops.extend([0xFFF, 1, 0x800, 0, 0x1FFF].map(MapOp::ByAlias));
    ops.extend([1, 0xFFFF_FFFF_FFFF, BASE, 0].map(MapOp::ByNodeId));
    let mut frame = Frame::with_node_id(control(AMD, 2), BASE + 2);
    frame.data[6..].copy_from_slice(&[0xAB, 0xCD]);
    ops.push(MapOp::Note(frame));
    ops.extend([amd(0xFFF, BASE + 7), amd(2, 1), amd(7, BASE + 2), amd(1, 0x0100_0000_0000)]);
}

/// Notes and look-ups over `pool` aliases and Node IDs.
fn by_chance(ops: &mut Vec<MapOp>, rng: &mut Prng, pool: usize) {
    for _ in 0..700 {
        let alias = rng.between(1, pool) as u16;
        let id = BASE + rng.between(1, pool) as u64;
        ops.push(match rng.weighted(&[60, 8, 12, 12, 4]) {
            0 => amd(alias, id),
            1 => amr(alias, id),
            2 => MapOp::ByAlias(alias),
            3 => MapOp::ByNodeId(id),
            _ => {
                let bit = 1 << rng.below(32);
                MapOp::Note(Frame::with_node_id(control(AMD, alias) ^ bit, id))
            }
        });
    }
}

/// Looks up either way in an empty map, with one entry, with two, with the second alone, and with
/// none again.
fn none_or_one(ops: &mut Vec<MapOp>) {
    let aliases = [1, 2].map(MapOp::ByAlias);
    let ids = [BASE + 1, BASE + 2].map(MapOp::ByNodeId);
    ops.extend(aliases.into_iter().chain(ids));
    for note in [amd(1, BASE + 1), amd(2, BASE + 2), amr(1, BASE + 1), amr(2, BASE + 2)] {
        ops.push(note);
        ops.extend(aliases.into_iter().chain(ids));
    }
}

/// What a corpus of the map must meet.
#[derive(Clone, Copy, Debug, PartialEq, Eq, PartialOrd, Ord)]
pub enum MapRule {
    Added,
    /// Added as the 64th.
    Filled,
    Refused12,
    ReplacedAlias,
    ReplacedNodeId,
    ReplacedItself,
    RemovedTwo,
    ReplacedWhenFull,
    RemovedTwoWhenFull,
    Refused9(Malformed),
    AmrRemoves {
        oldest: bool,
        newest: bool,
    },
    AmrAbsent,
    AmrOtherNodeId,
    AmrWithoutData,
    RemoteAmr,
    RemoteAmd,
    AmdLen(u8),
    AmdAliasZero,
    AmdNodeIdZero,
    /// A change by a frame with this bit 28, which the map ignores (A.5).
    Changed {
        change: Change,
        bit_28: bool,
    },
    Message(u16),
    Other(u8),
    ElevenBit,
    LookUp(Way, Outcome),
    /// The low 12 bits are an alias of the map.
    AliasHigh,
}

impl MapRule {
    pub fn all() -> Vec<MapRule> {
        use MapRule::*;
        let mut rules =
            vec![Added, Filled, Refused12, ReplacedAlias, ReplacedNodeId, ReplacedItself];
        rules.extend([RemovedTwo, ReplacedWhenFull, RemovedTwoWhenFull, AmrAbsent]);
        for (oldest, newest) in [(true, false), (false, true), (false, false)] {
            rules.push(AmrRemoves { oldest, newest });
        }
        rules.extend([AmrOtherNodeId, AmrWithoutData, RemoteAmr, RemoteAmd]);
        rules.extend([0, 1, 2, 3, 4, 5, 7, 8].map(AmdLen));
        rules.extend([AmdAliasZero, AmdNodeIdZero, Message(AMD), Message(AMR)]);
        for bit_28 in [false, true] {
            rules.extend(Change::ALL.map(|change| Changed { change, bit_28 }));
        }
        rules.extend([0, 1, 2, 3, 4].map(Other));
        rules.extend([ElevenBit, AliasHigh]);
        for way in Way::ALL {
            rules.extend(Outcome::all().into_iter().map(|outcome| LookUp(way, outcome)));
        }
        rules.extend(Malformed::ALL.map(MapRule::Refused9));
        rules
    }
}

/// The rules that these operations meet.
pub fn rules_met(ops: &[MapOp]) -> BTreeSet<MapRule> {
    let mut met = BTreeSet::new();
    let (mut map, mut followed) = (AliasMap::new(), Followed::default());
    for op in ops {
        match op {
            MapOp::Note(frame) => note_rules(&map, frame, &mut met),
            MapOp::ByAlias(alias) => {
                let is_hit = |entry: &Entry| entry.alias.0 == *alias;
                met.extend(look_up_rules(&followed, Way::ByAlias, is_hit));
                if *alias > 0xFFF && map.node_id_of(Alias(alias & 0xFFF)).is_ok() {
                    met.insert(MapRule::AliasHigh);
                }
            }
            MapOp::ByNodeId(id) => {
                let is_hit = |entry: &Entry| entry.id == *id;
                met.extend(look_up_rules(&followed, Way::ByNodeId, is_hit));
            }
            MapOp::New => {}
        }
        let before = map.entries().to_vec();
        op.answer(&mut map);
        if let MapOp::Note(frame) = op {
            let bit_28 = header::split(frame.header).bit_28;
            let change = Change::of(&before, map.entries());
            met.extend(change.map(|change| MapRule::Changed { change, bit_28 }));
        }
        followed.follow(&map);
    }
    met
}

fn look_up_rules(
    followed: &Followed,
    way: Way,
    is_hit: impl Fn(&Entry) -> bool,
) -> impl Iterator<Item = MapRule> {
    followed.outcomes(is_hit).into_iter().map(move |outcome| MapRule::LookUp(way, outcome))
}

fn note_rules(map: &AliasMap, frame: &Frame, met: &mut BTreeSet<MapRule>) {
    if !frame.well_formed() {
        met.insert(MapRule::Refused9(why_malformed(frame)));
        return;
    }
    let header = header::split(frame.header);
    let (alias, kind) = (header.alias, header.kind());
    match (frame.kind, kind) {
        (ELEVEN_BIT, _) => drop(met.insert(MapRule::ElevenBit)),
        (REMOTE, Kind::Amd) => drop(met.insert(MapRule::RemoteAmd)),
        (REMOTE, Kind::Amr) if map.node_id_of(alias).is_ok() => {
            met.insert(MapRule::RemoteAmr);
        }
        (EXTENDED, Kind::Amd) => amd_rules(map, alias, frame, met),
        (EXTENDED, Kind::Amr) => amr_rules(map, alias, frame, met),
        (EXTENDED, Kind::Message) => drop(met.insert(MapRule::Message(header.field))),
        (EXTENDED, other) => drop(met.insert(MapRule::Other(other_kind(other)))),
        _ => {}
    }
}

/// A number for each kind that the map ignores.
fn other_kind(kind: Kind) -> u8 {
    match kind {
        Kind::Cid(..) => 0,
        Kind::Rid => 1,
        Kind::Ame => 2,
        Kind::ErrorReport(_) => 3,
        _ => 4,
    }
}

fn amr_rules(map: &AliasMap, alias: Alias, frame: &Frame, met: &mut BTreeSet<MapRule>) {
    let entries = map.entries();
    let Some(place) = entries.iter().position(|entry| entry.alias == alias) else {
        met.insert(MapRule::AmrAbsent);
        return;
    };
    let (oldest, newest) = (place == 0, place + 1 == entries.len());
    met.insert(MapRule::AmrRemoves { oldest, newest });
    if frame.len == 0 {
        met.insert(MapRule::AmrWithoutData);
    } else if !frame.carries(entries[place].id) {
        met.insert(MapRule::AmrOtherNodeId);
    }
}

fn amd_rules(map: &AliasMap, alias: Alias, frame: &Frame, met: &mut BTreeSet<MapRule>) {
    let id = u64::from_be_bytes(frame.data) >> 16;
    let full = map.entries().len() == AliasMap::ROOM;
    let same_alias = |entry: &&Entry| entry.alias == alias;
    let same_id = |entry: &&Entry| entry.id == id;
    let by_alias = map.entries().iter().find(same_alias);
    let by_id = map.entries().iter().find(same_id);
    let rule = match (by_alias, by_id) {
        _ if frame.len != 6 => MapRule::AmdLen(frame.len),
        _ if alias.0 == 0 => MapRule::AmdAliasZero,
        _ if id == 0 => MapRule::AmdNodeIdZero,
        (Some(a), Some(b)) if a == b => MapRule::ReplacedItself,
        (Some(_), Some(_)) if full => MapRule::RemovedTwoWhenFull,
        (Some(_), Some(_)) => MapRule::RemovedTwo,
        (Some(_), None) | (None, Some(_)) if full => MapRule::ReplacedWhenFull,
        (Some(_), None) => MapRule::ReplacedAlias,
        (None, Some(_)) => MapRule::ReplacedNodeId,
        _ if full => MapRule::Refused12,
        _ if map.entries().len() + 1 == AliasMap::ROOM => MapRule::Filled,
        _ => MapRule::Added,
    };
    met.insert(rule);
}
