//! Scripts written on purpose: each one tells a story that document 01, a request or 002 suggests.

use crate::alias::{self, Alias, ALIASES, MAX_48};
use crate::command::{Command, OPERANDS};
use crate::frame::{Frame, ELEVEN_BIT, REMOTE};
use crate::generate::draft::Draft;
use crate::generate::marks::{FIELD_EDGES, UNKNOWN};
use crate::generate::warm_scripts;
use crate::header::{self, Header, AMD, AME, AMR, RID};
use crate::inbox::Inbox;
use crate::node::State;
use crate::segment::Segment;

pub(crate) const ID: u64 = 0x0501_0101_0101;

/// The script that document 01 prints with its whole output.
pub const SAMPLE: [u8; 14] =
    [0x01, 0x00, 0x05, 0x01, 0x01, 0x01, 0x01, 0x01, 0x04, 0x00, 0x02, 0x00, 0x02, 0x18];

/// All scenarios, in a fixed order.
pub fn all() -> Vec<Vec<u8>> {
    let mut scripts = vec![SAMPLE.to_vec(), vec![], one_of_each_refusal(), standard_frames()];
    scripts.extend(cut_commands());
    scripts.extend(unknown_commands());
    scripts.extend(inbox_ages());
    scripts.extend(owed_ages());
    scripts.extend(full_inboxes());
    scripts.extend(generator_corners());
    scripts.extend(field_edges(State::Reserved));
    scripts.extend(field_edges(State::Permitted));
    scripts.extend(breakers());
    scripts.extend(powered_again());
    scripts.extend(wiring_lists());
    scripts.extend([enquiry_lengths(), long_stream(), duplicates(), second_reply()]);
    scripts.extend([malformed_frames(), crossing_reservations(), all_off(), impatient()]);
    scripts.extend(wiring_lists().iter().map(|script| warm_scripts::by_0a(script)));
    scripts.push(warm_scripts::by_0a(&full_inbox(State::Permitted)));
    scripts.extend(warm_scripts::all());
    scripts
}

/// Every command cut after every number of its operand bytes, first and after others.
fn cut_commands() -> Vec<Vec<u8>> {
    let mut scripts = Vec::new();
    for (byte, count) in (1..).zip(OPERANDS) {
        for operands in 0..count {
            let mut cut = vec![byte];
            cut.extend((0..operands as u8).map(|k| if k == 0 { 24 } else { k }));
            let mut draft = Draft::new();
            draft.power_on(0, ID);
            draft.send(0);
            draft.ticks(1);
            draft.bytes.extend_from_slice(&cut);
            scripts.extend([cut, draft.bytes]);
        }
    }
    scripts
}

fn unknown_commands() -> Vec<Vec<u8>> {
    let mut scripts = Vec::new();
    for byte in UNKNOWN {
        let mut late = Draft::new();
        let _ = late.power_on(23, ID);
        let _ = late.idle_frame();
        late.ticks(41);
        scripts.extend([vec![byte], vec![byte, 0x05], vec![0x05, byte]]);
        late.bytes.extend([byte, 0x05]);
        scripts.push(late.bytes);
    }
    scripts
}

/// Refusals 1 to 9 of every command, two conditions at once where that can be.
fn one_of_each_refusal() -> Vec<u8> {
    let mut draft = Draft::new();
    for index in [0, 23, 24, 255] {
        for id in [0, ID] {
            draft.power_on(index, if index == 23 { 0 } else { id });
        }
        for length in [0, 9] {
            let message = Command::Message { index, field: 0x15B4, len: length, data: [1; 8] };
            draft.push(message);
            draft.enquiry(index, length, ID);
        }
        draft.message(index, 0x8000, &[]);
        draft.send(index).fail(index).deliver(index).release(index);
    }
    draft.bring_all(&[0], State::Permitted);
    draft.send(0).fail(0).message(0, 0x7FFF, &[1, 2, 3]);
    draft.message(0, 0, &[]).enquiry(0, 0, ID).enquiry(0, 6, ID);
    draft.message(0, 0xFFFF, &[]).enquiry(0, 3, ID).fail(0);
    let malformed = Frame { kind: 3, ..Frame::EMPTY };
    draft.power_on(1, ID + 1).power_on(4, ID + 4);
    draft.send(4).send(4).send(4).send(4);
    for _ in 0..=Inbox::ROOM {
        draft.idle_frame();
    }
    draft.foreign(malformed).send(0).send(1).send(2).send(4).fail(0);
    draft.drain(1).drain(4);
    draft.send(1).send(0).release(0).release(0).fail(0);
    draft.bytes
}

/// The frames of 002: its tables and the report that it prints.
fn standard_frames() -> Vec<u8> {
    let mut draft = Draft::permitted(&[ID, 0x0201_2100_0001]);
    draft.message(0, 0x15B4, &[1, 1, 0, 0, 0, 2, 1]);
    draft.send_and_drain(0).enquiry(0, 0, 0);
    draft.send_and_drain(0).send_and_drain(1).enquiry(1, 6, ID);
    draft.send_and_drain(1).send_and_drain(0);
    let alias = Alias(0x5AA);
    for field in [0x7050, 0x6101, 0x5010, 0x4101, RID, AMD, AME, AMR, 0x0710, 0x0713] {
        let data = if field == AMD || field == AMR { vec![2, 1, 0x0D, 0, 0, 7] } else { vec![] };
        draft.control(field, alias, &data);
        draft.drain_all();
    }
    draft.send(0).send(1).foreign_amd_of(0);
    draft.drain_all();
    draft.send_and_drain(0).send(0).release(1).send(1);
    draft.bytes
}

/// A node alone, at index 3, in this state, with an empty inbox and nothing that ages but an AMR.
pub(crate) fn in_state(state: State) -> Draft {
    let mut draft = Draft::new();
    draft.power_on(3, ID);
    to_state(&mut draft, state);
    draft
}

/// Brings node 3, alone and Testing, to this state.
pub(crate) fn to_state(draft: &mut Draft, state: State) {
    match state {
        State::Off | State::Testing => {}
        State::Reserved => {
            draft.bring_all(&[3], State::Reserved);
        }
        _ => {
            draft.bring_all(&[3], State::Permitted);
        }
    }
    match state {
        State::Leaving => {
            draft.release(3);
        }
        State::Resting => {
            draft.release(3).send(3);
        }
        State::Silent => {
            draft.foreign_amd_of(3).deliver(3).send(3);
        }
        _ => {}
    }
}

/// A frame that stands 40 ticks and one that stands 41, by state and by kind.
fn inbox_ages() -> Vec<Vec<u8>> {
    let frames = [
        Frame { header: 0x0800_1000, ..Frame::EMPTY },
        Frame { header: 0x1070_2000, kind: REMOTE, ..Frame::EMPTY },
        Frame { header: 0x7FF, kind: ELEVEN_BIT, ..Frame::EMPTY },
    ];
    let mut scripts = Vec::new();
    for (place, state) in State::ON.into_iter().enumerate() {
        for (sort, frame) in frames.into_iter().enumerate() {
            if place == 0 || place % 3 == sort {
                scripts.extend([40, 41].map(|ticks| inbox_age(state, frame, ticks)));
            }
        }
    }
    scripts
}

fn inbox_age(state: State, frame: Frame, ticks: usize) -> Vec<u8> {
    let mut draft = in_state(state);
    draft.foreign(frame);
    draft.ticks(7);
    draft.foreign(frame);
    if state == State::Leaving {
        draft.fail(3);
    }
    draft.ticks(ticks - 8);
    if state == State::Leaving && ticks == 41 {
        draft.power_on(4, ID + 4);
    }
    draft.ticks(1);
    draft.deliver(3);
    draft.ticks(6);
    draft.deliver(3).deliver(3).send(3);
    draft.ticks(1);
    draft.bytes
}

/// Reply RIDs and AMRs that wait 40 or 41 ticks, renewed, failed and dropped.
fn owed_ages() -> Vec<Vec<u8>> {
    let mut scripts = Vec::new();
    for ticks in [40, 41] {
        for state in [State::Reserved, State::Permitted] {
            for between in 0..7 {
                scripts.push(reply_age(state, ticks, between));
            }
        }
        scripts.extend([false, true].map(|released| amr_age(ticks, released)));
    }
    scripts
}

/// A reply RID waits; after 20 ticks something happens; after `ticks` it leaves.
fn reply_age(state: State, ticks: usize, between: usize) -> Vec<u8> {
    let mut draft = in_state(state);
    draft.foreign_cid(3).deliver(3);
    draft.ticks(20);
    match between {
        0 => {}
        1 => {
            draft.foreign_cid(3).deliver(3);
        }
        2 => {
            draft.fail(3).fail(3);
        }
        3 => {
            draft.foreign_message(3).deliver(3);
        }
        4 => {
            draft.release(3);
        }
        5 => {
            draft.power_on(3, ID + 1);
        }
        _ => {
            draft.send(3).foreign_cid(3).deliver(3);
        }
    }
    draft.ticks(ticks - 20);
    draft.send(3).send(3);
    draft.ticks(45);
    draft.send(3);
    draft.bytes
}

fn amr_age(ticks: usize, released: bool) -> Vec<u8> {
    let mut draft = in_state(State::Permitted);
    if released {
        draft.release(3);
    } else {
        draft.foreign_message(3).deliver(3);
    }
    draft.ticks(15);
    draft.foreign_cid(3).deliver(3).foreign_message(3).deliver(3);
    draft.foreign_ame().deliver(3).fail(3).release(3);
    draft.ticks(ticks - 15);
    draft.send(3).send(3);
    draft.ticks(2);
    draft.bytes
}

/// A full inbox in every state: 5 for others' frames and foreign ones, not for its own. A power-on
/// that is refused by 15 leaves it full.
fn full_inboxes() -> Vec<Vec<u8>> {
    State::ON.into_iter().map(full_inbox).collect()
}

fn full_inbox(state: State) -> Vec<u8> {
    let mut draft = in_state(state);
    draft.power_on(11, ID + 11);
    for _ in 0..Inbox::ROOM - 2 {
        draft.idle_frame();
        draft.deliver(11);
    }
    draft.send(11).send(11).power_on(3, ID + 11).send(11).idle_frame();
    let malformed = Frame { len: 9, ..Frame::EMPTY };
    draft.foreign(malformed).fail(11).send(3).send(3);
    draft.deliver(3).send(11).send(11);
    draft.power_on(3, ID).send(11).deliver(3).deliver(3);
    draft.bytes
}

/// Node IDs at the edges, a drawn alias of 0, and one that is drawn again.
fn generator_corners() -> Vec<Vec<u8>> {
    let again = (ID..).find(|&id| alias::first(id) == alias::next(id).0).unwrap_or(ID);
    let twice = (ID..).find(|&id| {
        let (one, state) = alias::next(id);
        one == alias::next(state).0
    });
    let ids = [
        1,
        0xFFE,
        0xFFF,
        0x1000,
        0x0501_017F_FFFF,
        0x0501_0180_0000,
        MAX_48,
        MAX_48 - 1,
        id_before_zero(),
        again,
        twice.unwrap_or(ID),
    ];
    ids.into_iter().map(generator_corner).collect()
}

/// A Node ID whose first step brings four parts with exclusive-or 0.
fn id_before_zero() -> u64 {
    let zero = |state: u64| (state ^ state >> 12 ^ state >> 24 ^ state >> 36) & 0xFFF == 0;
    (ID..).find(|&id| zero(513 * id + 0x1B0C_A37A_4BA9)).unwrap_or(ID)
}

fn generator_corner(id: u64) -> Vec<u8> {
    let mut draft = Draft::new();
    draft.power_on(7, id);
    for round in 0..4 {
        for _ in 0..4 {
            draft.send(7);
        }
        draft.fail(7).foreign_cid(7).deliver(7);
        for _ in 0..round {
            draft.send(7).fail(7).fail(7);
        }
    }
    draft.bytes
}

/// Every edge of the field's ranges, both types, bit 28 either way, at the node's own alias.
fn field_edges(goal: State) -> Vec<Vec<u8>> {
    let mut headers = Vec::new();
    for bit_28 in [false, true] {
        for message in [false, true] {
            let parts = |field| Header { bit_28, message, field, alias: Alias(0) };
            headers.extend(FIELD_EDGES.map(parts));
        }
    }
    headers.chunks(6).map(|chunk| aimed_at_six(goal, chunk)).collect()
}

/// Each of these, with the own alias in place of 0, for one of six nodes.
fn aimed_at_six(goal: State, headers: &[Header]) -> Vec<u8> {
    let mut draft = Draft::new();
    for index in 0..6 {
        draft.power_on(index, ID + 17 * u64::from(index));
    }
    draft.bring_all(&[0, 1, 2, 3, 4, 5], goal);
    for (index, parts) in (0..).zip(headers) {
        let header = header::join(Header { alias: draft.alias(index), ..*parts });
        let data = [1, 2, 3, 4, 5, 6, 7, 8];
        let len = (header >> 12) as usize % 9;
        draft.foreign(Frame::extended(header, &data[..len]));
    }
    draft.drain_all();
    for index in 0..6 {
        draft.send(index);
    }
    draft.bytes
}

/// All 24 on one breaker: different Node IDs, one first alias, one Node ID in every line; in time and
/// not.
fn breakers() -> Vec<Vec<u8>> {
    let ids = |step: u64| -> Vec<u64> { (0..24).map(|k| ID + step * k).collect() };
    let mut scripts = vec![Draft::permitted(&ids(1)).bytes, Draft::permitted(&ids(ALIASES)).bytes];
    scripts.push(Draft::permitted(&ids(0)).bytes);
    scripts.push(nobody_delivers(&ids(ALIASES)));
    scripts
}

/// All switched on, all sending, nobody reading.
fn nobody_delivers(ids: &[u64]) -> Vec<u8> {
    let mut draft = Draft::new();
    for (index, &id) in (0..).zip(ids) {
        draft.power_on(index, id);
    }
    for _ in 0..3 {
        for index in 0..Segment::PLACES as u8 {
            draft.send(index);
        }
    }
    draft.ticks(45);
    draft.drain_all();
    for index in 0..Segment::PLACES as u8 {
        draft.send(index);
    }
    draft.bytes
}

/// Power-on in every state, with frames in the inbox.
fn powered_again() -> Vec<Vec<u8>> {
    State::ON
        .into_iter()
        .map(|state| {
            let mut draft = in_state(state);
            draft.foreign_cid(3).deliver(3).foreign_cid(3);
            draft.idle_frame().power_on(3, 0).power_on(3, ID + 1);
            draft.deliver(3).send(3).fail(3).send(3);
            draft.bytes
        })
        .collect()
}

fn enquiry_lengths() -> Vec<u8> {
    let mut draft = Draft::permitted(&[ID, ID + 1]);
    for len in (0..=9).chain([255]) {
        for id in [ID + 1, 0, MAX_48] {
            draft.enquiry(0, len, id);
            if draft.has_due(0) {
                draft.send_and_drain(0).send_and_drain(1);
            }
        }
    }
    for len in (0..=9).chain([255]) {
        draft.push(Command::Message { index: 1, field: 0x0702, len, data: [0xA5; 8] });
        draft.send_and_drain(1);
    }
    draft.bytes
}

/// An inbox that is never empty while many frames pass through it.
fn long_stream() -> Vec<u8> {
    let mut draft = Draft::new();
    draft.power_on(0, ID);
    draft.power_on(1, ID + 1);
    for k in 0..120u16 {
        let parts = Header { bit_28: false, message: true, field: k, alias: Alias(k) };
        draft.foreign(Frame::extended(header::join(parts), &u32::from(k).to_be_bytes()));
        draft.deliver(1);
        if k > 20 {
            draft.deliver(0);
        }
    }
    draft.drain_all();
    draft.deliver(0);
    draft.bytes
}

/// A Node ID met in foreign AMDs: two nodes report theirs and fall silent.
fn duplicates() -> Vec<u8> {
    let mut draft = Draft::permitted(&[ID, ID + 1, ID + 2]);
    draft.message(0, 0x15B4, &[1]).foreign_ame().foreign_amd_of(0).foreign_amd_of(1);
    draft.drain_all();
    for _ in 0..4 {
        for index in 0..3 {
            draft.send_and_drain(index);
        }
    }
    draft.message(0, 1, &[]).release(0).foreign_cid(0);
    draft.drain_all();
    draft.send(0).power_on(0, ID).send(0);
    draft.bytes
}

/// Wiring lists with one Node ID in two lines: it is held in every state, and at either end.
fn wiring_lists() -> Vec<Vec<u8>> {
    let mut scripts: Vec<Vec<u8>> = State::ON.into_iter().flat_map(wiring_list).collect();
    let mut ends = Draft::new();
    ends.power_on(0, ID).power_on(23, ID + 23);
    for index in [1, 22, 23, 0, 24] {
        ends.power_on(index, ID).power_on(index, ID + 23).send(index);
    }
    scripts.push(ends.bytes);
    scripts.extend([40, 41].into_iter().flat_map(ages_run_on));
    scripts.push(one_bit_apart());
    scripts
}

/// Frames, a reply RID and an AMR of so many ticks: after 20 of them a power-on is refused by 15.
fn ages_run_on(ticks: usize) -> Vec<Vec<u8>> {
    let waits: [fn(&mut Draft); 5] = [
        |draft| _ = draft.foreign_ame(),
        |draft| _ = draft.foreign(Frame { kind: REMOTE, ..Frame::EMPTY }),
        |draft| _ = draft.idle_frame(),
        |draft| _ = draft.foreign_cid(3).deliver(3),
        |draft| _ = draft.release(3),
    ];
    waits
        .map(|wait| {
            let mut draft = in_state(State::Permitted);
            wait(&mut draft);
            draft.power_on(5, ID + 5).ticks(20).power_on(3, ID + 5).ticks(ticks - 20);
            draft.deliver(3).send(3).deliver(5).ticks(1);
            draft.bytes
        })
        .into()
}

/// Node IDs that differ in one bit, any of the 48, are two.
fn one_bit_apart() -> Vec<u8> {
    let mut draft = Draft::new();
    draft.power_on(0, ID);
    for bit in 0..48 {
        draft.power_on(1, ID ^ 1 << bit);
    }
    draft.send(1).send(0);
    draft.bytes
}

/// Node 3 in this state. Other lines have its Node ID, and its own line then another's: it runs on.
/// Or its line has its own Node ID again, and then a new one: its first one is free.
fn wiring_list(state: State) -> [Vec<u8>; 2] {
    let mut held = in_state(state);
    held.power_on(0, ID).power_on(23, ID).send(0).power_on(5, ID + 5).power_on(5, ID);
    held.idle_frame().foreign_cid(3).power_on(3, ID + 5).power_on(5, ID);
    held.deliver(3).deliver(3).deliver(3).deliver(5).send(3).send(5);
    let mut again = in_state(state);
    again.idle_frame().power_on(3, ID).deliver(3).send(3).power_on(0, ID);
    again.power_on(3, ID + 3).power_on(0, ID).power_on(3, ID).send(0).send(3);
    [held.bytes, again.bytes]
}

/// A CID after the reply has left earns another reply; several before it earn one.
fn second_reply() -> Vec<u8> {
    let mut draft = in_state(State::Permitted);
    for count in [1, 3, 1, 2] {
        for _ in 0..count {
            draft.foreign_cid(3).deliver(3);
        }
        draft.send(3).send(3);
        draft.ticks(3);
    }
    draft.bytes
}

/// Foreign frames at and over each limit, of every kind and length.
fn malformed_frames() -> Vec<u8> {
    let mut draft = Draft::new();
    draft.power_on(0, ID);
    let data = [0xFF; 8];
    for kind in [0, 1, 2, 3, 255] {
        for len in [0, 1, 2, 3, 4, 5, 6, 7, 8, 9, 128, 255] {
            draft.foreign(Frame { header: 0x7FF, kind, len, data });
        }
        for header in [0x7FF, 0x800, 0x1FFF_FFFF, 0x2000_0000, 0x8000_0000, u32::MAX] {
            draft.foreign(Frame { header, kind, len: 0, data });
        }
        draft.drain(0);
    }
    draft.send(0);
    draft.bytes
}

/// Two nodes test one alias and cross on the bus: the frame that came first decides.
fn crossing_reservations() -> Vec<u8> {
    let mut draft = Draft::new();
    draft.power_on(0, ID).power_on(1, ID + ALIASES);
    for _ in 0..4 {
        draft.send(0).send(1);
    }
    draft.ticks(40);
    draft.drain_all();
    for _ in 0..4 {
        draft.send(0).deliver(1).send(1).deliver(0);
    }
    draft.bring_all(&[0, 1], State::Permitted);
    let alias = draft.alias(0);
    draft.foreign(Frame::extended(header::join(Header::sent(true, 0x05B4, alias)), &[]));
    draft.drain_all();
    draft.bring_all(&[0, 1], State::Permitted);
    draft.bytes
}

/// With all nodes Off a foreign frame is accepted and ticks pass.
fn all_off() -> Vec<u8> {
    let mut draft = Draft::new();
    draft.idle_frame().foreign_ame();
    draft.ticks(50);
    draft.power_on(5, ID).deliver(5).deliver(4);
    draft.bytes
}

/// A node that is asked for its reserving RID after every tick of the wait.
fn impatient() -> Vec<u8> {
    let mut draft = Draft::new();
    draft.power_on(9, ID).send(9).send(9).send(9);
    draft.ticks(210).send(9);
    for _ in 0..201 {
        draft.send(9).fail(9).ticks(1);
    }
    draft.send(9).fail(9).send(9).send(9);
    draft.bytes
}
