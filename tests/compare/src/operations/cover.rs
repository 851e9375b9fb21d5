//! How often each state of a node met each event, drawn as a table; and how often each link mark, each mark of Node IDs, each turn cell
//! and each warm mark was met.

use reference::generate::coverage::{reachable, Coverage, Event, Look, Row};
use reference::generate::id_marks::IdMark;
use reference::generate::link_marks::{Cause, LinkMark};
use reference::generate::turn_cells::{Act, TurnCell};
use reference::generate::warm_marks::{Cause as WarmCause, Since, WarmMark};
use std::collections::{BTreeMap, BTreeSet};
use std::fmt::Write;

const STATES: [&str; 7] = ["Off", "Testing", "Reserved", "Permitted", "Leaving", "Resting", "Silent"];

const COMMANDS: [&str; 10] =
    ["power-on", "send", "failed send", "deliver", "tick", "foreign frame", "message", "enquiry", "release", "power-on by 0A"];

fn column(row: Row) -> usize {
    match row {
        Row::Off => 0,
        Row::Check(_) | Row::Wait | Row::Reserve => 1,
        Row::Reserved { .. } => 2,
        Row::Permitted { .. } => 3,
        Row::Leaving { .. } => 4,
        Row::Resting => 5,
        Row::Silent => 6,
    }
}

fn label(event: Event) -> String {
    match event {
        Event::Answer(byte, 0) => COMMANDS[usize::from(byte) - 1].to_string(),
        Event::Answer(byte, refusal) => format!("{}, refused {refusal}", COMMANDS[usize::from(byte) - 1]),
        Event::EnquiryTaken { all } => format!("enquiry for {}", if all { "all" } else { "one" }),
        Event::WarmOnTaken { warm } => format!("power-on by 0A, flag {}", u8::from(warm)),
        Event::Deliver(case) => format!("deliver {case:?}"),
        Event::DeliverBit28 { heed, bit_28 } => format!("deliver {heed:?}, bit 28 as {}", u8::from(bit_28)),
        Event::DeliverAliasZero(heed) => format!("deliver {heed:?}, alias 0"),
        Event::BusFrame => "another node's frame comes".to_string(),
        Event::ForeignFrame => "a foreign frame comes".to_string(),
        Event::Link { was, is } => format!("link {} to {}", was.number(), is.number()),
        Event::LinkRefused(refusal) => format!("link, refused {refusal}"),
        Event::Choice(Look::Named) => "a choice names it".to_string(),
        Event::Choice(Look::PassedOver) => "a choice passes over it".to_string(),
        Event::Choice(Look::NotReached) => "a choice ends before it".to_string(),
        Event::ReadOut { past: true } => "read-out, first alias past".to_string(),
        Event::ReadOut { past: false } => "read-out, first alias not past".to_string(),
        Event::ReadOutRefused(refusal) => format!("read-out, refused {refusal}"),
    }
}

/// A line for each event, a column for each state: how often they met, `-` where they cannot.
pub fn table(cover: &Coverage) -> String {
    let mut counts: BTreeMap<(Event, usize), u64> = BTreeMap::new();
    for (row, event) in reachable() {
        *counts.entry((event, column(row))).or_default() += cover.met.get(&(row, event)).unwrap_or(&0);
    }
    let mut text = format!("{:<30}", "event");
    STATES.iter().for_each(|state| write!(text, "{state:>11}").expect("a string takes it"));
    let events: BTreeSet<Event> = counts.keys().map(|(event, _)| *event).collect();
    for event in events {
        write!(text, "\n{:<30}", label(event)).expect("a string takes it");
        for state in 0..STATES.len() {
            let count = counts.get(&(event, state)).map_or("-".to_string(), u64::to_string);
            write!(text, "{count:>11}").expect("a string takes it");
        }
    }
    text
}

/// A line for each mark with its label: how often it was met.
fn marks<M: Ord>(title: &str, all: Vec<M>, counts: &BTreeMap<M, u64>, label: impl Fn(&M) -> String) -> String {
    let mut text = format!("{title:<61}{:>11}", "met");
    for mark in all {
        let count = counts.get(&mark).unwrap_or(&0);
        write!(text, "\n{:<61}{count:>11}", label(&mark)).expect("a string takes it");
    }
    text
}

fn id_label(mark: &IdMark) -> String {
    match mark {
        IdMark::HeldIn(state) => format!("power-on, refused 15: held by a {state:?} node"),
        IdMark::HeldAt(place) => format!("power-on, refused 15: held at index {place}"),
        IdMark::FramesStayed(state) => format!("power-on, refused 15, of a {state:?} node that kept frames"),
        IdMark::StayedFull => "power-on, refused 15, of a node whose inbox stayed full".to_string(),
        IdMark::LateBy(sort) => format!("power-on, refused 15, then late by an age: {sort:?}"),
        IdMark::OneBitApart(part) => format!("power-on one bit apart from another Node ID, in part {part}"),
        IdMark::OwnAgain(state) => format!("power-on of a {state:?} node under its own Node ID"),
        IdMark::GivenUp => "power-on under a Node ID that another index gave up".to_string(),
    }
}

/// A line for each mark of Node IDs at power-on, by 01 and by 0A.
pub fn id_marks(cover: &Coverage) -> String {
    let by_01 = marks("Node IDs at power-on", IdMark::all(), &cover.ids.counts, id_label);
    let by_0a = marks("Node IDs at power-on by 0A", IdMark::all(), &cover.warm_ids.counts, id_label);
    format!("{by_01}\n{by_0a}")
}

fn link_label(mark: &LinkMark) -> String {
    match mark {
        LinkMark::Answer(0) => "link order".to_string(),
        LinkMark::Answer(refusal) => format!("link order, refused {refusal}"),
        LinkMark::Order(first, second) => format!("link order, refused {first} before {second}"),
        LinkMark::Left(report) => format!("error report {report} left"),
        LinkMark::Replaced(first, second) => format!("error report {first} replaced by {second}"),
        LinkMark::Dropped(Cause::Collision) => "error report dropped by a collision".to_string(),
        LinkMark::Dropped(Cause::Release) => "error report dropped by a release".to_string(),
        LinkMark::Dropped(Cause::Silent) => "error report dropped by the duplicate report".to_string(),
        LinkMark::Dropped(Cause::PowerOn) => "error report dropped by power-on".to_string(),
        LinkMark::Dropped(Cause::WarmOn) => "error report dropped by power-on by 0A".to_string(),
        LinkMark::ToldIn(state) => format!("error report from a link state told in {state:?}"),
        LinkMark::KeptThroughRestart(state) => format!("error report from a link state kept by a restart in {state:?}"),
        LinkMark::SetBack { by_0a: false } => "error report from the link state that power-on set back".to_string(),
        LinkMark::SetBack { by_0a: true } => "error report from the link state that power-on by 0A set back".to_string(),
    }
}

/// A line for each link mark.
pub fn link_marks(cover: &Coverage) -> String {
    marks("link orders and error reports", LinkMark::all(), &cover.links.counts, link_label)
}

/// What came between two choices; it is the node that the first of them named.
fn act_words(act: Act) -> &'static str {
    match act {
        Act::Sent => "it sends",
        Act::SendRefusedBy5 => "its send is refused by 5",
        Act::Failed { restarts: false } => "its send fails and it stays as it is",
        Act::Failed { restarts: true } => "its send fails and it starts again",
        Act::Delivered { restarts: false } => "it is delivered a frame",
        Act::Delivered { restarts: true } => "it is delivered a frame and starts again",
        Act::PoweredOn => "it is powered on",
        Act::PowerOnRefused => "its power-on is refused",
        Act::AnotherPoweredOn => "another is powered on",
        Act::WarmedOn => "it is powered on by 0A",
        Act::WarmOnRefused => "its power-on by 0A is refused",
        Act::AnotherWarmedOn => "another is powered on by 0A",
        Act::ReadOut => "it is read out",
        Act::Message => "its host orders a message",
        Act::Enquiry => "its host orders an enquiry",
        Act::Release => "it is released",
        Act::Link => "it is told its link state",
        Act::Tick => "a tick passes",
        Act::Foreign => "a foreign frame comes",
        Act::Nobody => "a choice names nobody",
    }
}

fn turn_label(cell: &TurnCell) -> String {
    match cell {
        TurnCell::Named { .. } => "a choice with this mark names this node".to_string(),
        TurnCell::Nobody { .. } => "a choice with this mark names nobody".to_string(),
        TurnCell::MarkedIsLast => "a choice names another, though the marked node is due".to_string(),
        TurnCell::Between(act) => format!("named, then {}", act_words(*act)),
        TurnCell::NamedLast { amid: false, .. } => "this node is due at 24 choices, named by the last".to_string(),
        TurnCell::NamedLast { amid: true, .. } => "the same, and commands between any two of the 24".to_string(),
    }
}

/// A line for each sort of turn cells.
pub fn turn_cells(cover: &Coverage) -> String {
    sorts(["choices", "cells"], TurnCell::all(), &cover.turns.counts, turn_label)
}

fn since_words(since: Since) -> String {
    match since {
        Since::First { by_0a, after_warm } => {
            let byte = if by_0a { "0A, flag 0" } else { "01" };
            format!("power-on by {byte}{}", if after_warm { ", after a warm one" } else { "" })
        }
        Since::Warm { was_on: true } => "warm power-on in its place".to_string(),
        Since::Warm { was_on: false } => "warm power-on from Off".to_string(),
        Since::Restart(WarmCause::Failed) => "a failed send".to_string(),
        Since::Restart(WarmCause::MetInTesting) => "a frame with its alias in Testing".to_string(),
        Since::Restart(WarmCause::MetInReserved) => "a frame with its alias in Reserved".to_string(),
        Since::Restart(WarmCause::AmrLeft) => "its AMR has left".to_string(),
    }
}

fn warm_label(mark: &WarmMark) -> String {
    match mark {
        WarmMark::Given { flag, .. } => format!("power-on by 0A with flag {flag}, states of six sorts"),
        WarmMark::Back { past, .. } => format!("given back in its place, each state, flag {}", u8::from(*past)),
        WarmMark::BackElsewhere { past } => format!("given back at another index, flag {}", u8::from(*past)),
        WarmMark::ReadOut(0) => "read-out".to_string(),
        WarmMark::ReadOut(refusal) => format!("read-out, refused {refusal}"),
        WarmMark::Read { since, .. } => format!("read out after {}", since_words(*since)),
        WarmMark::ReadNodeIdPast { stepped: true } => "the Node ID is read, past: a step led there".to_string(),
        WarmMark::ReadNodeIdPast { stepped: false } => "the Node ID is read, past: it was given".to_string(),
    }
}

/// A line for each sort of warm marks.
pub fn warm_marks(cover: &Coverage) -> String {
    let mut all = WarmMark::all();
    all.sort_by_key(warm_label);
    sorts(["read-outs and power-ons by 0A", "marks"], all, &cover.warm.counts, warm_label)
}

/// A line for each label, with how many have it, and how often each of them was met at least.
fn sorts<M: Ord>([title, many]: [&str; 2], all: Vec<M>, counts: &BTreeMap<M, u64>, label: impl Fn(&M) -> String) -> String {
    let mut text = format!("{title:<56}{many:>5}{:>11}", "each met");
    for sort in all.chunk_by(|one, next| label(one) == label(next)) {
        let least = sort.iter().map(|mark| *counts.get(mark).unwrap_or(&0)).min().unwrap_or(0);
        write!(text, "\n{:<56}{:>5}{least:>11}", label(&sort[0]), sort.len()).expect("a string takes it");
    }
    text
}
