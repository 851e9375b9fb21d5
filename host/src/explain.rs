//! Beside each line of a run what it means in words; ticks in a row are one line, also with nobody's turn before each.

use crate::card::{Answer, Seen, State};
use crate::command::{Command, Read};
use crate::frame::{Frame, Sort};
use crate::hex::{dotted_id, joined};
use crate::in_use::InUse;
use crate::link::Link;
use crate::paint::Paint;
use crate::play::{self, Act, Played};
use crate::ticks::Ticks;
use crate::told::Told;
use crate::turn::Choice;
use crate::warm::{self, WARM};
use crate::watch::{Late, Moment};
use crate::words;

/// The column at which the words begin.
const COLUMN: usize = 38;

/// The refusal of a flag or a state by which no node is started.
const BAD_START: u64 = 18;

/// How the words beside a line are painted.
enum Tone {
    Plain,
    /// Of a refusal, or of what is late.
    Wrong,
    /// Of a frame that came with bit 28 as 0.
    Marked,
}

impl Tone {
    fn of(moment: &Moment) -> Tone {
        if !moment.accepted() {
            Tone::Wrong
        } else if moment.has_bit_28_as_0() {
            Tone::Marked
        } else {
            Tone::Plain
        }
    }

    /// Late or not.
    fn of_ages(late: &Option<Late>) -> Tone {
        late.map_or(Tone::Plain, |_| Tone::Wrong)
    }
}

pub struct Explain {
    paint: Paint,
    /// What has not been put yet: ticks in a row, and then a choice that names nobody.
    ticks: Option<Ticks>,
    unnamed: Option<(Played, Choice)>,
    late: Option<Late>,
    text: String,
}

impl Explain {
    pub fn new(paint: Paint) -> Explain {
        Explain { paint, ticks: None, unnamed: None, late: None, text: String::new() }
    }

    pub fn note(&mut self, moment: &Moment) {
        self.late = self.late.or(moment.late);
        if moment.command() == Some(Command::Tick) {
            return self.tick(moment);
        }
        if let Some(choice) = moment.choice.filter(|choice| choice.named.is_none()) {
            return self.unnamed(moment.played, choice);
        }
        self.put_open();
        self.put(&play::line(&moment.played), &meaning(moment), Tone::of(moment));
    }

    /// The whole text, with the last line.
    pub fn end(mut self, last: &str) -> String {
        self.put_open();
        let why = match &self.late {
            Some(late) => words::late(late),
            None => words::kept(),
        };
        self.put(last, &why, Tone::of_ages(&self.late));
        self.text
    }

    fn put(&mut self, line: &str, meaning: &str, tone: Tone) {
        let blanks = " ".repeat(COLUMN.saturating_sub(line.len()).max(2));
        let meaning = match tone {
            Tone::Plain => meaning.into(),
            Tone::Wrong => self.paint.red(meaning),
            Tone::Marked => self.paint.cyan(meaning),
        };
        self.text += &format!("{}{blanks}{meaning}\n", self.paint.faint(line));
    }

    fn tick(&mut self, moment: &Moment) {
        let choice = self.unnamed.take().map(|(_, choice)| choice);
        if !self.ticks.as_mut().is_some_and(|ticks| ticks.join(moment, choice)) {
            self.put_ticks();
            self.ticks = Some(Ticks::new(moment, choice));
        }
    }

    /// A choice that names nobody: where a tick follows, it has its part in the line of that.
    fn unnamed(&mut self, played: Played, choice: Choice) {
        if self.unnamed.is_some() {
            self.put_open();
        }
        self.unnamed = Some((played, choice));
    }

    /// Puts what has not been put yet, since more might have joined it.
    fn put_open(&mut self) {
        self.put_ticks();
        if let Some((played, choice)) = self.unnamed.take() {
            self.put(&play::line(&played), &choice.words(), Tone::Plain);
        }
    }

    fn put_ticks(&mut self) {
        if let Some(ticks) = self.ticks.take() {
            self.put(&ticks.line(), &ticks.words(), Tone::of_ages(&ticks.late));
        }
    }
}

/// What a command that is no tick did.
fn meaning(moment: &Moment) -> String {
    match (moment.played.act, moment.played.answer) {
        (Act::Bytes(byte, Read::Unknown), _) => {
            format!("{byte:02X} is no command: {}", words::refusal(10))
        }
        (Act::Bytes(byte, Read::Cut(size)), _) => {
            format!(
                "command {byte:02X} has {size} bytes, and not all are there: {}",
                words::refusal(11)
            )
        }
        (Act::Bytes(_, Read::Whole(command, _)), Answer::Refused(number)) => {
            format!("{}: refused, {}", wanted(&command), why(number, moment))
        }
        (Act::Bytes(_, Read::Whole(command, _)), _) => done(&command, moment),
        (Act::Link(link), Answer::Refused(number)) => {
            format!("{}: refused, {}", told(&link), words::refusal(number))
        }
        (Act::Link(link), _) => format!("{}: {}", told(&link), linked(moment)),
        (Act::Choice, _) => moment.choice.map_or(String::new(), |choice| choice.words()),
        (Act::SendInTurn(index), Answer::Refused(number)) => {
            let (wanted, why) = (wanted(&Command::Send { index }), words::refusal(number));
            format!("{wanted}: refused, {why}; the mark is at {index} all the same")
        }
        (Act::SendInTurn(index), _) => sent(moment, index.into()),
    }
}

/// Why a command was refused; of a Node ID that is in use, at which node; of a start, by which of its operands.
fn why(number: u64, moment: &Moment) -> String {
    let in_use = InUse::of(moment).map(|in_use| in_use.words());
    let bad_start = match moment.command() {
        Some(Command::Warm { flag, state, .. }) if number == BAD_START => {
            warm::why_refused(flag, state)
        }
        _ => None,
    };
    in_use.or(bad_start).unwrap_or_else(|| words::refusal(number).into())
}

/// What a command asks for.
fn wanted(command: &Command) -> String {
    match *command {
        Command::On { index, id } => {
            format!("power on node {index} with Node ID {}", dotted_id(id))
        }
        Command::Send { index } => format!("node {index} shall send"),
        Command::Fail { index } => format!("a send of node {index} shall fail"),
        Command::Deliver { index } => format!("node {index} shall take a frame from its inbox"),
        Command::Tick => "a tick".into(),
        Command::Foreign(frame) => format!("foreign {}", words::frame(&frame)),
        Command::Message { index, field, len, data } => {
            format!(
                "the host of node {index} orders message {field:04X}{}",
                message_data(len, &data)
            )
        }
        Command::Enquiry { index, len: 0, .. } => {
            format!("the host of node {index} orders an enquiry for all")
        }
        Command::Enquiry { index, len: 6, id } => {
            format!("the host of node {index} orders an enquiry for Node ID {}", dotted_id(id))
        }
        Command::Enquiry { index, len, .. } => {
            format!("the host of node {index} orders an enquiry of length {len}")
        }
        Command::Release { index } => format!("the host of node {index} releases its alias"),
        Command::Warm { index, id, flag, state } => {
            let (id, state) = (dotted_id(id), warm::state_digits(state));
            let how = if flag == WARM { "warm".into() } else { format!("by flag {flag}") };
            format!("power on node {index} {how}, state {state}, with Node ID {id}")
        }
    }
}

fn message_data(len: u8, data: &[u8; 8]) -> String {
    match len {
        0 => String::new(),
        1..=8 => format!(", data {}", joined(&data[..len.into()], ".")),
        _ => format!(", length {len}"),
    }
}

/// What a command that was accepted did, by what the nodes show before and after it.
fn done(command: &Command, moment: &Moment) -> String {
    let index = moment.node().unwrap_or(0);
    let (before, after) = (&moment.before[index], &moment.after[index]);
    match command {
        Command::On { .. } | Command::Warm { .. } => powered(command, before, after),
        Command::Send { .. } => sent(moment, index),
        Command::Fail { .. } => failed(moment, index),
        Command::Deliver { .. } => delivered(moment, index),
        Command::Tick => String::new(),
        Command::Foreign(_) => format!("{}: {}", wanted(command), joins(moment.joined())),
        Command::Message { .. } | Command::Enquiry { .. } => {
            let first = before.due.is_none();
            format!(
                "{}: it {}",
                wanted(command),
                if first { "is due" } else { "waits behind what is due" }
            )
        }
        Command::Release { .. } => {
            format!("{}: {}{}", wanted(command), words::standing(after), now_due(after))
        }
    }
}

/// What a link order says.
fn told(link: &Link) -> String {
    format!("the host of node {} tells it link state {}", link.index, link.state_name())
}

/// What a link order that was accepted did. A frame that waits behind the due one cannot be seen.
fn linked(moment: &Moment) -> String {
    let Some(Told { index, due, .. }) = Told::of(moment) else { return String::new() };
    let after = &moment.after[index];
    match (due, after.due) {
        (Some(frame), _) => format!("{} is due now", words::short(&frame)),
        _ if after.state != State::Permitted => {
            format!("the node is {}, and only remembers it", after.state.name())
        }
        (None, None) => "no frame is due".into(),
        (None, Some(frame)) if matches!(frame.sort(), Some(Sort::ErrorReport(_))) => {
            format!("{} stays due", words::short(&frame))
        }
        (None, Some(frame)) => {
            format!("{} stays due, and what waits behind it cannot be seen", words::short(&frame))
        }
    }
}

fn powered(command: &Command, before: &Seen, after: &Seen) -> String {
    let dropped = match before.inbox {
        0 => String::new(),
        frames => {
            format!("; {} dropped from its inbox", words::count(frames, "frame is", "frames are"))
        }
    };
    let again = if before.state == State::Off { "" } else { ", which was on" };
    let alias = match *command {
        Command::Warm { flag, state, .. } => warm::why_this_alias(flag, state),
        _ => String::new(),
    };
    let (wanted, standing, due) = (wanted(command), words::standing(after), now_due(after));
    format!("{wanted}{again}: {standing}{alias}{due}{dropped}")
}

fn sent(moment: &Moment, index: usize) -> String {
    let Answer::Sent(frame) = moment.played.answer else { return String::new() };
    let (before, after) = (&moment.before[index], &moment.after[index]);
    let change = if moment.restarted(index) {
        format!("; it starts again, {}{}", words::standing(after), now_due(after))
    } else if before.state != after.state {
        format!("; it is {}{}", words::standing(after), now_due(after))
    } else if after.due.is_none() && after.state == State::Testing {
        "; now it waits".into()
    } else {
        String::new()
    };
    format!("node {index} sends {}: {}{change}", words::frame(&frame), joins(moment.joined()))
}

fn failed(moment: &Moment, index: usize) -> String {
    let (before, after) = (&moment.before[index], &moment.after[index]);
    let frame = before.due.map_or("its frame".into(), |frame: Frame| words::frame(&frame));
    if moment.restarted(index) {
        format!(
            "node {index} could not send {frame}: it starts again, {}{}",
            words::standing(after),
            now_due(after)
        )
    } else {
        format!("node {index} could not send {frame}: it stays due")
    }
}

fn delivered(moment: &Moment, index: usize) -> String {
    let Some(arrival) = moment.delivered else { return format!("node {index} takes a frame") };
    let (before, after) = (&moment.before[index], &moment.after[index]);
    let effect = if moment.restarted(index) {
        format!("collision, it starts again, {}{}", words::standing(after), now_due(after))
    } else if before.state != after.state {
        format!("collision, it is {}{}", words::standing(after), now_due(after))
    } else if before.due != after.due {
        format!(
            "an answer to it is due{}",
            after.due.map_or(String::new(), |f| format!(", {}", words::short(&f)))
        )
    } else if before.state == State::Permitted && before.due.is_some() {
        "what is due stays as it was".into()
    } else {
        "no effect".into()
    };
    let from = words::sender(arrival.from);
    format!("node {index} takes {}, from {from}: {effect}", words::frame(&arrival.frame))
}

/// The frame that is due, for the end of a sentence.
fn now_due(seen: &Seen) -> String {
    seen.due.map_or(String::new(), |frame| format!("; {} is due", words::short(&frame)))
}

fn joins(inboxes: usize) -> String {
    match inboxes {
        0 => "it joins no inbox".into(),
        _ => format!("it joins {}", words::count(inboxes, "inbox", "inboxes")),
    }
}
