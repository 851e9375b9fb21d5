//! What the tool does for each wish: reads a script, and gives the text to print.

use std::fs;
use std::io::{self, IsTerminal, Read};
use std::path::Path;

use crate::card::Card;
use crate::expand::{expand, Expanded};
use crate::explain::Explain;
use crate::paint::Paint;
use crate::picture::{self, Record};
use crate::play::{self, Act, Played, LIMIT};
use crate::progress::Progress;
use crate::script::{self, Fault, Line};
use crate::summary::Summary;
use crate::usage::{Options, Wish, HELP};
use crate::watch::{Moment, Watch};
use crate::{listing, save, spell};

/// What went wrong: bad usage or a bad script; or an output that could not be written.
#[derive(Debug)]
pub enum Trouble {
    Script(String),
    Output(String),
}

/// Of wrong lines, so many are named.
const NAMED: usize = 10;

/// The bytes to print for a wish; notes go to standard error.
pub fn fulfil(wish: &Wish) -> Result<Vec<u8>, Trouble> {
    match wish {
        Wish::Help => Ok(HELP.into()),
        Wish::Hex(file) => Ok(listing::listing(&bytes_of(file)?.bytes).into()),
        Wish::Names(file) => {
            let script = script_of(file)?;
            Ok(spell::script(&script.bytes, &script.beside).into())
        }
        Wish::Bytes(file) => {
            let script = bytes_of(file)?;
            note_the_limit(&script);
            Ok(script.bytes)
        }
        Wish::Run(file, options) => {
            if let Some(name) = &options.save {
                save::may_write(name).map_err(Trouble::Script)?;
            }
            let script = script_of(file)?;
            note_the_limit(&script);
            run(&script, file, options).map(String::into_bytes)
        }
    }
}

/// What a script stands for.
fn script_of(file: &Path) -> Result<Expanded, Trouble> {
    lines_of(file).map(|lines| expand(&lines))
}

/// What a script stands for that is bytes alone.
fn bytes_of(file: &Path) -> Result<Expanded, Trouble> {
    let lines = lines_of(file)?;
    script::in_bytes(&lines).map_err(|faults| Trouble::Script(faults_text(file, &faults)))?;
    Ok(expand(&lines))
}

/// The lines of a script that can be read and has no wrong line.
fn lines_of(file: &Path) -> Result<Vec<Line>, Trouble> {
    let mut bytes = Vec::new();
    let read = if is_standard_input(file) {
        io::stdin().read_to_end(&mut bytes).map(|_| ())
    } else {
        fs::read(file).map(|found| bytes = found)
    };
    read.map_err(|why| Trouble::Script(format!("cannot read {}: {why}", name_of(file))))?;
    script::parse(&String::from_utf8_lossy(&bytes))
        .map_err(|faults| Trouble::Script(faults_text(file, &faults)))
}

fn is_standard_input(file: &Path) -> bool {
    file == Path::new("-")
}

/// How a script is called in what is said of it.
fn name_of(file: &Path) -> String {
    if is_standard_input(file) {
        "standard input".into()
    } else {
        file.display().to_string()
    }
}

fn faults_text(file: &Path, faults: &[Fault]) -> String {
    let name = name_of(file);
    let named = faults
        .iter()
        .take(NAMED)
        .map(|fault| format!("{name}: line {}: {}", fault.line, fault.why));
    let mut lines: Vec<String> = named.collect();
    if faults.len() > NAMED {
        lines.push(format!("{name}: and {} more wrong lines", faults.len() - NAMED));
    }
    lines.join("\n")
}

fn note_the_limit(script: &Expanded) {
    if script.bytes.len() > LIMIT {
        let (bytes, line) = (script.bytes.len(), script.line_of(LIMIT - 1));
        eprintln!("lcc: the script has {bytes} bytes, and the program uses the first {LIMIT}, which end in line {line}");
    }
}

fn run(script: &Expanded, file: &Path, options: &Options) -> Result<String, Trouble> {
    if *options == Options::default() {
        return Ok(plain(script));
    }
    let paint = Paint(io::stdout().is_terminal() && std::env::var_os("NO_COLOR").is_none());
    let mut explain = Explain::new(paint);
    let (mut summary, mut record) = (Summary::default(), Record::default());
    let mut lines = String::new();
    let card = watched(script, |moment| {
        if options.explain {
            explain.note(moment);
        } else {
            lines += &printed(&moment.played, options);
        }
        summary.note(moment);
        record.note(moment);
    });
    let last = play::last_line(&card);
    let mut text = match options {
        Options { explain: true, .. } => explain.end(last),
        Options { grid: true, .. } => lines,
        _ => lines + last + "\n",
    };
    if options.summary {
        text += &summary.text(&card, script, paint);
    }
    if let Some(picture) = &options.picture {
        let name = name_of(Path::new(file.file_name().unwrap_or_default()));
        write(picture, &picture::draw(&record, &name, last))?;
    }
    if let Some(name) = &options.save {
        write(name, &save::script(&card))?;
    }
    Ok(text)
}

fn write(file: &Path, text: &str) -> Result<(), Trouble> {
    fs::write(file, text)
        .map_err(|why| Trouble::Output(format!("cannot write {}: {why}", file.display())))
}

/// The line of a command; with --grid the frame that left by it, if one did.
fn printed(played: &Played, options: &Options) -> String {
    let line = if options.grid { play::text(played) } else { Some(play::line(played)) };
    line.map_or(String::new(), |line| line + "\n")
}

/// The lines of a run, and nothing else.
fn plain(script: &Expanded) -> String {
    let mut card = Card::new();
    let mut text = String::new();
    play::play(&script.bytes, &script.beside, &mut card, |played, _| {
        text += &(play::line(played) + "\n")
    });
    text + play::last_line(&card) + "\n"
}

/// Plays a script, and shows each moment of it; gives the card as it is left.
fn watched(script: &Expanded, mut show: impl FnMut(&Moment)) -> Card {
    let mut card = Card::new();
    let mut watch = Watch::default();
    let total = play::used(&script.bytes).len() + script.beside.len();
    let mut progress = Progress::new(total, "bytes, link orders and turns carried out");
    let mut beside = 0;
    play::play(&script.bytes, &script.beside, &mut card, |played, card| {
        beside += usize::from(matches!(played.act, Act::Link(_) | Act::Choice));
        progress.at(played.at + beside);
        show(&watch.look(played, card));
    });
    progress.end();
    card
}
