//! The lines by which a next run powers the nodes on under the aliases that they had (request A.9), and the script of these lines
//! that --save writes.

use std::fs;
use std::io::ErrorKind;
use std::path::Path;

use crate::card::{Card, ReadOut, PLACES};
use crate::command::Command;
use crate::expand::expand;
use crate::warm::WARM;
use crate::{play, script, spell};

const ABOUT: &str = "# Written by --save: the exhibits as a run left them. Each starts with the alias that it had, which is named\n\
                     # behind its line, and tests it again: by warm where its first alias is past, by on where it is not.\n\
                     # To see what happens then, put lines behind these: cat THIS.lcc more.lcc | ./run - --summary\n";
const NOBODY_ON: &str = "# No node was on.\n";

/// Where the aliases stand, behind the longest line.
const COLUMN: usize = 40;

/// A line for each node that is on: what is read out of it, given back.
pub fn lines(card: &Card) -> Vec<String> {
    let commands = (0..PLACES).filter_map(|index| given_back(card, index));
    let line = |command: Command| {
        let (line, alias) = (spell::line(&command), alias_by(&command));
        format!("{line:COLUMN$}# alias {alias:03X}")
    };
    commands.map(line).collect()
}

/// The power-on of a node as it was read out: warm where its first alias is past.
fn given_back(card: &Card, index: usize) -> Option<Command> {
    let ReadOut { state, past } = card.read_out(index)?;
    let (id, index) = (card.look(index).id, index as u8);
    Some(if past {
        Command::Warm { index, id, flag: WARM, state }
    } else {
        Command::On { index, id }
    })
}

/// The alias that a power-on brings, as a new card shows it.
fn alias_by(command: &Command) -> u16 {
    let mut card = Card::new();
    card.carry_out(command);
    card.look(command.index().unwrap_or(0).into()).alias
}

/// The whole script.
pub fn script(card: &Card) -> String {
    let lines: String = lines(card).into_iter().map(|line| line + "\n").collect();
    let lines = if lines.is_empty() { NOBODY_ON.into() } else { lines };
    format!("{ABOUT}{lines}")
}

/// Whether the script may be written under this name: there is no such file, or it is as --save has written it.
pub fn may_write(name: &Path) -> Result<(), String> {
    let (right, file) = ("expected a new name, or a file as --save has written it", name.display());
    match fs::read(name) {
        Err(why) if why.kind() == ErrorKind::NotFound => Ok(()),
        Err(why) => Err(format!("cannot read {file}: {why}; {right}")),
        Ok(found) if is_saved(&found) => Ok(()),
        Ok(_) => Err(format!(
            "{file} is there already, and --save has not written it, or lines were changed since; {right}"
        )),
    }
}

/// Whether a file holds what --save writes, and nothing else: played and saved again it is the same.
fn is_saved(found: &[u8]) -> bool {
    let text = String::from_utf8_lossy(found);
    let lines = text.starts_with(ABOUT).then(|| script::parse(&text));
    let Some(Ok(lines)) = lines else { return false };
    let (expanded, mut card) = (expand(&lines), Card::new());
    play::play(&expanded.bytes, &expanded.beside, &mut card, |_, _| {});
    text == script(&card)
}
