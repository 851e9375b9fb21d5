//! The words of the command line: what is wished for, or what is wrong with them.

use std::ffi::OsString;
use std::path::{Path, PathBuf};

pub const HELP: &str = include_str!("../help.txt");

#[derive(Clone, Debug, PartialEq, Eq)]
pub enum Wish {
    Help,
    Run(PathBuf, Options),
    Hex(PathBuf),
    Names(PathBuf),
    Bytes(PathBuf),
}

/// What is wished for besides the lines of a run, or in their place.
#[derive(Clone, Debug, Default, PartialEq, Eq)]
pub struct Options {
    pub explain: bool,
    pub summary: bool,
    pub picture: Option<PathBuf>,
    /// The frames that leave, and no lines.
    pub grid: bool,
    /// A script that brings the nodes back under their aliases.
    pub save: Option<PathBuf>,
}

/// What the first word can be.
const FIRST: &str = "run, hex, names or bytes";

/// The words after the first.
#[derive(Default)]
struct Rest {
    files: Vec<PathBuf>,
    options: Options,
}

/// What the words after the program's name wish for.
pub fn parse(words: &[OsString]) -> Result<Wish, String> {
    let mut before_files = words.iter().take_while(|word| *word != "--");
    if before_files.any(|word| word == "--help" || word == "-h") {
        return Ok(Wish::Help);
    }
    let Some((first, words)) = words.split_first() else {
        return Err(format!("a word is missing; expected {FIRST}, and a file"));
    };
    let first = first.to_string_lossy();
    if !["run", "hex", "names", "bytes"].contains(&first.as_ref()) {
        return Err(format!("\"{first}\" is nothing that lcc does; expected {FIRST}"));
    }
    let Rest { files, options } = rest(words)?;
    let file = one_file(&files)?;
    if first != "run" && options != Options::default() {
        return Err(format!(
            "{first} takes no option; --explain, --summary, --picture, --grid and --save are for run"
        ));
    }
    Ok(match first.as_ref() {
        "run" => Wish::Run(file, options),
        "hex" => Wish::Hex(file),
        "names" => Wish::Names(file),
        _ => Wish::Bytes(file),
    })
}

fn rest(words: &[OsString]) -> Result<Rest, String> {
    let mut rest = Rest::default();
    let mut words = words.iter();
    while let Some(word) = words.next() {
        match word.to_str() {
            Some("--") => rest.files.extend(words.by_ref().map(PathBuf::from)),
            Some("--explain") => rest.options.explain = true,
            Some("--summary") => rest.options.summary = true,
            Some("--grid") => rest.options.grid = true,
            Some("--picture") => named(&mut rest.options.picture, &PICTURE, words.next())?,
            Some("--save") => named(&mut rest.options.save, &SAVED, words.next())?,
            Some(option) if option.starts_with('-') && option != "-" => {
                let known =
                    "--explain, --summary, --picture OUT.svg, --grid, --save OUT.lcc or --help";
                return Err(format!("there is no option {option}; expected {known}"));
            }
            _ => rest.files.push(word.into()),
        }
    }
    if rest.options.grid && (rest.options.explain || rest.options.summary) {
        let why = "it prints frames alone, for a viewer to read";
        return Err(format!("--grid goes with neither --explain nor --summary: {why}"));
    }
    Ok(rest)
}

/// An option that is followed by the name of what it writes. The name has an end of its own, so that one that is left out is seen.
struct Written {
    option: &'static str,
    what: &'static str,
    end: &'static str,
}

/// No script ends so, and none is written over by mistake.
const PICTURE: Written = Written { option: "--picture", what: "picture", end: "svg" };
/// This is a script; which of them it may write over, `save` says.
const SAVED: Written = Written { option: "--save", what: "script", end: "lcc" };

fn named(
    place: &mut Option<PathBuf>,
    written: &Written,
    word: Option<&OsString>,
) -> Result<(), String> {
    let Written { option, what, end } = written;
    let ends_so = |name: &&OsString| {
        Path::new(name).extension().is_some_and(|found| found.eq_ignore_ascii_case(end))
    };
    let Some(name) = word.filter(ends_so) else {
        let found = word.map_or("nothing".into(), |name| format!("\"{}\"", name.display()));
        let expected = format!("the {what}'s name, which ends in .{end}");
        return Err(format!("{option} is followed by {found}; expected {expected}"));
    };
    if place.replace(name.into()).is_some() {
        return Err(format!("{option} is there twice; expected one {what}"));
    }
    Ok(())
}

fn one_file(files: &[PathBuf]) -> Result<PathBuf, String> {
    match files {
        [file] => Ok(file.clone()),
        [] => Err("the file is missing; expected one script".into()),
        [one, two, ..] => {
            let (one, two) = (one.display(), two.display());
            Err(format!("more than one file: {one} and {two}; expected one script"))
        }
    }
}
