//! The tool for the bench. `lcc --help` tells what it does.

use std::ffi::OsString;
use std::io::{self, ErrorKind, Write};
use std::process::ExitCode;

use lcc::actions::{fulfil, Trouble};
use lcc::usage;

fn main() -> ExitCode {
    let words: Vec<OsString> = std::env::args_os().skip(1).collect();
    let wish = match usage::parse(&words) {
        Ok(wish) => wish,
        Err(why) => return end(2, &format!("{why}\nlcc --help tells what it takes")),
    };
    let text = match fulfil(&wish) {
        Ok(text) => text,
        Err(Trouble::Script(why)) => return end(2, &why),
        Err(Trouble::Output(why)) => return end(1, &why),
    };
    match io::stdout().write_all(&text).and_then(|()| io::stdout().flush()) {
        // Whoever reads has read enough, as `head` does.
        Err(why) if why.kind() == ErrorKind::BrokenPipe => ExitCode::SUCCESS,
        Err(why) => end(1, &format!("cannot write: {why}")),
        Ok(()) => ExitCode::SUCCESS,
    }
}

fn end(status: u8, why: &str) -> ExitCode {
    for line in why.lines() {
        eprintln!("lcc: {line}");
    }
    ExitCode::from(status)
}
