//! The program `segment` as this implementation runs it: `segment < script`.

use std::io::{self, Read, Write};

use reference::script::{run_program, INPUT_MAX};

fn main() -> io::Result<()> {
    let mut input = Vec::new();
    io::stdin().take(INPUT_MAX as u64).read_to_end(&mut input)?;
    let mut output = Vec::new();
    run_program(&input, &mut output);
    io::stdout().write_all(&output)
}
