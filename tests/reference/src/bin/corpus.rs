//! Writes the stored corpus of scripts and their outputs: `corpus DIR`.

use std::path::Path;
use std::{env, fs, io};

use reference::generate::corpus;

fn main() -> io::Result<()> {
    let dir = env::args().nth(1).expect("usage: corpus DIR");
    let scripts = corpus::scripts(corpus::SEED);
    let (input, output) = corpus::files(&scripts);
    fs::create_dir_all(&dir)?;
    fs::write(Path::new(&dir).join("stdin"), &input)?;
    fs::write(Path::new(&dir).join("stdout"), &output)?;
    println!("{} scripts, {} bytes in, {} bytes out", scripts.len(), input.len(), output.len());
    Ok(())
}
