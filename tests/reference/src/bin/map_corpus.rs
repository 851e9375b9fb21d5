//! Writes the stored corpus of map operations and their answers: `map_corpus DIR`.

use std::path::Path;
use std::{env, fs, io};

use reference::generate::{corpus, map_corpus};

fn main() -> io::Result<()> {
    let dir = env::args().nth(1).expect("usage: map_corpus DIR");
    let ops = map_corpus::ops(corpus::SEED);
    let (input, output) = map_corpus::files(&ops);
    fs::create_dir_all(&dir)?;
    fs::write(Path::new(&dir).join("stdin"), &input)?;
    fs::write(Path::new(&dir).join("stdout"), &output)?;
    println!("{} operations, {} bytes in, {} bytes out", ops.len(), input.len(), output.len());
    Ok(())
}
