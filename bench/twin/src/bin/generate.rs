//! Writes the random trace of a seed to standard output.

use std::io::{self, Write};
use twin::generate;
use twin::random::Random;

fn main() -> io::Result<()> {
    let seed = std::env::args().nth(1).and_then(|word| word.parse().ok());
    let Some(seed) = seed else {
        eprintln!("usage: generate SEED");
        std::process::exit(2);
    };
    io::stdout()
        .lock()
        .write_all(&generate::trace(&mut Random::new(seed)))
}
