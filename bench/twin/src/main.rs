//! Plays the trace on standard input.

use std::io::{self, Read, Write};

fn main() -> io::Result<()> {
    let mut trace = Vec::new();
    io::stdin().lock().read_to_end(&mut trace)?;
    io::stdout().lock().write_all(&twin::play(&trace))
}
