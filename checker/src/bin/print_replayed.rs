//! What the program `pmc330_replay` should print for standard input, by the independent replay.
//! The stored outputs of the recordings in `examples/` were written by it.

use checker::board::replay::replayed;
use std::io::{self, Read, Write};

fn main() -> io::Result<()> {
    let mut input = Vec::new();
    io::stdin().read_to_end(&mut input)?;
    io::stdout().write_all(replayed(&input).as_bytes())
}
