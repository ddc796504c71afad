//! What the program `pmc330_run` should print for standard input, by the independent player.
//! The stored outputs of `examples/` and of the program's own test were written by it.

use checker::board::trace::printed;
use std::io::{self, Read, Write};

fn main() -> io::Result<()> {
    let mut input = Vec::new();
    io::stdin().read_to_end(&mut input)?;
    io::stdout().write_all(printed(&input).as_bytes())
}
