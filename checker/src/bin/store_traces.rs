//! Writes what `rt ci` holds the program `stored_traces` to. Run it in `checker/`:
//! `cargo run --offline --bin store_traces`

use checker::draw::stored::stored;
use std::fs;
use std::io;

fn main() -> io::Result<()> {
    let folder = concat!(env!("CARGO_MANIFEST_DIR"), "/../crates/stored_traces");
    let stored = stored();
    fs::write(format!("{folder}/stdin"), &stored.input)?;
    fs::write(format!("{folder}/stdout"), &stored.output)?;
    println!("{} traces", stored.traces.len());
    Ok(())
}
