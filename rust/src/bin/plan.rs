//! The planning program by the reference: one net from standard input, its plan on standard output.
//! Which of several placements with the same slack and load is printed is open, so another program
//! may print other `buffer` lines.

use std::io::{Read, Write};

fn main() -> std::io::Result<()> {
    let mut text = Vec::new();
    std::io::stdin().read_to_end(&mut text)?;
    std::io::stdout().write_all(zombrict::nets::program_output(&text).as_bytes())
}
