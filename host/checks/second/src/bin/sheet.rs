//! Document 01's program `sheet`: a state sheet from standard input, its answers to standard output.

use second::sheet::print;
use std::io::{self, Read, Write};

fn main() -> io::Result<()> {
    let mut sheet = Vec::new();
    io::stdin().read_to_end(&mut sheet)?;
    io::stdout().write_all(print(&sheet).as_bytes())
}
