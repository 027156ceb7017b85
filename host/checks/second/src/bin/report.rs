//! The program `report`: a state sheet from standard input, one page about it to standard output (document 02, C-21).

use second::page::print;
use std::io::{self, Read, Write};

fn main() -> io::Result<()> {
    let mut sheet = Vec::new();
    io::stdin().read_to_end(&mut sheet)?;
    io::stdout().write_all(print(&sheet).as_bytes())
}
