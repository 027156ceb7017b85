//! Makes the two files of the program `heat_points`:
//!
//!     heat_points list    > crates/heat_points/stdin
//!     heat_points answer  < crates/heat_points/stdin > crates/heat_points/stdout
//!
//! `list` chooses temperatures in kelvin, each the 64-bit pattern of a double, since a decimal could
//! tell neither one NaN from another nor every double from the next; `answer` answers each.

use second::heat::heat_capacity;
use second::heat_list::list;
use std::io::{self, BufWriter, Read, Write};

fn main() -> io::Result<()> {
    match std::env::args().nth(1).as_deref() {
        Some("list") => write_list(),
        Some("answer") => answer(),
        _ => {
            eprintln!("usage: heat_points list | heat_points answer");
            std::process::exit(2);
        }
    }
}

fn write_list() -> io::Result<()> {
    let mut out = BufWriter::new(io::stdout().lock());
    for pattern in list() {
        writeln!(out, "{pattern:016x}")?;
    }
    Ok(())
}

fn answer() -> io::Result<()> {
    let mut text = String::new();
    io::stdin().read_to_string(&mut text)?;
    let mut out = BufWriter::new(io::stdout().lock());
    for line in text.lines() {
        match heat_capacity(f64::from_bits(pattern_of(line))) {
            Ok(heat) => writeln!(out, "{line} {:016x}", heat.to_bits())?,
            Err(number) => writeln!(out, "{line} NO {number}")?,
        }
    }
    writeln!(out, "{} points", text.lines().count())
}

/// Written back and compared, since the parser also takes capitals, a sign and fewer digits.
fn pattern_of(line: &str) -> u64 {
    let pattern = u64::from_str_radix(line, 16).unwrap_or_else(|_| panic!("no pattern: {line}"));
    assert_eq!(format!("{pattern:016x}"), line, "16 lower-case digits");
    pattern
}
