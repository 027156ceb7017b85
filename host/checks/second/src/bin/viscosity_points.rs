//! Makes the expected output of the program `viscosity_points` from what the program writes:
//!
//!     viscosity_points < WRITTEN > crates/viscosity_points/stdout
//!
//! From each line it takes the density alone, answers it anew in exact fractions, and writes the whole text
//! anew: the two texts are equal exactly where all answers are.

use second::viscosity::excess_factor;
use std::io::{self, BufWriter, Read, Write};

fn main() -> io::Result<()> {
    let mut text = String::new();
    io::stdin().read_to_string(&mut text)?;
    let mut out = BufWriter::new(io::stdout().lock());
    let mut densities = 0;
    for line in text.lines().take_while(|line| !line.ends_with("densities")) {
        let thousandths = density_of(line);
        let (number, factor) = match excess_factor(thousandths) {
            Ok(factor) => (0, factor),
            Err(number) => (number, 0),
        };
        writeln!(out, "{thousandths} {number} {factor}")?;
        densities += 1;
    }
    writeln!(out, "{densities} densities")
}

fn density_of(line: &str) -> u64 {
    let word = line.split(' ').next().expect("a density first");
    word.parse()
        .unwrap_or_else(|_| panic!("no number that fits: {word}"))
}
