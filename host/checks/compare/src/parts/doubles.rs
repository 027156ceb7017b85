//! Temperatures for the heat capacity, compared by their bits.

use super::unit;
use crate::call::Call;
use crate::comparison::{Comparison, Outcome};
use crate::workers::Unit;
use second::heat_list::{any_pattern, list, near_the_ends, spread, List};
use second::random::Random;

const PART: &str = "doubles";

const UNITS: u64 = 8;

pub fn units() -> Vec<Unit> {
    let mut units = vec![unit(PART, |comparison| ask(comparison, list()))];
    units.extend((0..UNITS).map(|seed| unit(PART, move |comparison| more(comparison, seed))));
    units
}

/// Over each row of Table 4, near the ends of the rows, and of every kind.
fn more(comparison: &mut Comparison, seed: u64) -> Outcome {
    let mut random = Random(seed);
    let mut temperatures = List::default();
    spread(&mut temperatures, &mut random, [500, 5000, 5000, 5000]);
    near_the_ends(&mut temperatures, &mut random, 300);
    any_pattern(&mut temperatures, &mut random, 2500);
    ask(comparison, temperatures.patterns)
}

fn ask(comparison: &mut Comparison, patterns: Vec<u64>) -> Outcome {
    for pattern in patterns {
        comparison.ask(Call::heat(pattern))?;
    }
    Ok(())
}
