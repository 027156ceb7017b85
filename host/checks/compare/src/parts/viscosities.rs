//! Reduced densities for the excess viscosity factor: every one of the range and beside it, and far ones.

use super::{beside, of_all_magnitudes, powers_of_two, unit};
use crate::call::Call;
use crate::comparison::{Comparison, Outcome};
use crate::workers::Unit;
use second::viscosity::{DENSEST, THINNEST};

const PART: &str = "viscosities";

/// Up to here every density is asked.
const LAST: u64 = 4000;

/// How far from a power of two, and from 0 backwards: what keeps the low bits, or takes the highest for a
/// sign, takes most of these for a density of the range.
const NEAR: [u64; 6] = [0, 1, THINNEST, 1000, DENSEST, DENSEST + 1];

const OF_ALL_MAGNITUDES: usize = 20_000;

pub fn units() -> Vec<Unit> {
    vec![
        unit(PART, |comparison| ask(comparison, 0..=LAST)),
        unit(PART, |comparison| {
            ask(comparison, beside(powers_of_two(), &NEAR))
        }),
        unit(PART, |comparison| {
            ask(comparison, of_all_magnitudes(OF_ALL_MAGNITUDES, 0))
        }),
    ]
}

fn ask(comparison: &mut Comparison, densities: impl Iterator<Item = u64>) -> Outcome {
    for thousandths in densities {
        comparison.ask(Call::viscosity(thousandths))?;
    }
    Ok(())
}
