//! Temperatures for the heat table: every millikelvin of the range and beside it, and far ones; and how far the
//! double form lies from its entries.

use super::{beside, of_all_magnitudes, powers_of_two, unit};
use crate::call::Call;
use crate::comparison::{Comparison, Outcome};
use crate::workers::Unit;
use second::heat_table::{whole_kelvins, COLDEST};
use second::state::HOTTEST;

const PART: &str = "heat_table";

/// Up to here every temperature is asked, so many in each unit.
const LAST: u64 = HOTTEST + 5000;
const EACH: u64 = 50_000;

/// How far from a power of two, and from 0 backwards: what keeps the low bits of the millikelvins or of the
/// kelvins, or takes the highest for a sign, takes most of these for a temperature of the range.
const NEAR: [u64; 8] = [
    0,
    1,
    COLDEST - 1,
    COLDEST,
    41_500,
    300_000,
    HOTTEST,
    HOTTEST + 1,
];

const OF_ALL_MAGNITUDES: usize = 20_000;

/// The double form is wrong by less than so many J/(kg K).
const ERROR_OF_DOUBLES: f64 = 1e-9;

pub fn units() -> Vec<Unit> {
    let firsts = (0..=LAST).step_by(EACH as usize);
    let mut units: Vec<Unit> = firsts
        .map(|first| {
            let last = LAST.min(first + EACH - 1);
            unit(PART, move |comparison| ask(comparison, first..=last))
        })
        .collect();
    units.push(unit(PART, |comparison| ask(comparison, far())));
    units.push(unit(PART, |comparison| {
        ask(comparison, of_all_magnitudes(OF_ALL_MAGNITUDES, 0))
    }));
    units.push(unit(PART, beside_the_double_form));
    units
}

fn far() -> impl Iterator<Item = u64> {
    let kelvins = (10..=54).map(|power| 1000_u64 << power);
    beside(powers_of_two().chain(kelvins), &NEAR)
}

fn ask(comparison: &mut Comparison, temperatures: impl Iterator<Item = u64>) -> Outcome {
    for millikelvin in temperatures {
        comparison.ask(Call::heat_table(millikelvin))?;
    }
    Ok(())
}

/// At every whole kelvin.
fn beside_the_double_form(comparison: &mut Comparison) -> Outcome {
    let mut largest = (f64::NEG_INFINITY, 0);
    for kelvin in whole_kelvins() {
        let double = Call::heat((kelvin as f64).to_bits());
        let [double, entry] = comparison.answers([double, Call::heat_table(1000 * kelvin)])?;
        let heat = f64::from_bits(double.places[0]);
        let off = rounded_off(heat, entry.places[0])
            .map_err(|sentence| format!("at {kelvin} K {sentence}"))?;
        if off > largest.0 {
            largest = (off, kelvin);
        }
    }
    let (off, kelvin) = largest;
    comparison.tally.remark(format!(
        "1000 times woolyard_heat is above woolyard_heat_table by at most {off:.6}, at {kelvin} K"
    ));
    Ok(())
}

/// By how much the double form, in J/(kg K), is above the table's entry: from 0 to below 1, as the entry is
/// rounded down, but for the error of the doubles.
fn rounded_off(heat: f64, entry: u64) -> Result<f64, String> {
    let joules = 1000.0 * heat;
    let off = joules - entry as f64;
    if (-ERROR_OF_DOUBLES..1.0).contains(&off) {
        return Ok(off);
    }
    Err(format!(
        "1000 times woolyard_heat is {joules}, and woolyard_heat_table answers {entry}"
    ))
}

#[cfg(test)]
mod tests {
    use super::*;

    #[test]
    fn what_is_rounded_off() {
        assert!(rounded_off(10.3121, 10_312).is_ok_and(|off| (off - 0.1).abs() < 1e-9));
        assert!(rounded_off(10.312, 10_312).is_ok());
        assert!(rounded_off(10.312 - 1e-13, 10_312).is_ok());
        assert!(rounded_off(10.312 - 1e-11, 10_312).is_err());
        for entry in [0, 10_311, 10_313, u64::MAX] {
            assert!(rounded_off(10.3121, entry).is_err());
        }
        assert!(rounded_off(f64::NAN, 10_312).is_err());
    }
}
