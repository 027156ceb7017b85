//! The states that everything is measured on: the same in every run.

use second::random::Random;
use second::sheet::State;
use second::state::{Fluid, FLUIDS, HIGHEST_PRESSURE, HOTTEST, LOWEST_PRESSURE};

/// As many accepted states as asked for, of all fluids alike.
pub fn spread(count: usize, random: &mut Random) -> Vec<State> {
    (0..count).map(|_| accepted(random)).collect()
}

/// Those of one fluid, as a sheet's section has them.
pub fn of_fluid<'a>(states: &'a [State], fluid: &'a Fluid) -> impl Iterator<Item = State> + 'a {
    let states = states.iter().copied();
    states.filter(|state| state.fluid == fluid.number)
}

/// The pressure is log-uniform. The temperature is uniform, in one half of the states over the whole
/// range and in the other up to three times the coldest: that is not far above the critical
/// temperature of any fluid, so that SPLIT states, which nearly all lie below, are no rarity.
fn accepted(random: &mut Random) -> State {
    let fluid = random.number() as usize % FLUIDS.len();
    let Fluid {
        number, coldest, ..
    } = FLUIDS[fluid];
    let hottest = [3 * coldest, HOTTEST][random.number() as usize % 2];
    State {
        fluid: number,
        millikelvin: coldest + random.number() % (hottest - coldest + 1),
        pascals: log_uniform(LOWEST_PRESSURE, HIGHEST_PRESSURE, random),
    }
}

/// From `lowest` to `highest`, every decade as likely as any other.
fn log_uniform(lowest: u64, highest: u64, random: &mut Random) -> u64 {
    let part = random.number() as f64 / u64::MAX as f64;
    let number = lowest as f64 * (highest as f64 / lowest as f64).powf(part);
    (number as u64).clamp(lowest, highest)
}
