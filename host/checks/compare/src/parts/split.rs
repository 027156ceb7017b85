//! Where states are SPLIT: a spread over that region, both sides of its edges, and its tip at the critical
//! point.

use super::states::every_form;
use super::{spread_over, unit, Asks};
use crate::comparison::{Comparison, Outcome};
use crate::workers::Unit;
use second::cubic::N;
use second::random::Random;
use second::state::{critical, Fluid, Reply, FLUIDS, HIGHEST_PRESSURE, LOWEST_PRESSURE};

const PART: &str = "split";

/// Of each unit.
const STATES: usize = 2100;
const ISOTHERMS: u64 = 6;

const UNITS: u64 = 12;

/// The isotherms of the tip lie 1, 2, 4 and so on to 4096 mK below the critical temperature.
const DOUBLINGS: u32 = 12;

/// No state is SPLIT above it, as every fluid's critical pressure is below.
const HIGHEST_SPLIT: u64 = 5_100_000;

pub fn units() -> Vec<Unit> {
    let mut units = Vec::new();
    for seed in 0..UNITS {
        units.push(unit(PART, move |comparison| {
            spread_over(comparison, [0, STATES], seed, every_form)
        }));
        units.push(unit(PART, move |comparison| edges(comparison, seed)));
    }
    units.push(unit(PART, |comparison| tip(comparison, every_form)));
    units
}

/// Temperatures below the critical one, nearer to it more often, and pressures of all magnitudes.
pub fn below_critical(fluid: Fluid, random: &mut Random) -> [u64; 3] {
    let critical = fluid.critical_millikelvin;
    let millikelvin = critical - random.magnitude(critical - fluid.coldest);
    let pascals = LOWEST_PRESSURE + random.magnitude(HIGHEST_SPLIT - LOWEST_PRESSURE);
    fluid.at([millikelvin, pascals])
}

fn edges(comparison: &mut Comparison, seed: u64) -> Outcome {
    let mut random = Random(seed);
    for fluid in FLUIDS {
        let critical = fluid.critical_millikelvin;
        for which in 0..ISOTHERMS {
            // evenly down from the critical temperature, other ones in each unit
            let part = which * UNITS + seed;
            let millikelvin = critical - (critical - fluid.coldest) * part / (ISOTHERMS * UNITS);
            let isotherm = [fluid.number, millikelvin];
            ask_around_edges(comparison, isotherm, &mut random, every_form)?;
        }
    }
    Ok(())
}

/// Both sides of each edge, on one of so many isotherms of each fluid, evenly up from the lowest temperature.
pub fn edges_on(comparison: &mut Comparison, [which, isotherms]: [u64; 2], ask: Asks) -> Outcome {
    let mut random = Random(which);
    for fluid in FLUIDS {
        let millikelvin = isotherm(fluid, [which, isotherms]);
        ask_around_edges(comparison, [fluid.number, millikelvin], &mut random, ask)?;
    }
    Ok(())
}

/// One of so many temperatures, evenly up from the lowest to below the critical one.
pub fn isotherm(fluid: Fluid, [which, isotherms]: [u64; 2]) -> u64 {
    fluid.coldest + (fluid.critical_millikelvin - fluid.coldest) * which / isotherms
}

/// Both sides of each edge of an isotherm.
fn ask_around_edges(
    comparison: &mut Comparison,
    [fluid, millikelvin]: [u64; 2],
    random: &mut Random,
    ask: Asks,
) -> Outcome {
    for edge in edges_of(comparison, [fluid, millikelvin]) {
        ask_around(comparison, [fluid, millikelvin, edge], random, ask)?;
    }
    Ok(())
}

/// The last pressure of the isotherm before each change of the kind.
fn edges_of(comparison: &mut Comparison, [fluid, millikelvin]: [u64; 2]) -> Vec<u64> {
    changes(|pascals| {
        let state = [fluid, millikelvin, pascals];
        comparison.second().reply(state).kind
    })
}

/// The last pressure before each change of the kind, wherever it changes between two of some pressures.
pub fn changes(mut kind: impl FnMut(u64) -> u64) -> Vec<u64> {
    let pressures = pressures();
    let pairs = pressures.windows(2);
    pairs
        .filter_map(|pair| last_before_change(pair[0], pair[1], &mut kind))
        .collect()
}

/// Both sides of an edge, of which this state is the last on the lower one.
fn ask_around(
    comparison: &mut Comparison,
    [fluid, millikelvin, edge]: [u64; 3],
    random: &mut Random,
    ask: Asks,
) -> Outcome {
    for pascals in around(edge) {
        ask(comparison, [fluid, millikelvin, pascals], random)?;
    }
    Ok(())
}

/// Pressures on both sides of an edge, some of them near.
pub fn around(edge: u64) -> impl Iterator<Item = u64> {
    let near = edge.saturating_sub(6)..=edge + 7;
    let far = [10, 100, 1000].map(|step| [edge.saturating_sub(step), edge + step]);
    near.chain(far.concat())
}

/// The nearer the critical point, the narrower the region, which no steps of pressure would meet, and the
/// less the roots of a SPLIT state differ.
pub fn tip(comparison: &mut Comparison, ask: Asks) -> Outcome {
    let mut random = Random(0);
    for fluid in FLUIDS {
        for doublings in 0..=DOUBLINGS {
            let millikelvin = fluid.critical_millikelvin - (1 << doublings);
            let isotherm = [fluid.number, millikelvin];
            let lower = last_above_a_third(comparison, isotherm, |reply| reply.dense_root);
            let upper = last_above_a_third(comparison, isotherm, |reply| reply.gas_root);
            for edge in [lower, upper] {
                ask_around(comparison, fluid.at([millikelvin, edge]), &mut random, ask)?;
            }
            for part in 1..8 {
                let between = lower + (upper - lower) * part / 8;
                ask(comparison, fluid.at([millikelvin, between]), &mut random)?;
            }
        }
        ask(
            comparison,
            fluid.at(fluid.states.hottest_split),
            &mut random,
        )?;
    }
    Ok(())
}

/// The last pressure at which this root is above a third of N. The cubic's three roots add up to N, and two
/// of them are one where a root jumps, so a third lies between what it jumps from and what it jumps to: for
/// the dense root at the lower edge, for the gas root at the upper.
fn last_above_a_third(
    comparison: &mut Comparison,
    [fluid, millikelvin]: [u64; 2],
    root: fn(&Reply) -> u64,
) -> u64 {
    let mut above = |pascals| {
        let reply = comparison.second().reply([fluid, millikelvin, pascals]);
        u64::from(3 * root(&reply) > N)
    };
    let highest = critical(fluid, millikelvin).pascals;
    let last = last_before_change(LOWEST_PRESSURE, highest, &mut above);
    last.expect("a root below a third at the critical pressure")
}

/// Steps of a twelfth up to where no state is SPLIT, and one far above.
fn pressures() -> Vec<u64> {
    let mut pressures = vec![LOWEST_PRESSURE];
    while let Some(&last) = pressures.last().filter(|&&last| last < HIGHEST_SPLIT) {
        pressures.push(last + last / 12);
    }
    pressures.push(HIGHEST_PRESSURE);
    pressures
}

/// The last number from `low` on with the kind of `low`, if `high` has another.
pub fn last_before_change(
    mut low: u64,
    mut high: u64,
    kind: &mut impl FnMut(u64) -> u64,
) -> Option<u64> {
    let first = kind(low);
    if kind(high) == first {
        return None;
    }
    while high - low > 1 {
        let middle = low + (high - low) / 2;
        if kind(middle) == first {
            low = middle;
        } else {
            high = middle;
        }
    }
    Some(low)
}

#[cfg(test)]
mod tests {
    use super::*;
    use crate::parts::bands::HIGHEST_SPLIT_WHEN_SCALED;

    #[test]
    fn pressures_above_the_critical_ones() {
        for fluid in FLUIDS {
            let critical = critical(fluid.number, fluid.critical_millikelvin).pascals;
            assert!(critical < HIGHEST_SPLIT);
            assert!(197 * critical < 100 * HIGHEST_SPLIT_WHEN_SCALED);
        }
    }
}
