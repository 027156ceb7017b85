//! Walks with limits of all kinds: at every end of a range, at the worked states, over a spread of states, where
//! states are SPLIT, and on both sides of the edges of that region.

use super::split::edges_on;
use super::states::{all_ends, at_every_fluid};
use super::{of_all_magnitudes, spread_over, unit, worked};
use crate::call::Call;
use crate::comparison::{Comparison, Outcome};
use crate::workers::Unit;
use second::random::Random;
use second::walk::ENOUGH;

const PART: &str = "walks";

/// Of each unit of the spread: from anywhere, and where states are SPLIT.
const STATES: [usize; 2] = [900, 300];

const UNITS: u64 = 20;

/// From each fluid's lowest temperature up to the critical one.
const ISOTHERMS: u64 = 20;

/// A walk of a worked state that takes no more values than this is asked for with every limit up to them, a
/// longer one with the last of these.
const SHORT: u64 = 10_000;
const LAST: u64 = 20;

/// For each worked state.
const OF_ALL_MAGNITUDES: usize = 200;

pub fn units() -> Vec<Unit> {
    let mut units = Vec::from_iter(at_every_fluid(PART, ends));
    for state in worked() {
        units.push(unit(PART, move |comparison| any_limits(comparison, state)));
    }
    units.extend((0..UNITS).map(|seed| {
        unit(PART, move |comparison| {
            spread_over(comparison, STATES, seed, beside_needed)
        })
    }));
    for which in 0..ISOTHERMS {
        units.push(unit(PART, move |comparison| edges(comparison, which)));
    }
    units
}

/// All combinations of the ends, with a limit that is enough for each walk, with the least ones, and with the
/// largest. As the first walk over a state ends, nothing kept from another state passes.
fn ends(comparison: &mut Comparison, fluid: u64) -> Outcome {
    for state in all_ends(fluid) {
        ask(comparison, state, [ENOUGH, 0, 1, u64::MAX])?;
    }
    Ok(())
}

/// Every limit up to one more than a short walk needs, those beside each power of two, and others of all
/// magnitudes.
fn any_limits(comparison: &mut Comparison, state: [u64; 3]) -> Outcome {
    let needed = comparison.second().whole_walk(state).values;
    let first = if needed > SHORT { needed - LAST } else { 0 };
    ask(comparison, state, first..=needed + 1)?;
    let powers = (1..64).map(|power| 1_u64 << power);
    let beside_powers = powers.flat_map(|power| [power - 1, power, power + 1]);
    ask(comparison, state, beside_powers)?;
    let any = of_all_magnitudes(OF_ALL_MAGNITUDES, state[1] ^ state[2]);
    ask(comparison, state, any)
}

/// Both sides of each edge. The longest walks that are known lie just above the upper one at the lowest
/// temperature, which is that of the first isotherm.
fn edges(comparison: &mut Comparison, which: u64) -> Outcome {
    edges_on(comparison, [which, ISOTHERMS], beside_needed)
}

/// What the walk needs, for the same reason first; limits on both sides of it; one that is enough for each
/// walk, though not to whoever loses its highest bit; the least and the largest.
fn beside_needed(comparison: &mut Comparison, state: [u64; 3], random: &mut Random) -> Outcome {
    let needed = comparison.second().whole_walk(state).values;
    let highest_bit = ENOUGH.next_power_of_two() << (random.number() % 47);
    let limits = [
        needed,
        needed.saturating_sub(1),
        needed + 1,
        highest_bit + random.number() % needed.max(1),
        0,
        1,
        u64::MAX,
    ];
    ask(comparison, state, limits)
}

fn ask(
    comparison: &mut Comparison,
    state: [u64; 3],
    limits: impl IntoIterator<Item = u64>,
) -> Outcome {
    for limit in limits {
        comparison.ask(Call::walk(state, limit))?;
    }
    Ok(())
}
