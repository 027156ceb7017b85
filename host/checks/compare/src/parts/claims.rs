//! One claim, for what is a side or none, of roots that could be taken for the side's: at every end of a range, at the
//! worked states, over a spread of states, where states are SPLIT, on both sides of that region's edges and at its
//! tip; and for a SPLIT state of each fluid every root.

use super::split::{edges_on, last_before_change, tip};
use super::states::{all_ends, at_every_fluid};
use super::{
    beside, of_all_magnitudes, of_any_magnitude, split_states, spread_over, unit, worked_and_split,
    NO_SIDES,
};
use crate::call::Call;
use crate::comparison::{Comparison, Outcome};
use crate::workers::Unit;
use second::cubic::{g, N};
use second::random::Random;
use second::state::{accepted, Reduced, DENSE, GAS, SPLIT};

pub const PART: &str = "claims";

/// Of each unit of the spread: from anywhere, and where states are SPLIT.
const STATES: [usize; 2] = [300, 300];

const UNITS: u64 = 20;

/// From each fluid's lowest temperature up to the critical one.
const ISOTHERMS: u64 = 12;

/// How far from a root: nothing, a step, and what is nothing to whoever keeps 16, 17, 32 or 63 bits.
const NEAR: [u64; 6] = [0, 1, 1 << 16, 1 << 17, 1 << 32, 1 << 63];

/// Nothing, and every power of two, which is nothing to whoever loses that bit.
const POWERS: [u64; 65] = {
    let mut powers = [0; 65];
    let mut power = 0;
    while power < 64 {
        powers[1 + power] = 1 << power;
        power += 1;
    }
    powers
};

/// For each worked state.
const OF_ALL_MAGNITUDES: usize = 200;

/// Fluid, temperature, pressure, side and root.
pub type Claim = [u64; 5];

/// Lies behind the last claim of each list, where the function is not to look: it would be refused.
const BEHIND: Claim = [u64::MAX; 5];

pub fn units() -> Vec<Unit> {
    let mut units = Vec::from_iter(at_every_fluid(PART, ends));
    for state in worked_and_split() {
        units.push(unit(PART, move |comparison| any_claims(comparison, state)));
    }
    for state in split_states() {
        units.push(unit(PART, move |comparison| every_root(comparison, state)));
    }
    for seed in 0..UNITS {
        units.push(unit(PART, move |comparison| {
            spread_over(comparison, STATES, seed, near_roots)
        }));
    }
    for which in 0..ISOTHERMS {
        units.push(unit(PART, move |comparison| {
            edges_on(comparison, [which, ISOTHERMS], near_roots)
        }));
    }
    units.push(unit(PART, |comparison| tip(comparison, near_roots)));
    units
}

/// All combinations of the ends, with what is a side and what is none, and roots that stand or not.
fn ends(comparison: &mut Comparison, fluid: u64) -> Outcome {
    for state in all_ends(fluid) {
        let near = roots_beside(comparison, state, &[0, 1]);
        for root in near.into_iter().chain([u64::MAX - 1]) {
            for side in [GAS, DENSE, 2, u64::MAX] {
                ask(comparison, &[claim(state, side, root)])?;
            }
        }
    }
    Ok(())
}

/// Roots that could be taken for a side's and all that differ from one of these in one bit, for every side; roots of
/// all magnitudes; and sides of all magnitudes.
fn any_claims(comparison: &mut Comparison, state: [u64; 3]) -> Outcome {
    for root in roots_beside(comparison, state, &POWERS) {
        for side in [GAS, DENSE].into_iter().chain(NO_SIDES) {
            ask(comparison, &[claim(state, side, root)])?;
        }
    }
    let seed = state[1] ^ state[2];
    for root in of_all_magnitudes(OF_ALL_MAGNITUDES, seed) {
        for side in [GAS, DENSE] {
            ask(comparison, &[claim(state, side, root)])?;
        }
    }
    let own = roots(comparison, state);
    for side in of_all_magnitudes(OF_ALL_MAGNITUDES, seed) {
        for &root in &own {
            ask(comparison, &[claim(state, side, root)])?;
        }
    }
    Ok(())
}

/// For each side, up to where no crossing lies.
fn every_root(comparison: &mut Comparison, state: [u64; 3]) -> Outcome {
    let [fluid, millikelvin, pascals] = state;
    let b = accepted(fluid, millikelvin, pascals).map_or(0, |reduced| reduced.b);
    for root in 0..=N + b + 1 {
        for side in [GAS, DENSE] {
            ask(comparison, &[claim(state, side, root)])?;
        }
    }
    Ok(())
}

/// Roots that could be taken for a side's, for each side; and for a side that is neither one that stands and one that
/// does not.
fn near_roots(comparison: &mut Comparison, state: [u64; 3], random: &mut Random) -> Outcome {
    let any = of_any_magnitude(random);
    let near = roots_beside(comparison, state, &NEAR);
    for root in near.into_iter().chain([0, any, u64::MAX]) {
        for side in [GAS, DENSE] {
            ask(comparison, &[claim(state, side, root)])?;
        }
    }
    let neither = NO_SIDES[random.number() as usize % NO_SIDES.len()];
    for root in [roots(comparison, state)[0], any] {
        ask(comparison, &[claim(state, neither, root)])?;
    }
    Ok(())
}

/// What could be taken for a root: those of the sides, and in a SPLIT state also the place between them at which g
/// ceases to be positive, where the cubic's third root lies. For a refused state it is 0.
pub fn roots(comparison: &mut Comparison, state: [u64; 3]) -> Vec<u64> {
    let whole = comparison.second().reply(state);
    let mut roots = vec![whole.gas_root];
    if whole.kind == SPLIT {
        let [fluid, millikelvin, pascals] = state;
        let Reduced { a, b, .. } = accepted(fluid, millikelvin, pascals).expect("accepted");
        let mut positive = |z| u64::from(g(a, b, z) > 0);
        let last = last_before_change(whole.dense_root + 1, whole.gas_root, &mut positive);
        roots.extend([whole.dense_root, last.expect("a root between the two")]);
    }
    roots
}

/// What lies so far from each of these, each once.
fn roots_beside(comparison: &mut Comparison, state: [u64; 3], near: &'static [u64]) -> Vec<u64> {
    let mut found: Vec<u64> = beside(roots(comparison, state).into_iter(), near).collect();
    found.sort_unstable();
    found.dedup();
    found
}

pub fn claim([fluid, millikelvin, pascals]: [u64; 3], side: u64, root: u64) -> Claim {
    [fluid, millikelvin, pascals, side, root]
}

pub fn ask(comparison: &mut Comparison, claims: &[Claim]) -> Outcome {
    ask_told(comparison, claims, [claims.len(); 5])
}

/// Of each list the function is told of so many numbers.
pub fn ask_told(comparison: &mut Comparison, claims: &[Claim], lengths: [usize; 5]) -> Outcome {
    comparison.ask(Call::claims(&[claims, &[BEHIND]].concat(), lengths))
}

#[cfg(test)]
mod tests {
    use super::*;
    use crate::second_side::Second;

    /// Of a SPLIT state, of a ONE state, and of a refused one.
    #[test]
    fn what_could_be_taken_for_a_root() {
        let mut comparison = Comparison::new(Box::new(Second::default()));
        let mut of = |state| roots(&mut comparison, state);
        assert_eq!(of([1, 120_000, 500_000]), [92_696, 1699, 5604]);
        assert_eq!(of([1, 300_000, 1_000_000]), [99_286]);
        assert_eq!(of([1, 55_999, 500_000]), [0]);
    }
}
