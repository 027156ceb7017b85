//! Bands with scalings of all kinds: at every end of a range, at the worked states, over a spread of states, on
//! both sides of where the gas root jumps, from one pressure to the next and from one scaling to the next, and for
//! some states with every scaling.

use super::split::{around, below_critical, changes, isotherm, last_before_change};
use super::states::{all_ends, any_state, at_every_fluid};
use super::{of_any_magnitude, spread_over, unit, worked};
use crate::call::Call;
use crate::comparison::{Comparison, Outcome};
use crate::workers::Unit;
use second::band::{LEAST, MOST, NONE};
use second::cubic::N;
use second::random::Random;
use second::state::{Fluid, FLUIDS, LOWEST_PRESSURE};

const PART: &str = "bands";

/// Of each unit of the spread: from anywhere, and where states are SPLIT.
const STATES: [usize; 2] = [600, 300];

/// Of each unit of falls, for either least fall.
const FALLS: usize = 15;

/// By how much the gas root falls at least from one scaling to the next: be it steadily, or by a jump.
const LEAST_FALLS: [u64; 2] = [0, N / 10];

const UNITS: u64 = 20;

/// From each fluid's lowest temperature up to the critical one.
const ISOTHERMS: u64 = 12;

/// Above every fluid's critical pressure at a scaling of 1.5, which is 1.5^(5/3) = 1.97 times that without.
pub const HIGHEST_SPLIT_WHEN_SCALED: u64 = 10_000_000;

/// The ends of the range, the scaling that changes nothing, their neighbours, and the least numbers.
const NEAR: [u64; 11] = [
    0,
    1,
    LEAST - 1,
    LEAST,
    LEAST + 1,
    NONE - 1,
    NONE,
    NONE + 1,
    MOST - 1,
    MOST,
    MOST + 1,
];

/// For each worked state.
const OF_ALL_MAGNITUDES: usize = 200;

pub fn units() -> Vec<Unit> {
    let mut units = Vec::from_iter(at_every_fluid(PART, ends));
    for state in worked() {
        units.push(unit(PART, move |comparison| {
            any_scalings(comparison, state)
        }));
        units.push(unit(PART, move |comparison| {
            every_scaling(comparison, state)
        }));
    }
    for seed in 0..UNITS {
        units.push(unit(PART, move |comparison| {
            spread_over(comparison, STATES, seed, some_bands)
        }));
        units.push(unit(PART, move |comparison| falls(comparison, seed)));
        units.push(unit(PART, move |comparison| {
            every_scaling_of_some(comparison, seed)
        }));
    }
    for which in 0..ISOTHERMS {
        units.push(unit(PART, move |comparison| edges(comparison, which)));
    }
    units
}

/// All combinations of the ends, with a itself; with each end a little out of range; out of order; with neither in
/// range; and with the widest band first and last, so that nothing kept from the state before passes.
fn ends(comparison: &mut Comparison, fluid: u64) -> Outcome {
    let bands = [
        [LEAST, MOST],
        [NONE, NONE],
        [LEAST - 1, MOST],
        [LEAST, MOST + 1],
        [NONE + 1, NONE],
        [0, u64::MAX],
        [LEAST, MOST],
    ];
    for state in all_ends(fluid) {
        ask(comparison, state, bands)?;
    }
    Ok(())
}

/// The scalings that are near in every order, each far one beside them and twice, and others of all magnitudes.
fn any_scalings(comparison: &mut Comparison, state: [u64; 3]) -> Outcome {
    ask(comparison, state, pairs(&NEAR))?;
    for far in far_scalings() {
        let bands = NEAR.into_iter().flat_map(|near| [[near, far], [far, near]]);
        ask(comparison, state, bands.chain([[far, far]]))?;
    }
    let mut random = Random(state[1] ^ state[2]);
    let mut any = || of_any_magnitude(&mut random);
    let bands: Vec<[u64; 2]> = (0..OF_ALL_MAGNITUDES).map(|_| [any(), any()]).collect();
    ask(comparison, state, bands)
}

/// Most are in range to whoever keeps the low bits, or takes the highest for a sign.
fn far_scalings() -> impl Iterator<Item = u64> {
    let powers = (11..64).map(|power| 1_u64 << power);
    let beside_powers = powers.flat_map(|power| [0, LEAST, NONE, MOST].map(|near| power + near));
    beside_powers.chain([1, LEAST, NONE, MOST].map(u64::wrapping_neg))
}

/// Two scalings in range, in each order and each alone; with a band that ends at a itself; and each beside one
/// that is out of range, little or far.
fn some_bands(comparison: &mut Comparison, state: [u64; 3], random: &mut Random) -> Outcome {
    let [one, other] = [(); 2].map(|()| LEAST + random.number() % (MOST - LEAST + 1));
    let (lower, upper) = (one.min(other), one.max(other));
    let above = MOST + 1 + random.magnitude(u64::MAX / 2);
    let below = random.number() % LEAST;
    let bands = [
        [lower, upper],
        [upper, lower],
        [lower, lower],
        [upper, upper],
        [one.min(NONE), one.max(NONE)],
        [lower, above],
        [above, upper],
        [below, upper],
        [lower, below],
    ];
    ask(comparison, state, bands)
}

/// The pressures on both sides of where the gas root jumps at a scaling, where most states have a jump at the next
/// scaling too. The widest falls that there are lie just above it for the largest scaling at the lowest
/// temperature, which is that of the first isotherm.
fn edges(comparison: &mut Comparison, which: u64) -> Outcome {
    for fluid in FLUIDS {
        let millikelvin = isotherm(fluid, [which, ISOTHERMS]);
        for scaling in [LEAST, NONE, MOST] {
            let edges = changes(|pascals| {
                let state = fluid.at([millikelvin, pascals]);
                above_a_third(root_at(comparison, state, scaling))
            });
            for pascals in edges.into_iter().flat_map(around) {
                beside(comparison, fluid.at([millikelvin, pascals]), scaling)?;
            }
        }
    }
    Ok(())
}

fn falls(comparison: &mut Comparison, seed: u64) -> Outcome {
    let mut random = Random(seed);
    for fluid in FLUIDS.into_iter().cycle().take(FALLS) {
        for least_fall in LEAST_FALLS {
            let (state, last) = falling(comparison, fluid, least_fall, &mut random);
            beside(comparison, state, last)?;
        }
    }
    Ok(())
}

/// The scalings on both sides of this one, and the ends, in every order.
fn beside(comparison: &mut Comparison, state: [u64; 3], scaling: u64) -> Outcome {
    let near = scaling - 2..=scaling + 2;
    let scalings: Vec<u64> = near.chain([LEAST, NONE, MOST]).collect();
    ask(comparison, state, pairs(&scalings))
}

/// A state whose gas root falls from above a third of N to below, and by so much at least from a scaling to the
/// next; and the last scaling before that.
fn falling(
    comparison: &mut Comparison,
    fluid: Fluid,
    least_fall: u64,
    random: &mut Random,
) -> ([u64; 3], u64) {
    loop {
        let state = perhaps_split_when_scaled(fluid, random);
        let mut root = |scaling| root_at(comparison, state, scaling);
        let mut side = |scaling| above_a_third(root(scaling));
        if let Some(last) = last_before_change(LEAST, MOST, &mut side) {
            if root(last) - root(last + 1) >= least_fall {
                return (state, last);
            }
        }
    }
}

/// Temperatures up to about the critical one at a scaling of 1.5, which is 1.5^(2/3) = 1.31 times as high, and
/// pressures of all magnitudes.
fn perhaps_split_when_scaled(fluid: Fluid, random: &mut Random) -> [u64; 3] {
    let hottest = fluid.critical_millikelvin + fluid.critical_millikelvin / 3;
    let millikelvin = fluid.coldest + random.number() % (hottest - fluid.coldest + 1);
    let pascals = LOWEST_PRESSURE + random.magnitude(HIGHEST_SPLIT_WHEN_SCALED - LOWEST_PRESSURE);
    fluid.at([millikelvin, pascals])
}

/// For each fluid a state from anywhere, one below the critical temperature, and two whose gas root falls far.
fn every_scaling_of_some(comparison: &mut Comparison, seed: u64) -> Outcome {
    let mut random = Random(seed);
    for fluid in FLUIDS {
        every_scaling(comparison, any_state(fluid, &mut random))?;
        every_scaling(comparison, below_critical(fluid, &mut random))?;
        for least_fall in LEAST_FALLS {
            let (state, _) = falling(comparison, fluid, least_fall, &mut random);
            every_scaling(comparison, state)?;
        }
    }
    Ok(())
}

/// Each scaling alone, and as either end of a band whose other end is that of the range. Roots that fall
/// throughout lie between those of any two ends; as `second` answers what the archive does, its own are looked
/// at.
fn every_scaling(comparison: &mut Comparison, state: [u64; 3]) -> Outcome {
    comparison.ask(Call::state(state))?;
    for scaling in LEAST..=MOST {
        let bands = [[scaling, scaling], [LEAST, scaling], [scaling, MOST]];
        ask(comparison, state, bands)?;
    }
    if comparison.second().reply(state).gas_root != root_at(comparison, state, NONE) {
        return Err(format!("{state:?} has another root at scaling {NONE}"));
    }
    let rises = |&scaling: &u64| {
        root_at(comparison, state, scaling) < root_at(comparison, state, scaling + 1)
    };
    match (LEAST..MOST).find(rises) {
        Some(scaling) => Err(format!("the gas root of {state:?} rises at {scaling}")),
        None => Ok(()),
    }
}

/// 1 or 0. Wherever the gas root jumps, it passes a third of N, for the reason that `split` has.
fn above_a_third(root: u64) -> u64 {
    u64::from(3 * root > N)
}

fn root_at(comparison: &mut Comparison, state: [u64; 3], scaling: u64) -> u64 {
    let band = comparison.second().band_reply(state, [scaling, scaling]);
    band.lower_root
}

/// All pairs of these, in both orders.
fn pairs(scalings: &[u64]) -> Vec<[u64; 2]> {
    let beside = |&first: &u64| scalings.iter().map(move |&second| [first, second]);
    scalings.iter().flat_map(beside).collect()
}

fn ask(
    comparison: &mut Comparison,
    state: [u64; 3],
    bands: impl IntoIterator<Item = [u64; 2]>,
) -> Outcome {
    for band in bands {
        comparison.ask(Call::band(state, band))?;
    }
    Ok(())
}
