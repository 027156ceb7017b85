//! Lists of several claims: with refused ones at every place, and of many; and lists of unequal lengths.

use super::claims::{ask, ask_told, claim, roots, Claim, PART};
use super::{combinations, split_states, unit, worked};
use crate::call::Call;
use crate::comparison::{Comparison, Outcome};
use crate::workers::Unit;
use second::random::Random;
use second::state::{DENSE, GAS, HIGHEST_PRESSURE, HOTTEST, LOWEST_PRESSURE};

/// Of lists of any length.
const UNITS: u64 = 20;

/// Lists up to this length are asked with refused claims at every place.
const SHORT: usize = 6;

/// So many claims or one more are few to whoever counts in 8 or 16 bits, or makes room for no more.
const LONG: [usize; 6] = [255, 256, 1000, 1024, 4096, 65_536];

/// Of each unit, and the most claims of one.
const ANY_LISTS: usize = 200;
const MOST_CLAIMS: usize = 256;

/// Asked in all combinations.
const LENGTHS: [usize; 4] = [0, 1, 2, 3];

pub fn units() -> Vec<Unit> {
    let mut units = vec![unit(PART, pairs)];
    for length in 0..=SHORT {
        units.push(unit(PART, move |comparison| several(comparison, length)));
    }
    units.push(unit(PART, unequal_lengths));
    for seed in 0..UNITS {
        units.push(unit(PART, move |comparison| any_lists(comparison, seed)));
    }
    for length in LONG {
        units.push(unit(PART, move |comparison| many(comparison, length)));
    }
    units
}

/// One that stands, and behind it any other about these states: so that nothing kept from the first passes.
fn pairs(comparison: &mut Comparison) -> Outcome {
    let standing = standing(comparison);
    let mut claims = Vec::new();
    for &[fluid, millikelvin, pascals, ..] in standing.iter().step_by(2) {
        let state = [fluid, millikelvin, pascals];
        let roots = roots(comparison, state).into_iter();
        claims.extend(roots.flat_map(|root| [GAS, DENSE, 2].map(|side| claim(state, side, root))));
    }
    for first in standing {
        for &second in &claims {
            ask(comparison, &[first, second])?;
        }
    }
    Ok(())
}

/// A list of claims that stand; with one of them refused, at each place and by each number; with another behind it,
/// likewise; and with all of them refused.
fn several(comparison: &mut Comparison, length: usize) -> Outcome {
    let standing: Vec<Claim> = standing(comparison).into_iter().take(length).collect();
    ask(comparison, &standing)?;
    for first in 0..length {
        for one in with_refused(&standing, first) {
            ask(comparison, &one)?;
            for two in (first + 1..length).flat_map(|second| with_refused(&one, second)) {
                ask(comparison, &two)?;
            }
        }
    }
    for first in 0..FAULTS {
        let faults = (0..FAULTS).cycle().skip(first);
        let all = standing.iter().zip(faults);
        let all: Vec<Claim> = all.map(|(&claim, fault)| refused(claim)[fault]).collect();
        ask(comparison, &all)?;
    }
    Ok(())
}

/// So many claims that stand, and one more; with one refused at the end, before it, in the midst and first; and with
/// each list one number shorter or longer than the others, much shorter, or alone.
fn many(comparison: &mut Comparison, length: usize) -> Outcome {
    let standing = standing(comparison).into_iter().cycle();
    let claims: Vec<Claim> = standing.take(length + 1).collect();
    ask(comparison, &claims[..length])?;
    ask(comparison, &claims)?;
    for place in [length, length - 1, length / 2, 0] {
        let [.., above, _] = refused(claims[place]);
        let mut claims = claims.clone();
        claims[place] = above;
        ask(comparison, &claims)?;
    }
    for which in 0..5 {
        for (one, others) in [
            (length, length + 1),
            (length + 1, length),
            (1, length + 1),
            (length, 0),
        ] {
            let mut lengths = [others; 5];
            lengths[which] = one;
            ask_told(comparison, &claims, lengths)?;
        }
    }
    Ok(())
}

/// Lists of any length, of claims that stand in any order but for three at most, which may lie anywhere.
fn any_lists(comparison: &mut Comparison, seed: u64) -> Outcome {
    let standing = standing(comparison);
    let mut random = Random(seed);
    let mut below = |end: usize| random.number() as usize % end;
    for _ in 0..ANY_LISTS {
        let length = 1 + below(MOST_CLAIMS);
        let mut claims: Vec<Claim> = (0..length)
            .map(|_| standing[below(standing.len())])
            .collect();
        for _ in 0..below(4) {
            let place = below(length);
            claims[place] = refused(claims[place])[below(FAULTS)];
        }
        ask(comparison, &claims)?;
    }
    Ok(())
}

/// All combinations of short lengths: of claims that stand, and of refused ones.
fn unequal_lengths(comparison: &mut Comparison) -> Outcome {
    let longest = LENGTHS.len();
    let standing: Vec<Claim> = standing(comparison).into_iter().take(longest).collect();
    let none: Vec<Claim> = standing.iter().map(|&claim| refused(claim)[0]).collect();
    for lengths in combinations(&LENGTHS) {
        for claims in [&standing, &none] {
            ask_told(comparison, claims, lengths)?;
        }
    }
    // lists that have no room for a number
    comparison.ask(Call::claims(&[], [0; 5]))
}

/// Claims for both sides of the worked states and of a SPLIT state of each fluid: all stand.
fn standing(comparison: &mut Comparison) -> Vec<Claim> {
    let mut claims = Vec::new();
    for state in split_states().into_iter().chain(worked()) {
        let whole = comparison.second().reply(state);
        if whole.number == 0 {
            claims.push(claim(state, GAS, whole.gas_root));
            claims.push(claim(state, DENSE, whole.dense_root));
        }
    }
    claims
}

const FAULTS: usize = 8;

/// What one that stands becomes by each fault, one for each refusal in their order and two for 14.
fn refused(standing: Claim) -> [Claim; FAULTS] {
    let [fluid, millikelvin, pascals, side, root] = standing;
    [
        [3, millikelvin, pascals, side, root],
        [fluid, 0, pascals, side, root],
        [fluid, HOTTEST + 1, pascals, side, root],
        [fluid, millikelvin, LOWEST_PRESSURE - 1, side, root],
        [fluid, millikelvin, HIGHEST_PRESSURE + 1, side, root],
        [fluid, millikelvin, pascals, 2, root],
        [fluid, millikelvin, pascals, side, root + 1],
        [fluid, millikelvin, pascals, side, root - 1],
    ]
}

/// The list with the claim at this place refused by each fault.
fn with_refused(claims: &[Claim], place: usize) -> [Vec<Claim>; FAULTS] {
    refused(claims[place]).map(|refused| {
        let mut claims = claims.to_vec();
        claims[place] = refused;
        claims
    })
}
