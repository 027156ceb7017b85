//! What is compared, in pieces that the workers share out.

#[cfg(test)]
mod adding;
mod any_numbers;
mod arrivals;
mod arriving_lines;
mod arriving_reports;
mod bands;
mod books;
mod claim_lists;
mod claims;
mod cursors;
mod doubles;
mod heat_table;
mod journeys;
mod reported_sheets;
mod reports;
mod sheets;
mod sides;
mod split;
mod states;
mod viscosities;
mod walks;
mod writes;
mod written_again;

use crate::call::Call;
use crate::comparison::{Comparison, Outcome};
use crate::workers::Unit;
use second::random::Random;
use second::state::{Fluid, FLUIDS};
use split::below_critical;
use states::any_state;

/// No fluid has this number or a larger one.
const NO_FLUID: u64 = FLUIDS.len() as u64;

/// The papers' worked states, the refused ones among them.
fn worked() -> Vec<[u64; 3]> {
    let mut states = states_of(|fluid| fluid.states.worked);
    states.push([NO_FLUID, 0, 0]);
    states
}

/// A SPLIT state of each fluid.
fn split_states() -> [[u64; 3]; FLUIDS.len()] {
    FLUIDS.map(|fluid| fluid.at(fluid.states.split))
}

/// The worked states, and SPLIT ones of the fluids that have none among those.
fn worked_and_split() -> Vec<[u64; 3]> {
    let mut states = worked();
    let others = split_states();
    states.extend(others.iter().filter(|state| !worked().contains(state)));
    states
}

/// Of all fluids.
fn states_of(choice: fn(&Fluid) -> &'static [[u64; 2]]) -> Vec<[u64; 3]> {
    let of_fluid = |fluid: &'static Fluid| choice(fluid).iter().map(|&state| fluid.at(state));
    FLUIDS.iter().flat_map(of_fluid).collect()
}

/// No sides, though the third and fourth are gas and dense to whoever keeps 32 bits.
const NO_SIDES: [u64; 6] = [2, 3, 1 << 32, (1 << 32) + 1, 1 << 63, u64::MAX];

/// The quick parts first.
pub fn units() -> Vec<Unit> {
    let mut units = vec![unit("abi", |comparison| comparison.ask(Call::abi()))];
    units.extend(doubles::units());
    units.extend(heat_table::units());
    units.extend(viscosities::units());
    units.extend(sheets::units());
    units.extend(cursors::units());
    units.extend(writes::units());
    units.extend(written_again::units());
    units.extend(arrivals::units());
    units.extend(any_numbers::units());
    units.extend(reports::units());
    units.extend(sides::units());
    units.extend(books::units());
    units.extend(walks::units());
    units.extend(bands::units());
    units.extend(claims::units());
    units.extend(claim_lists::units());
    units.extend(states::units());
    units.extend(split::units());
    units
}

/// What is asked of a state, with what is drawn for it.
type Asks = fn(&mut Comparison, [u64; 3], &mut Random) -> Outcome;

/// So many states from anywhere in the ranges and so many below the critical temperatures, of each fluid in turn.
fn spread_over(
    comparison: &mut Comparison,
    [anywhere, below]: [usize; 2],
    seed: u64,
    ask: Asks,
) -> Outcome {
    let mut random = Random(seed);
    let fluids = || FLUIDS.into_iter().cycle();
    for fluid in fluids().take(anywhere) {
        let state = any_state(fluid, &mut random);
        ask(comparison, state, &mut random)?;
    }
    for fluid in fluids().take(below) {
        let state = below_critical(fluid, &mut random);
        ask(comparison, state, &mut random)?;
    }
    Ok(())
}

/// From 2^12 on, below which the parts ask for every number, and 0, from which it goes backwards to the largest.
fn powers_of_two() -> impl Iterator<Item = u64> {
    (12..64).map(|power| 1 << power).chain([0])
}

/// What lies so far from each of these, on either side.
fn beside(places: impl Iterator<Item = u64>, near: &'static [u64]) -> impl Iterator<Item = u64> {
    places.flat_map(move |place| {
        near.iter()
            .flat_map(move |&near| [place.wrapping_add(near), place.wrapping_sub(near)])
    })
}

/// All combinations of these, the first place changing quickest.
fn combinations<const COUNT: usize>(of: &[usize]) -> impl Iterator<Item = [usize; COUNT]> + '_ {
    let each = of.len();
    (0..each.pow(COUNT as u32)).map(move |combination| {
        std::array::from_fn(|place| of[combination / each.pow(place as u32) % each])
    })
}

fn of_all_magnitudes(count: usize, seed: u64) -> impl Iterator<Item = u64> {
    let mut random = Random(seed);
    (0..count).map(move |_| of_any_magnitude(&mut random))
}

fn of_any_magnitude(random: &mut Random) -> u64 {
    random.number() >> (random.number() % 64)
}

fn unit(
    part: &'static str,
    ask: impl Fn(&mut Comparison) -> Outcome + Send + Sync + 'static,
) -> Unit {
    let ask = Box::new(ask);
    Unit { part, ask }
}
