//! States of all kinds, each whole and by its sides, without a book and with one: document 01's, every end
//! of a range, and a spread over all temperatures and all magnitudes of pressure.

use super::books::{any_book, full_book};
use super::{spread_over, unit, worked, NO_FLUID};
use crate::call::Call;
use crate::comparison::{Comparison, Outcome};
use crate::workers::Unit;
use second::random::Random;
use second::state::{
    Fluid, BOOK_BYTES, BOOK_SLOTS, DENSE, FLUIDS, GAS, HIGHEST_PRESSURE, HOTTEST, LOWEST_PRESSURE,
};

const PART: &str = "states";

/// Of each unit of the spread.
const STATES: usize = 3000;
const UNITS: u64 = 72;

/// The fluids; the first numbers that are none; those that are fluids to whoever keeps 8 or 32 bits; and the last.
pub fn fluid_numbers() -> Vec<u64> {
    let fluids = FLUIDS.map(|fluid| fluid.number);
    let past = |first: u64| fluids.map(|fluid| first + fluid);
    let none = [NO_FLUID, NO_FLUID + 1];
    [
        &fluids[..],
        &none,
        &past(1 << 8),
        &past(1 << 32),
        &[u64::MAX],
    ]
    .concat()
}

/// The ends with their neighbours but for the lowest temperatures, and what is in range for whoever keeps 32 bits.
const TEMPERATURES: [u64; 13] = [
    0,
    1,
    300_000,
    HOTTEST - 2,
    HOTTEST - 1,
    HOTTEST,
    HOTTEST + 1,
    HOTTEST + 2,
    (1 << 32) - 1,
    1 << 32,
    (1 << 32) + 300_000,
    u64::MAX - 1,
    u64::MAX,
];

const PRESSURES: [u64; 18] = [
    0,
    1,
    9_998,
    9_999,
    10_000,
    10_001,
    1_000_000,
    49_999_998,
    49_999_999,
    50_000_000,
    50_000_001,
    50_000_002,
    (1 << 32) - 1,
    1 << 32,
    (1 << 32) + 1_000_000,
    1 << 63,
    u64::MAX - 1,
    u64::MAX,
];

pub fn units() -> Vec<Unit> {
    let mut units = vec![unit(PART, worked_points)];
    units.extend(at_every_fluid(PART, ends));
    units.extend((0..UNITS).map(|seed| {
        unit(PART, move |comparison| {
            spread_over(comparison, [STATES, 0], seed, every_form)
        })
    }));
    units
}

/// The whole state and each of its sides, without a book and with one, at any slot of it. The book is
/// empty, as a page begins with, or holds one number about as large as a root in every slot, or, as often
/// as both, anything.
pub fn every_form(comparison: &mut Comparison, state: [u64; 3], random: &mut Random) -> Outcome {
    comparison.ask(Call::state(state))?;
    let any = random.number();
    let book = match any % 4 {
        0 => vec![0; BOOK_BYTES],
        1 => full_book(any >> 47, BOOK_BYTES),
        _ => any_book(BOOK_BYTES, random),
    };
    let slot = (any >> 32) % BOOK_SLOTS as u64;
    comparison.ask(Call::state_with_book(state, slot, &book, BOOK_BYTES))?;
    for side in [GAS, DENSE] {
        comparison.ask(Call::side(state, side))?;
        comparison.ask(Call::side_with_book(state, side, slot, &book, BOOK_BYTES))?;
    }
    Ok(())
}

fn worked_points(comparison: &mut Comparison) -> Outcome {
    let mut random = Random(0);
    for state in worked() {
        every_form(comparison, state, &mut random)?;
    }
    Ok(())
}

fn ends(comparison: &mut Comparison, fluid: u64) -> Outcome {
    let mut random = Random(fluid);
    for state in all_ends(fluid) {
        every_form(comparison, state, &mut random)?;
    }
    Ok(())
}

/// One for each number that is a fluid's or might be taken for one.
pub fn at_every_fluid(
    part: &'static str,
    ask: fn(&mut Comparison, u64) -> Outcome,
) -> impl Iterator<Item = Unit> {
    let numbers = fluid_numbers().into_iter();
    numbers.map(move |fluid| unit(part, move |comparison| ask(comparison, fluid)))
}

/// All combinations of the ends of the ranges and what lies past them. A fluid's lowest temperature is asked of all.
pub fn all_ends(fluid: u64) -> impl Iterator<Item = [u64; 3]> {
    let coldest = FLUIDS.map(|fluid| fluid.coldest).into_iter();
    let beside_coldest = coldest.flat_map(|coldest| coldest - 2..=coldest + 1);
    TEMPERATURES
        .into_iter()
        .chain(beside_coldest)
        .flat_map(move |millikelvin| PRESSURES.map(move |pascals| [fluid, millikelvin, pascals]))
}

/// Half of the pressures of all magnitudes above the lowest, half of them anywhere; temperatures
/// likewise.
pub fn any_state(fluid: Fluid, random: &mut Random) -> [u64; 3] {
    let millikelvin = within(random, fluid.coldest, HOTTEST);
    let pascals = within(random, LOWEST_PRESSURE, HIGHEST_PRESSURE);
    fluid.at([millikelvin, pascals])
}

fn within(random: &mut Random, low: u64, high: u64) -> u64 {
    match random.number() % 2 {
        0 => low + random.magnitude(high - low),
        _ => low + random.number() % (high - low + 1),
    }
}
