//! Sides of any number, together with all else that can be refused: a state, a slot, a book's length.

use super::books::{any_book, BEHIND, LENGTHS, SLOTS};
use super::states::{all_ends, at_every_fluid};
use super::{of_any_magnitude, split_states, unit, worked_and_split, NO_SIDES};
use crate::call::Call;
use crate::comparison::{Comparison, Outcome};
use crate::workers::Unit;
use second::random::Random;
use second::state::{BOOK_BYTES, BOOK_SLOTS, DENSE, GAS, HIGHEST_PRESSURE, HOTTEST};

const PART: &str = "sides";

/// For each of those states.
const ANY_SIDES: usize = 1000;

pub fn units() -> Vec<Unit> {
    let mut units = Vec::from_iter(at_every_fluid(PART, ends));
    for state in worked_and_split().into_iter().chain(refused()) {
        units.push(unit(PART, move |comparison| every_side(comparison, state)));
        units.push(unit(PART, move |comparison| any_sides(comparison, state)));
    }
    units
}

/// States of every fluid with the refusals that no worked one has.
fn refused() -> impl Iterator<Item = [u64; 3]> {
    split_states()
        .into_iter()
        .flat_map(|[fluid, millikelvin, pascals]| {
            [
                [fluid, HOTTEST + 1, u64::MAX],
                [fluid, u64::MAX, pascals],
                [fluid, millikelvin, HIGHEST_PRESSURE + 1],
            ]
        })
}

/// A side that is neither at all combinations of the ends of the ranges: without a book, with one at its
/// last slot, past it, and with one that is a byte too short.
fn ends(comparison: &mut Comparison, fluid: u64) -> Outcome {
    let mut random = Random(fluid);
    for state in all_ends(fluid) {
        for side in NO_SIDES {
            comparison.ask(Call::side(state, side))?;
            let book = any_book(BOOK_BYTES, &mut random);
            for (slot, length) in [(63, BOOK_BYTES), (64, BOOK_BYTES), (0, BOOK_BYTES - 1)] {
                comparison.ask(Call::side_with_book(state, side, slot, &book, length))?;
            }
        }
    }
    Ok(())
}

/// Gas, dense and what is neither with every length and slot.
fn every_side(comparison: &mut Comparison, state: [u64; 3]) -> Outcome {
    let mut random = Random(state[1] ^ state[2]);
    for length in LENGTHS {
        for slot in SLOTS {
            let book = any_book(length + BEHIND, &mut random);
            for side in [GAS, DENSE].into_iter().chain(NO_SIDES) {
                comparison.ask(Call::side_with_book(state, side, slot, &book, length))?;
            }
        }
    }
    Ok(())
}

/// Sides of all magnitudes, without a book and with one.
fn any_sides(comparison: &mut Comparison, state: [u64; 3]) -> Outcome {
    let mut random = Random(state[1] ^ state[2]);
    for _ in 0..ANY_SIDES {
        let side = of_any_magnitude(&mut random);
        let slot = random.number() % BOOK_SLOTS as u64;
        let book = any_book(BOOK_BYTES, &mut random);
        comparison.ask(Call::side(state, side))?;
        comparison.ask(Call::side_with_book(state, side, slot, &book, BOOK_BYTES))?;
    }
    Ok(())
}
