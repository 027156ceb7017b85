//! The proved library, asked for the states of the second implementation.

use second::sheet::State;
use woolyard::boundary::{self, BAND_ROOTS, FIGURES, SIDE_FIGURES, WALK_FIGURES};
use woolyard::{Answer, Fluid, Side, BOOK_BYTES};

/// The reply's number; the figures are written.
#[inline]
pub fn state(state: &State, figures: &mut [u64; FIGURES]) -> u64 {
    boundary::state(state.fluid, state.millikelvin, state.pascals, figures)
}

/// The same with a book, which may hold anything.
#[inline]
pub fn state_with_book(
    state: &State,
    slot: usize,
    book: &mut [u8; BOOK_BYTES],
    figures: &mut [u64; FIGURES],
) -> u64 {
    let State {
        fluid,
        millikelvin,
        pascals,
    } = *state;
    boundary::state_with_book(fluid, millikelvin, pascals, slot as u64, book, figures)
}

/// The reply's number for one side alone; its root and density are written.
#[inline]
pub fn side(state: &State, side: Side, figures: &mut [u64; SIDE_FIGURES]) -> u64 {
    let State {
        fluid,
        millikelvin,
        pascals,
    } = *state;
    boundary::side(fluid, millikelvin, pascals, side.number(), figures)
}

/// Side 2, which there is not: an accepted state is refused by 12 after its roots are found and before any
/// density is.
#[inline]
pub fn without_densities(state: &State, figures: &mut [u64; SIDE_FIGURES]) -> u64 {
    boundary::side(state.fluid, state.millikelvin, state.pascals, 2, figures)
}

/// The number of the reply to a walk; the gas root and the count are written.
#[inline]
pub fn walk(state: &State, limit: u64, walked: &mut [u64; WALK_FIGURES]) -> u64 {
    boundary::walk(state.fluid, state.millikelvin, state.pascals, limit, walked)
}

/// The number of the reply to a band; the gas roots at both scalings are written.
#[inline]
pub fn band(state: &State, [lower, upper]: [u64; 2], roots: &mut [u64; BAND_ROOTS]) -> u64 {
    let State {
        fluid,
        millikelvin,
        pascals,
    } = *state;
    boundary::band(fluid, millikelvin, pascals, lower, upper, roots)
}

/// The number of the reply to lists of claims: fluids, temperatures, pressures, sides and roots. The number of the
/// refused claim is written.
#[inline]
pub fn claims([fluids, millikelvin, pascals, sides, roots]: [&[u64]; 5], claim: &mut u64) -> u64 {
    boundary::claims(fluids, millikelvin, pascals, sides, roots, claim)
}

/// The answer to a state that the library accepts.
pub fn answer(accepted: &State) -> Answer {
    let answer = Fluid::try_from(accepted.fluid)
        .and_then(|fluid| woolyard::state(fluid, accepted.millikelvin, accepted.pascals));
    answer.unwrap_or_else(|refusal| panic!("{accepted:?}: {refusal}"))
}
