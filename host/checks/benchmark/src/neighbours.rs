//! States that follow one another by small steps of temperature, as those of a tank that is watched: the proved call without a
//! book and with one, beside the job in doubles.

use crate::contenders::{ask_with_book, assert_unchanged, calls, split};
use crate::rounds::{interleaved_groups, pass, Compared, Pass};
use crate::{peer, proved};
use second::sheet::State;
use second::state::{Fluid, FLUIDS};
use woolyard::boundary::FIGURES;
use woolyard::BOOK_BYTES;

/// How many states of each fluid, how far apart, and at what pressure.
pub const STATES: usize = 1_000;
pub const STEP_MILLIKELVIN: u64 = 10;
pub const PASCALS: u64 = 2_000_000;

/// The coldest of each fluid, by its number.
const FIRST_MILLIKELVIN: [u64; FLUIDS.len()] = [40_000, 120_000, 100_000];

/// Of each fluid, all in the same rounds; and how many of its states are SPLIT.
pub struct Neighbours {
    pub of_fluids: [OfFluid; FLUIDS.len()],
    pub split: [usize; FLUIDS.len()],
}

/// The proved call beside the job in doubles.
pub struct OfFluid {
    pub without_book: Compared,
    pub with_book: Compared,
}

impl Neighbours {
    /// Also checks that no answer hangs on the book.
    pub fn measure() -> Neighbours {
        let lists = FLUIDS.map(|fluid| one_after_another(&fluid));
        lists.iter().for_each(|states| assert_on_one_slot(states));
        let rounds = interleaved_groups(lists.each_ref().map(|states| {
            [
                calls(states, proved::state),
                on_one_slot(states),
                calls(states, peer::state),
            ]
        }));
        Neighbours {
            of_fluids: rounds.map(|[without_book, with_book, peer]| OfFluid {
                without_book: Compared::new(without_book, peer.clone()),
                with_book: Compared::new(with_book, peer),
            }),
            split: lists.map(|states| split(&states)),
        }
    }
}

/// The temperature of a fluid's first state.
pub fn first_millikelvin(fluid: &Fluid) -> u64 {
    FIRST_MILLIKELVIN[fluid.number as usize]
}

fn one_after_another(fluid: &Fluid) -> Vec<State> {
    let first = first_millikelvin(fluid);
    let steps = (first..).step_by(STEP_MILLIKELVIN as usize);
    let states = steps.take(STATES).map(|millikelvin| State {
        fluid: fluid.number,
        millikelvin,
        pascals: PASCALS,
    });
    states.collect()
}

fn assert_on_one_slot(states: &[State]) {
    let mut book = [0; BOOK_BYTES];
    for state in states {
        assert_unchanged(state, &mut book);
    }
}

/// Zeros before the first call; before each other the slot holds what the call before left there.
fn on_one_slot(states: &[State]) -> Pass<'_> {
    let mut figures = [0; FIGURES];
    Box::new(move || {
        let mut book = [0; BOOK_BYTES];
        pass(states, |state| {
            ask_with_book(state, &mut book, &mut figures)
        })
    })
}
