//! Who is timed, on what, and that all of them answer alike.

use crate::rounds::{beside, interleaved, pass, timing, Pass, Timing};
use crate::{peer, proved};
use second::random::Random;
use second::sheet::State;
use second::state::{bytes_of_slot, reply, SLOT_BYTES};
use std::hint::black_box;
use woolyard::boundary::{FIGURES, SIDE_FIGURES};
use woolyard::{Kind, Side, BOOK_BYTES};

/// The slot that every call with a book names.
const SLOT: usize = 17;

/// What a slot holds, as its bytes.
type Start = [u8; SLOT_BYTES];

/// What is written into the slot for each state, prepared before any clock runs: its own gas root,
/// that of another state, or zero.
pub struct Starts {
    own: Vec<Start>,
    strangers: Vec<Start>,
    zeros: Vec<Start>,
}

impl Starts {
    /// Also checks that no start changes an answer, and that the slot holds the gas root after it.
    pub fn new(states: &[State], random: &mut Random) -> Starts {
        let gas_root = |state| bytes_of_slot(proved::answer(state).gas_root);
        let own: Vec<Start> = states.iter().map(gas_root).collect();
        let mut any = || own[random.number() as usize % own.len()];
        let strangers: Vec<Start> = own.iter().map(|_| any()).collect();
        let zeros = vec![[0; SLOT_BYTES]; own.len()];
        for starts in [&own, &strangers, &zeros] {
            assert_starts(states, starts, &own);
        }
        Starts {
            own,
            strangers,
            zeros,
        }
    }
}

/// How many of the states are SPLIT.
pub fn split(states: &[State]) -> usize {
    let is_split = |state: &&State| proved::answer(state).kind == Kind::Split;
    states.iter().filter(is_split).count()
}

/// The bytes of the slot.
#[inline]
fn slot_of(book: &mut [u8; BOOK_BYTES]) -> &mut Start {
    let bytes = &mut book[SLOT_BYTES * SLOT..];
    bytes.first_chunk_mut().expect("a slot of the book")
}

fn assert_starts(states: &[State], starts: &[Start], gas_roots: &[Start]) {
    let mut book = [0; BOOK_BYTES];
    for ((state, start), gas_root) in states.iter().zip(starts).zip(gas_roots) {
        *slot_of(&mut book) = *start;
        assert_unchanged(state, &mut book);
        assert_eq!(slot_of(&mut book), gas_root, "{state:?}");
    }
}

/// That the call with the book answers what the call without does.
pub fn assert_unchanged(state: &State, book: &mut [u8; BOOK_BYTES]) {
    let [mut without, mut with] = [[0; FIGURES]; 2];
    let number = proved::state(state, &mut without);
    let number_with_book = proved::state_with_book(state, SLOT, book, &mut with);
    assert_eq!((number_with_book, with), (number, without), "{state:?}");
}

/// That each side alone is answered as in the whole call.
fn assert_sides(states: &[State]) {
    for state in states {
        let whole = proved::answer(state);
        for (side, expected) in [
            (Side::Gas, [whole.gas_root, whole.gas_density]),
            (Side::Dense, [whole.dense_root, whole.dense_density]),
        ] {
            let mut figures = [0; SIDE_FIGURES];
            let number = proved::side(state, side, &mut figures);
            assert_eq!((number, figures), (0, expected), "{state:?}, {side:?}");
        }
    }
}

/// Nanoseconds per state of each contender, and of either side beside the whole call, round by round.
pub struct Timings {
    pub call: Timing,
    pub gas_side: Timing,
    pub dense_side: Timing,
    pub own_start: Timing,
    pub strangers_start: Timing,
    pub zeros: Timing,
    pub peer: Timing,
    pub gas_beside_call: f64,
    pub dense_beside_call: f64,
}

impl Timings {
    pub fn measure(states: &[State], starts: &Starts) -> Timings {
        assert_sides(states);
        let rounds = interleaved([
            calls(states, proved::state),
            calls(states, |state, figures| {
                proved::side(state, Side::Gas, figures)
            }),
            calls(states, |state, figures| {
                proved::side(state, Side::Dense, figures)
            }),
            with_book(states, &starts.own),
            with_book(states, &starts.strangers),
            with_book(states, &starts.zeros),
            calls(states, peer::state),
        ]);
        let [of_call, of_gas_side, of_dense_side, ..] = &rounds;
        let gas_beside_call = beside(of_gas_side, of_call);
        let dense_beside_call = beside(of_dense_side, of_call);
        let [call, gas_side, dense_side, own_start, strangers_start, zeros, peer] =
            rounds.map(timing);
        Timings {
            call,
            gas_side,
            dense_side,
            own_start,
            strangers_start,
            zeros,
            peer,
            gas_beside_call,
            dense_beside_call,
        }
    }
}

/// Calls that write their figures, whole numbers or doubles.
pub fn calls<'a, Figure: Copy + Default + 'a, const COUNT: usize>(
    states: &'a [State],
    call: impl Fn(&State, &mut [Figure; COUNT]) -> u64 + 'a,
) -> Pass<'a> {
    let mut figures = [Figure::default(); COUNT];
    Box::new(move || {
        pass(states, |state| {
            black_box(call(state, &mut figures));
            black_box(&figures);
        })
    })
}

/// A start is written before each call, whatever it is, so that this costs the same for all.
fn with_book<'a>(states: &'a [State], starts: &'a [Start]) -> Pass<'a> {
    let mut figures = [0; FIGURES];
    let mut book = [0; BOOK_BYTES];
    Box::new(move || {
        let mut start = starts.iter();
        pass(states, |state| {
            *slot_of(&mut book) = *start.next().expect("a start for each state");
            ask_with_book(state, &mut book, &mut figures);
        })
    })
}

/// A timed call on the slot.
#[inline]
pub fn ask_with_book(state: &State, book: &mut [u8; BOOK_BYTES], figures: &mut [u64; FIGURES]) {
    black_box(proved::state_with_book(state, SLOT, book, figures));
    black_box(figures);
}

/// Nanoseconds per state of the plain scan, in one pass, since it takes long. Also checks that the
/// proved call answers the same.
pub fn scan(states: &[State]) -> f64 {
    states.iter().for_each(assert_scanned);
    pass(states, |state| {
        black_box(reply(state.fluid, state.millikelvin, state.pascals));
    })
}

fn assert_scanned(state: &State) {
    let mut figures = [0; FIGURES];
    let number = proved::state(state, &mut figures);
    let scanned = reply(state.fluid, state.millikelvin, state.pascals);
    let expected = (scanned.number, scanned.figures());
    assert_eq!((number, figures), expected, "{state:?}");
}
