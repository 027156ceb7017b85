//! Books that hold anything, of right and wrong lengths, and books that many calls share, of the whole form
//! and of the one that names a side, beside the books of numbers that document 01 had before C-19.

use super::{states_of, unit, worked, NO_SIDES};
use crate::call::Call;
use crate::comparison::{Comparison, Outcome};
use crate::workers::Unit;
use second::cubic::N;
use second::random::Random;
use second::state::{
    bytes_of_slot, critical, numbers_of_slots, put_into_book, put_into_numbers, put_side_into_book,
    reduced, side_of, BOOK_BYTES, BOOK_SLOTS, DENSE, GAS, SLOT_BYTES,
};

const PART: &str = "books";

/// A byte and a slot too short and too long, as many bytes as a book has slots, as many as its slots take
/// with four to each, and what is 192 to whoever keeps 8 bits.
pub const LENGTHS: [usize; 12] = [0, 1, 2, 64, 189, 191, 192, 193, 195, 256, 448, 1000];

/// On both sides of the last slot; what is one to whoever keeps 8 or 32 bits of it; and two whose first
/// byte lies in the book to whoever keeps 32 or 64 bits of its place.
pub const SLOTS: [u64; 13] = [
    0,
    1,
    62,
    63,
    64,
    65,
    256,
    1 << 32,
    (1 << 32) + 1,
    (1 << 32) / 3 + 1,
    u64::MAX / 3 + 1,
    1 << 63,
    u64::MAX,
];

/// Past the told length, so that what is written there shows: to whoever takes four bytes to a slot, the
/// last one ends with them.
pub const BEHIND: usize = BOOK_SLOTS;

const CHAINS: u64 = 8;
const CALLS_OF_A_CHAIN: usize = 8000;

pub fn units() -> Vec<Unit> {
    let mut units = Vec::new();
    for state in states() {
        units.push(unit(PART, move |comparison| every_start(comparison, state)));
        units.push(unit(PART, move |comparison| every_slot(comparison, state)));
    }
    units.extend((0..CHAINS).map(|seed| unit(PART, move |comparison| chain(comparison, seed))));
    units
}

/// The worked ones, and others of all fluids.
fn states() -> Vec<[u64; 3]> {
    [worked(), states_of(|fluid| fluid.states.others)].concat()
}

/// Every length and slot with every starting point that could mislead, in the slot alone among other
/// junk, and in the whole book.
fn every_start(comparison: &mut Comparison, state: [u64; 3]) -> Outcome {
    let mut random = Random(state[1] ^ state[2]);
    let starts = starting_points(comparison, state, &mut random);
    for length in LENGTHS {
        for slot in SLOTS {
            for &start in &starts {
                let book = full_book(start, length + BEHIND);
                every_form(comparison, state, slot, &book, length)?;
                let mut book = any_book(length + BEHIND, &mut random);
                if let Some(bytes) = book.chunks_exact_mut(SLOT_BYTES).nth(slot as usize) {
                    bytes.copy_from_slice(&bytes_of_slot(start));
                }
                every_form(comparison, state, slot, &book, length)?;
            }
        }
    }
    Ok(())
}

/// Any bytes, at every slot from the first to the one past the last.
fn every_slot(comparison: &mut Comparison, state: [u64; 3]) -> Outcome {
    let mut random = Random(state[1] ^ state[2]);
    for length in LENGTHS {
        for slot in 0..=BOOK_SLOTS as u64 {
            let book = any_book(length + BEHIND, &mut random);
            every_form(comparison, state, slot, &book, length)?;
        }
    }
    Ok(())
}

/// The same number in every slot.
pub fn full_book(number: u64, length: usize) -> Vec<u8> {
    let bytes = bytes_of_slot(number).into_iter();
    bytes.cycle().take(length).collect()
}

pub fn any_book(length: usize, random: &mut Random) -> Vec<u8> {
    (0..length).map(|_| random.number() as u8).collect()
}

/// The whole state and each of its sides, from the same book.
fn every_form(
    comparison: &mut Comparison,
    state: [u64; 3],
    slot: u64,
    book: &[u8],
    length: usize,
) -> Outcome {
    comparison.ask(Call::state_with_book(state, slot, book, length))?;
    for side in [GAS, DENSE] {
        comparison.ask(Call::side_with_book(state, side, slot, book, length))?;
    }
    Ok(())
}

/// Nothing, the roots and their neighbours, the gas root but for one byte, a stranger's roots, the middle of
/// the grid, its upper end and beyond, the end of three bytes, and any numbers that fit them.
fn starting_points(comparison: &mut Comparison, state: [u64; 3], random: &mut Random) -> Vec<u64> {
    let mut starts = vec![
        0,
        1,
        1699,
        33_333,
        50_000,
        92_696,
        1 << 23,
        (1 << 24) - 2,
        (1 << 24) - 1,
    ];
    let reply = comparison.second().reply(state);
    if reply.number == 0 {
        let [fluid, millikelvin, pascals] = state;
        let b = reduced(&critical(fluid, millikelvin), millikelvin, pascals).b;
        for place in [reply.gas_root, reply.dense_root, b, N + b, 2 * (N + b)] {
            starts.extend([place.saturating_sub(1), place, place + 1]);
        }
        starts.extend([1, 1 << 8, 1 << 16].map(|one| reply.gas_root ^ one));
    }
    starts.extend([(); 4].map(|()| random.number() >> 40));
    starts
}

/// Calls of both forms on one book, as a page makes them: each finds what those before it wrote. Beside it
/// a book of numbers is kept, which begins with the same ones, slot for slot. After every call both hold
/// the same, and both are answered or refused by the same number.
fn chain(comparison: &mut Comparison, seed: u64) -> Outcome {
    let mut random = Random(seed);
    let mut book = [(); BOOK_BYTES].map(|()| random.number() as u8);
    let mut numbers = numbers_of_slots(&book);
    for _ in 0..CALLS_OF_A_CHAIN {
        let (state, side, slot) = any_question(&mut random);
        let whole = comparison.second().reply(state);
        let (without, with_bytes) = match side {
            None => {
                comparison.ask(Call::state_with_book(state, slot, &book, BOOK_BYTES))?;
                let reply = put_into_book(whole, slot, &mut book);
                (whole.number, reply.number)
            }
            Some(side) => {
                comparison.ask(Call::side_with_book(state, side, slot, &book, BOOK_BYTES))?;
                let reply = put_side_into_book(whole, side, slot, &mut book);
                (side_of(whole, side).number, reply.number)
            }
        };
        let with_numbers = put_into_numbers(without, whole.gas_root, slot, &mut numbers);
        let held = numbers_of_slots(&book);
        if (with_bytes, held) != (with_numbers, numbers) {
            return Err(format!(
                "{state:?}, side {side:?}, slot {slot}: with a book of bytes {with_bytes}, which holds \
                 {held:?}; with one of numbers {with_numbers} and {numbers:?}"
            ));
        }
    }
    Ok(())
}

/// A state, a side where one is named, and a slot: some of each are refused.
fn any_question(random: &mut Random) -> ([u64; 3], Option<u64>, u64) {
    let any = random.number();
    let states = states();
    let mut state = states[any as usize % states.len()];
    // a small step away, as from one reading to the next
    state[2] += any >> 60;
    let slot = (any >> 32) % (BOOK_SLOTS as u64 + 4);
    let neither = NO_SIDES[random.number() as usize % NO_SIDES.len()];
    let side = [None, Some(GAS), Some(DENSE), Some(neither)][random.number() as usize % 4];
    (state, side, slot)
}
