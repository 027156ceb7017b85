//! Any numbers in the place of those that are kept between two parts of a sheet. What they mean is the archive's own to
//! say; but two parts one after the other must be answered, and leave, what both together do.

use super::arrivals::PART;
use super::arriving_lines::Lines;
use super::journeys::{arrive, everywhere, Asked, Sent};
use super::{beside, of_any_magnitude, powers_of_two, unit};
use crate::call::{Call, LINE};
use crate::comparison::{Comparison, Outcome};
use crate::workers::Unit;
use second::arrival::WIDEST_LINE;
use second::random::Random;
use second::sheet::{EXAMPLE, LARGEST_COUNT, LONGEST, SECTIONS, TEN_NINES};
use second::sheet_list::{any_text, lines_in_any_order, one_of, List};

const UNITS: u64 = 8;

/// Of each unit.
const ANY: usize = 700;

/// Numbers that a reader of parts may have to do with: how many digits and bytes, how many lines and states, how much a
/// number can be.
const BOUNDS: [u64; 10] = [
    10,
    WIDEST_LINE as u64,
    100,
    LARGEST_COUNT,
    2 * LARGEST_COUNT,
    SECTIONS as u64 * LARGEST_COUNT,
    LONGEST as u64,
    1_000_000_000,
    TEN_NINES,
    u64::MAX / 10,
];

/// How far from those and from powers of two.
const NEAR: [u64; 3] = [0, 1, 2];

/// Of a sheet whose beginning was kept, so many come next.
const NEXT_BYTES: usize = 25;

/// A sheet with lines of every width, and with some of its states in range.
pub const SHEET: &[u8] =
    b"2\n9999999999 9999999999\n300000 1000000\n1\n120000 500000\n2\n0 1\n90000 300000\n";

/// What is done with sheets that are sent from any numbers.
type Ask<A> = fn(&mut Comparison, Vec<Sent<A>>) -> Outcome;

pub fn units() -> Vec<Unit> {
    units_of(PART, 1, ask_with_states)
}

/// The same with something else asked of every part. Of the changes of one number, one in so many is tried.
pub fn units_of<A: Asked + 'static>(part: &'static str, tried: u64, ask: Ask<A>) -> Vec<Unit> {
    let mut units = Vec::new();
    for seed in 0..UNITS {
        units.push(unit(part, move |comparison| {
            any_numbers(comparison, seed, ask)
        }));
    }
    for place in 0..A::KEPT {
        units.push(unit(part, move |comparison| {
            one_changed(comparison, place, tried, ask)
        }));
    }
    units
}

/// Of all magnitudes, small ones, and what lies beside bounds, with lines in any order or any text. How many of them are
/// small differs, and the first mostly is, as it may say what the others mean.
fn any_numbers<A: Asked>(comparison: &mut Comparison, seed: u64, ask: Ask<A>) -> Outcome {
    let mut random = Random(seed);
    let mut texts = List::default();
    lines_in_any_order(&mut texts, &mut random, ANY);
    any_text(&mut texts, &mut random, ANY * 20);
    let beside_bounds = beside_bounds();
    let sent = texts.sheets.iter().map(|text| {
        let small = 1 << (random.number() % 8);
        let likely = 1 + random.number() % 8;
        let mut number = || match random.number() % 8 {
            which if which < likely => random.magnitude(small),
            7 => of_any_magnitude(&mut random),
            _ => one_of(&beside_bounds, &mut random),
        };
        let mut numbers: Vec<u64> = (0..A::KEPT).map(|_| number()).collect();
        if random.number() % 4 != 3 {
            numbers[0] = random.magnitude(small);
        }
        from_any(&numbers, text, &mut random)
    });
    ask(comparison, sent.collect())
}

pub fn beside_bounds() -> Vec<u64> {
    beside(powers_of_two().chain(BOUNDS), &NEAR).collect()
}

/// The numbers that are left at each place of a good sheet, with this one changed, and sometimes another too; and then
/// the next bytes of the sheet.
fn one_changed<A: Asked>(
    comparison: &mut Comparison,
    place: usize,
    tried: u64,
    ask: Ask<A>,
) -> Outcome {
    let mut random = Random(place as u64);
    let beside_bounds = beside_bounds();
    for sheet in [SHEET, EXAMPLE] {
        let begin = |length| Sent::new(&A::nothing(), &sheet[..length], vec![vec![length]]);
        let begun = arrive(comparison, (0..=sheet.len()).map(begin).collect())?;
        let mut sent = Vec::new();
        for begun in begun {
            let rest = &sheet[begun.length()..];
            let next = &rest[..rest.len().min(NEXT_BYTES)];
            let left = begun.asked().left();
            let number = left[place];
            let bit = 1 << (random.number() % 64);
            let near = [number.wrapping_add(1), number.wrapping_sub(1), number ^ bit];
            let any = [0, u64::MAX, of_any_magnitude(&mut random)];
            let bounds = [(); 6].map(|()| one_of(&beside_bounds, &mut random));
            for changed in near.into_iter().chain(any).chain(bounds) {
                if tried > 1 && random.number() % tried < tried - 1 {
                    continue;
                }
                let mut numbers = left.to_vec();
                if random.number() % 4 == 3 {
                    numbers[random.number() as usize % A::KEPT] =
                        one_of(&beside_bounds, &mut random);
                }
                numbers[place] = changed;
                sent.push(from_any(&numbers, next, &mut random));
            }
        }
        ask(comparison, sent)?;
    }
    Ok(())
}

pub fn from_any<A: Asked>(numbers: &[u64], text: &[u8], random: &mut Random) -> Sent<A> {
    let cuts = everywhere(text.len(), random);
    Sent::new(&A::from_any(numbers), text, cuts)
}

/// What is told of a line's state is the reply to it, whatever it was read from.
fn ask_with_states(comparison: &mut Comparison, sent: Vec<Sent<Lines>>) -> Outcome {
    let sent = arrive(comparison, sent)?;
    let lines: Vec<[u64; LINE]> = sent.iter().flat_map(|sent| sent.asked().lines()).collect();
    let state = |&[fluid, millikelvin, pascals, ..]: &[u64; LINE]| {
        Call::state([fluid, millikelvin, pascals])
    };
    let states = comparison.all_answers(lines.iter().map(state))?;
    for (line, state) in lines.iter().zip(states) {
        if state.number != line[3] || state.places != line[4..] {
            return Err(format!("a line is told as {line:?}, and its state {state}"));
        }
    }
    Ok(())
}
