//! Sheets to be written: lists of every length, numbers of all magnitudes at every place, buffers with room and
//! without, sheets as long as one may be, and all that is refused together.

use super::{beside, combinations, of_any_magnitude, unit};
use crate::call::Call;
use crate::comparison::{Comparison, Outcome};
use crate::workers::Unit;
use second::random::Random;
use second::sheet::{LARGEST_COUNT, LONGEST, SECTIONS, TEN_NINES};
use second::sheet_list::{full_lists, one_of, WIDEST};
use second::writer::{lent, text, OwnLists, LISTS};

pub const PART: &str = "writes";

/// How many numbers a list has at most.
const MOST: usize = LARGEST_COUNT as usize;

/// Asked in all combinations, for the lists and for the sections.
const SHORT: [usize; 4] = [0, 1, 2, 3];
const FULL: [usize; 3] = [MOST - 1, MOST, MOST + 1];

/// On both sides of the most, and of what 8 and 10 bits can hold.
const LONG: [usize; 12] = [0, 1, 2, 255, 256, 257, 999, 1000, 1001, 1002, 1023, 1024];

/// None, one and 1000 to whoever keeps 16 bits.
const PAST_16_BITS: [usize; 3] = [65_536, 65_537, 66_536];

/// How far from a power of ten or of two: to whoever keeps fewer bits most of these are small.
const NEAR: [u64; 4] = [0, 1, 7, 300_000];

/// Of lists of any length.
const UNITS: u64 = 20;

/// Of each unit.
const ANY_LISTS: usize = 500;

pub fn units() -> Vec<Unit> {
    let mut units = vec![
        unit(PART, short_lists),
        unit(PART, rooms),
        unit(PART, full_sections),
    ];
    for section in 0..SECTIONS {
        units.push(unit(PART, move |comparison| {
            long_lists(comparison, section)
        }));
    }
    for which in 0..LISTS {
        units.push(unit(PART, move |comparison| numbers(comparison, which)));
        units.push(unit(PART, move |comparison| {
            places_of_long_lists(comparison, which)
        }));
    }
    units.push(unit(PART, |comparison| {
        refused_together(comparison, &of_lengths([3; LISTS]))
    }));
    for bytes in [LONGEST, WIDEST] {
        units.push(unit(PART, move |comparison| {
            refused_together(comparison, &full_lists(bytes))
        }));
    }
    units.push(unit(PART, long_sheets));
    units.push(unit(PART, widest_lines));
    for seed in 0..UNITS {
        units.push(unit(PART, move |comparison| any_lists(comparison, seed)));
    }
    units
}

/// Lists of these lengths, of which no two numbers are alike and none is above four digits where no list is above 1000.
fn of_lengths(lengths: [usize; LISTS]) -> OwnLists {
    std::array::from_fn(|which| {
        let places = 0..lengths[which] as u64;
        places
            .map(|place| place * LISTS as u64 + which as u64)
            .collect()
    })
}

/// The same where both lists of a fluid are as long.
fn of_counts(counts: [usize; SECTIONS]) -> OwnLists {
    of_lengths(std::array::from_fn(|which| counts[which / 2]))
}

fn length_of(lists: &OwnLists) -> usize {
    text(lent(lists)).len()
}

/// Buffers without room, with one byte too few, with just as many as the sheet has, with one more, and with some more.
fn ask_near(comparison: &mut Comparison, lists: &OwnLists) -> Outcome {
    let length = length_of(lists);
    let near = [0, length - 1, length, length + 1, length + 100];
    ask(comparison, lists, &near)
}

/// Buffers about as long as a sheet may be, which have few bytes or none to whoever keeps 16 bits, and longer ones.
fn ask_far(comparison: &mut Comparison, lists: &OwnLists) -> Outcome {
    let length = length_of(lists);
    let far = [
        LONGEST - 1,
        LONGEST,
        LONGEST + 1,
        LONGEST + length - 1,
        2 * LONGEST,
    ];
    ask(comparison, lists, &far)
}

fn ask(comparison: &mut Comparison, lists: &OwnLists, rooms: &[usize]) -> Outcome {
    let mut rooms = rooms.iter();
    rooms.try_for_each(|&room| comparison.ask(Call::write_sheet(lists, room)))
}

/// All combinations of short lengths: of numbers that fit, and of others.
fn short_lists(comparison: &mut Comparison) -> Outcome {
    for lengths in combinations(&SHORT) {
        let fitting = of_lengths(lengths);
        ask_near(comparison, &fitting)?;
        let above = |list: Vec<u64>| list.iter().map(|number| TEN_NINES + 1 + number).collect();
        ask_near(comparison, &fitting.map(above))?;
    }
    // lists that have no room for a number
    comparison.ask(Call {
        lists: Vec::new(),
        ..Call::write_sheet(&OwnLists::default(), LONGEST)
    })
}

/// Buffers of every length up to what short sheets need, and past that.
fn rooms(comparison: &mut Comparison) -> Outcome {
    for lists in combinations(&SHORT).map(of_counts) {
        let every: Vec<usize> = (0..length_of(&lists) + 30).collect();
        ask(comparison, &lists, &every)?;
        ask_far(comparison, &lists)?;
    }
    Ok(())
}

/// On both sides of a full section, for all fluids together.
fn full_sections(comparison: &mut Comparison) -> Outcome {
    for lists in combinations(&FULL).map(of_counts) {
        ask_near(comparison, &lists)?;
        ask_far(comparison, &lists)?;
    }
    Ok(())
}

/// Every count of one fluid, and all pairs of long lengths for its two lists, where the others have no state or one.
fn long_lists(comparison: &mut Comparison, section: usize) -> Outcome {
    let with_others = |others, [first, second]: [usize; 2]| {
        let mut lengths = [others; LISTS];
        [lengths[2 * section], lengths[2 * section + 1]] = [first, second];
        of_lengths(lengths)
    };
    for count in 0..=MOST + 1 {
        let lists = with_others(count % 2, [count; 2]);
        ask(comparison, &lists, &[length_of(&lists)])?;
    }
    for lengths in combinations(&LONG) {
        ask_near(comparison, &with_others(0, lengths))?;
        ask_near(comparison, &with_others(1, lengths))?;
    }
    for length in PAST_16_BITS {
        ask(comparison, &with_others(0, [length; 2]), &[LONGEST])?;
    }
    Ok(())
}

/// Numbers of all magnitudes, at every place of this list where it has up to three.
fn numbers(comparison: &mut Comparison, which: usize) -> Outcome {
    let tens = (0..20).map(|power| 10_u64.pow(power));
    let twos = (0..64).map(|power| 1 << power);
    let mut numbers: Vec<u64> = beside(tens.chain(twos).chain([0]), &NEAR).collect();
    numbers.sort_unstable();
    numbers.dedup();
    for number in numbers {
        for (length, place) in [(1, 0), (2, 0), (2, 1), (3, 0), (3, 1), (3, 2)] {
            let mut lists = of_lengths([length; LISTS]);
            lists[which][place] = number;
            ask_near(comparison, &lists)?;
        }
    }
    Ok(())
}

/// A number of eleven digits at every place of a full list, and one of ten digits at some.
fn places_of_long_lists(comparison: &mut Comparison, which: usize) -> Outcome {
    let mut counts = [1; SECTIONS];
    counts[which / 2] = MOST;
    let lists = of_counts(counts);
    let room = length_of(&lists) + 100;
    for place in 0..MOST {
        let mut lists = lists.clone();
        lists[which][place] = TEN_NINES + 1;
        ask(comparison, &lists, &[room])?;
        if place % 37 == 0 {
            lists[which][place] = TEN_NINES;
            ask(comparison, &lists, &[room])?;
        }
    }
    Ok(())
}

/// With each fault of the lengths, each of the digits, and both, in buffers with room and without.
fn refused_together(comparison: &mut Comparison, lists: &OwnLists) -> Outcome {
    for lists in with_unfit_lists(lists) {
        for lists in with_eleven_digits(&lists) {
            ask_near(comparison, &lists)?;
        }
    }
    Ok(())
}

/// As they are; each list a number shorter or longer; and both lists of each fluid too long.
fn with_unfit_lists(lists: &OwnLists) -> Vec<OwnLists> {
    let mut all = vec![lists.clone()];
    let mut changed = |which: &[usize], change: fn(&mut Vec<u64>)| {
        let mut lists = lists.clone();
        which.iter().for_each(|&which| change(&mut lists[which]));
        all.push(lists);
    };
    for which in 0..LISTS {
        changed(&[which], |list| list.truncate(list.len() - 1));
        changed(&[which], |list| list.push(7));
    }
    for section in 0..SECTIONS {
        let both = [2 * section, 2 * section + 1];
        changed(&both, |list| list.resize(MOST + 1, 7));
    }
    all
}

/// As they are; and each list with a first or a last number that is too large.
fn with_eleven_digits(lists: &OwnLists) -> Vec<OwnLists> {
    let mut all = vec![lists.clone()];
    for which in 0..LISTS {
        for place in [0, lists[which].len() - 1] {
            let mut lists = lists.clone();
            lists[which][place] = TEN_NINES + 1;
            all.push(lists);
        }
    }
    all
}

/// Some bytes less than a sheet may have, as many, and more, up to the most that full lists can take, with the shorter
/// numbers at their beginning and at their end.
fn long_sheets(comparison: &mut Comparison) -> Outcome {
    for bytes in (LONGEST - 2..=LONGEST + 2).chain([WIDEST - 1, WIDEST]) {
        let mut lists = full_lists(bytes);
        for _ in 0..2 {
            ask_near(comparison, &lists)?;
            ask_far(comparison, &lists)?;
            lists.reverse();
            lists.iter_mut().for_each(|list| list.reverse());
        }
    }
    Ok(())
}

/// The widest lines, as many as a sheet has room for and some less or more: of all fluids alike, and of one where the
/// other sections are full.
fn widest_lines(comparison: &mut Comparison) -> Outcome {
    let alike = (985..=MOST).map(|count| [count; SECTIONS]);
    let beside_full = (970..=985).flat_map(|count| {
        [0, 1, 2].map(|section| {
            let mut counts = [MOST; SECTIONS];
            counts[section] = count;
            counts
        })
    });
    for counts in alike.chain(beside_full) {
        let widest = std::array::from_fn(|which| vec![TEN_NINES; counts[which / 2]]);
        ask(comparison, &widest, &[LONGEST, 2 * LONGEST])?;
    }
    Ok(())
}

/// Lists of any length and numbers of all magnitudes, some of which are refused, in any buffer.
fn any_lists(comparison: &mut Comparison, seed: u64) -> Outcome {
    let mut random = Random(seed);
    for _ in 0..ANY_LISTS {
        let most = one_of(&[3, 40, LARGEST_COUNT], &mut random);
        let mut lists = lists_up_to(most, &mut random);
        let length = length_of(&lists);
        let any = random.magnitude(2 * length as u64) as usize;
        let rooms = [length - 1, length, length + 1, any];
        ask(comparison, &lists, &rooms)?;
        let list = &mut lists[random.number() as usize % LISTS];
        if let Some(place) = (random.number() as usize).checked_rem(list.len()) {
            list[place] = of_any_magnitude(&mut random);
        }
        ask(comparison, &lists, &rooms)?;
        let list = &mut lists[random.number() as usize % LISTS];
        list.truncate(random.number() as usize % (list.len() + 1));
        ask(comparison, &lists, &rooms)?;
    }
    Ok(())
}

/// As many states of each fluid at most, short lists as likely as long ones and small numbers as likely as large ones.
pub fn lists_up_to(most: u64, random: &mut Random) -> OwnLists {
    let counts = [(); SECTIONS].map(|()| random.magnitude(most));
    std::array::from_fn(|which| {
        let places = 0..counts[which / 2];
        places.map(|_| random.magnitude(TEN_NINES)).collect()
    })
}
