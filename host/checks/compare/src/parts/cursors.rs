//! Sheets walked over line by line with a cursor, and single calls from cursors that no walk comes to.

use super::any_numbers::SHEET;
use super::sheets::{sources, Source, BEHIND};
use super::{beside, of_any_magnitude, powers_of_two, unit};
use crate::call::Call;
use crate::comparison::{Comparison, Outcome};
use crate::workers::Unit;
use second::cursor::{walk, Cursor, Walk};
use second::random::Random;
use second::sheet::{read, EXAMPLE, LARGEST_COUNT, LONGEST, SECTIONS};
use second::sheet_list::{distributions, full_sheet, one_of, written, List, LARGER, SMALL, WIDEST};

const PART: &str = "cursors";

/// Of a walk of up to so many lines each step is asked for.
const SHORT: usize = 16;

/// How many calls are from any cursor, of each unit and of each long sheet.
const ANY: usize = 20_000;
const ANY_OF_LONG: usize = 250;

const UNITS: u64 = 4;

/// Besides good sheets: with a fault of every kind, behind a line or a count that can stand.
const FAULTY: [&[u8]; 10] = [
    b"",
    b"0\n0\n",
    b"1\n10 9\n1\n0 99",
    b"1\n10 9\n2\n0 99\n1\n9 0\n",
    b"1\n10 9\n1\n0  99\n1\n9 0\n",
    b"2\n1 1\n01 1\n0\n0\n",
    b"0\n1001\n1 1\n0\n",
    b"1\n1 1\n00\n0\n",
    b"0\n0\n0\n0\n",
    b"1\n1000 1000\n1000\n1 1\n1001\n1 1\n",
];

/// How many sections may be begun and how many lines lacking, where every place is asked for.
const BEGUN: [u64; 7] = {
    let sections = SECTIONS as u64;
    [
        0,
        1,
        sections - 1,
        sections,
        sections + 1,
        1 << 32,
        u64::MAX,
    ]
};
const LEFT: [u64; 7] = [0, 1, 2, LARGEST_COUNT, LARGEST_COUNT + 1, 1 << 32, u64::MAX];

/// What a cursor may have to do with, and how far from that and from powers of two.
const BOUNDS: [u64; 5] = [
    SECTIONS as u64,
    100,
    LARGEST_COUNT,
    SECTIONS as u64 * LARGEST_COUNT,
    LONGEST as u64,
];
const NEAR: [u64; 3] = [0, 1, 2];

pub fn units() -> Vec<Unit> {
    let walked = |source: Source| {
        unit(PART, move |comparison| {
            let mut random = Random(0);
            source(&mut |bytes, length| walk_over(comparison, bytes, length, &mut random))
        })
    };
    let mut units: Vec<Unit> = sources().into_iter().map(walked).collect();
    units.push(unit(PART, every_step_of_full_sheets));
    units.push(unit(PART, every_place));
    units.push(unit(PART, long_sheets_from_any));
    units.extend((0..UNITS).map(|seed| unit(PART, move |comparison| from_any(comparison, seed))));
    units
}

/// The sheet is the first `length` bytes. Where the walk ends it is asked for once more, and then from any cursor.
fn walk_over(
    comparison: &mut Comparison,
    bytes: &[u8],
    length: usize,
    random: &mut Random,
) -> Outcome {
    let walk = walk(&bytes[..length]);
    beside_reading(&bytes[..length], &walk)?;
    let end = walk.cursors[walk.states.len()];
    for cursor in steps_of(&walk.cursors).into_iter().chain([end]) {
        comparison.ask(Call::sheet_next(bytes, length, cursor))?;
    }
    let any = any_cursor(&walk.cursors, length, random);
    comparison.ask(Call::sheet_next(bytes, length, any))
}

/// A walk over a good sheet tells its state lines and ends with 16; one over another ends with the refusal, and
/// not behind the fault. As the archive answers what `second` does, the walk of that is looked at.
fn beside_reading(sheet: &[u8], walk: &Walk) -> Outcome {
    let agrees = match read(sheet) {
        Ok(states) => walk.number == 16 && walk.states == states,
        Err(refusal) => {
            let end = walk.cursors[walk.states.len()];
            walk.number == refusal.number && end.place <= refusal.place as u64
        }
    };
    match agrees {
        true => Ok(()),
        false => Err(format!(
            "a walk over \"{}\" is not what is read of it: {walk:?}",
            sheet.escape_ascii()
        )),
    }
}

/// Of a short walk all, of a long one the first and last and one between, and those beside the end of a section.
fn steps_of(cursors: &[Cursor]) -> Vec<Cursor> {
    let last = cursors.len() - 1;
    let ends = |step: usize| cursors[step].left == 0 || step > 0 && cursors[step - 1].left == 0;
    let chosen = |&step: &usize| {
        last <= SHORT || step <= 1 || step + 1 >= last || step == last / 2 || ends(step)
    };
    let steps = (0..=last).filter(chosen);
    steps.map(|step| cursors[step]).collect()
}

/// Of the longest sheet that there is, and of the one with the shortest lines.
fn every_step_of_full_sheets(comparison: &mut Comparison) -> Outcome {
    let shortest = written([LARGEST_COUNT; SECTIONS], |_| [0, 0]);
    for sheet in [full_sheet(LONGEST), shortest] {
        for cursor in walk(&sheet).cursors {
            comparison.ask(Call::sheet_next(&sheet, sheet.len(), cursor))?;
        }
    }
    Ok(())
}

/// Every place of a sheet and of what lies behind it, with all combinations of the other two numbers.
fn every_place(comparison: &mut Comparison) -> Outcome {
    for sheet in short_sheets() {
        let bytes = [&sheet[..], BEHIND].concat();
        for place in 0..=bytes.len() as u64 {
            for begun in BEGUN {
                for left in LEFT {
                    let cursor = Cursor { begun, left, place };
                    comparison.ask(Call::sheet_next(&bytes, sheet.len(), cursor))?;
                }
            }
        }
    }
    Ok(())
}

fn short_sheets() -> Vec<Vec<u8>> {
    let good = SMALL.into_iter().chain(LARGER).chain([SHEET, EXAMPLE]);
    good.chain(FAULTY).map(<[u8]>::to_vec).collect()
}

/// Long sheets, of which some are too long.
fn long_sheets_from_any(comparison: &mut Comparison) -> Outcome {
    let mut random = Random(0);
    for bytes in [LONGEST - 1, LONGEST, LONGEST + 1, WIDEST] {
        let sheet = full_sheet(bytes);
        let cursors = walk(&sheet).cursors;
        let length = bytes as u64;
        for place in length - 1..=length + 1 {
            for (begun, left) in [(SECTIONS as u64, 0), (SECTIONS as u64, 1), (0, 0)] {
                let cursor = Cursor { begun, left, place };
                comparison.ask(Call::sheet_next(&sheet, bytes, cursor))?;
            }
        }
        for _ in 0..ANY_OF_LONG {
            let cursor = any_cursor(&cursors, bytes, &mut random);
            comparison.ask(Call::sheet_next(&sheet, bytes, cursor))?;
        }
    }
    Ok(())
}

/// Short sheets, of every shape or with a fault.
fn from_any(comparison: &mut Comparison, seed: u64) -> Outcome {
    let mut random = Random(seed);
    let mut sheets = List::default();
    distributions(&mut sheets, &mut random);
    sheets.sheets.extend(short_sheets());
    let sheets = sheets.sheets;
    for _ in 0..ANY {
        let sheet = &sheets[random.number() as usize % sheets.len()];
        let cursor = any_cursor(&walk(sheet).cursors, sheet.len(), &mut random);
        let bytes = [&sheet[..], BEHIND].concat();
        comparison.ask(Call::sheet_next(&bytes, sheet.len(), cursor))?;
    }
    Ok(())
}

/// One of a walk's, with one to three changes of its numbers.
fn any_cursor(cursors: &[Cursor], length: usize, random: &mut Random) -> Cursor {
    let mut numbers = one_of(cursors, random).numbers();
    for _ in 0..1 + random.number() % 3 {
        let which = random.number() as usize % numbers.len();
        numbers[which] = changed(numbers[which], length, random);
    }
    numbers.into()
}

/// By a little, by a power of two, to a place of the sheet or beside its length, to what lies beside bounds, or to
/// anything.
fn changed(number: u64, length: usize, random: &mut Random) -> u64 {
    let little = random.number() % 4;
    match random.number() % 8 {
        0 => number.wrapping_add(little),
        1 => number.wrapping_sub(little),
        2 => number.wrapping_add(1 << (random.number() % 64)),
        3 => random.number() % (length as u64 + 1),
        4 => (length as u64 + 1).wrapping_sub(little),
        5 => little,
        6 => one_of(
            &Vec::from_iter(beside(powers_of_two().chain(BOUNDS), &NEAR)),
            random,
        ),
        _ => of_any_magnitude(random),
    }
}
