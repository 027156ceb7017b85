//! Reports of whole sheets, and of the same sheets cut in every way: those that are read, those that arrive in parts, and
//! others made for what is counted, added up and looked for.

use super::any_numbers::{self, beside_bounds, from_any, SHEET};
use super::arrivals::{self, cut_anywhere};
use super::arriving_reports::Reports;
use super::journeys::{arrive, at_random, everywhere, single_bytes, Asked, Group, Sent};
use super::reported_sheets::{fullest, mixed, several};
use super::{of_any_magnitude, reported_sheets, sheets, unit};
use crate::call::{Call, REPORTING};
use crate::comparison::{Comparison, Outcome};
use crate::workers::Unit;
use second::random::Random;
use second::sheet::{EXAMPLE, LARGEST_COUNT, SECTIONS};
use second::sheet_list::one_of;

const PART: &str = "reports";

/// So many sheets are cut in two at every place.
const CUT_EVERYWHERE: usize = 40;

/// Of the changes of one number that is kept, one in so many is tried: there are many numbers.
const TRIED: u64 = 6;

/// Units of many numbers changed, and how often each of them does so.
const UNITS: u64 = 4;
const MANY_CHANGED: usize = 150;

pub fn units() -> Vec<Unit> {
    let all = sheets::sources()
        .into_iter()
        .chain(reported_sheets::sources());
    let mut units: Vec<Unit> = all.map(whole).collect();
    units.extend(arrivals::units_of::<Reports>(PART));
    for (seed, source) in reported_sheets::sources().into_iter().enumerate() {
        units.push(unit(PART, move |comparison| {
            cut_anywhere::<Reports>(comparison, &source, seed as u64)
        }));
    }
    units.push(unit(PART, cut_everywhere));
    units.push(unit(PART, full_sheets_whole_and_in_single_bytes));
    let ask = |comparison: &mut Comparison, sent| arrive::<Reports>(comparison, sent).map(drop);
    units.extend(any_numbers::units_of(PART, TRIED, ask));
    for seed in 0..UNITS {
        units.push(unit(PART, move |comparison| many_changed(comparison, seed)));
    }
    units.push(unit(PART, all_alike));
    units
}

/// Each sheet of a source.
fn whole(source: sheets::Source) -> Unit {
    unit(PART, move |comparison| {
        source(&mut |bytes, length| comparison.ask(Call::report(bytes, length)))
    })
}

/// In two parts of every length and in single bytes: small sheets with states of every outcome.
fn cut_everywhere(comparison: &mut Comparison) -> Outcome {
    let mut random = Random(0);
    let mut group = Group::<Reports>::new(comparison);
    for _ in 0..CUT_EVERYWHERE {
        let sheet = several(&mut random);
        group.send(&sheet, everywhere(sheet.len(), &mut random))?;
    }
    group.finish()
}

/// As full as they can be, with states of every outcome or with few that are answered.
fn full_sheets_whole_and_in_single_bytes(comparison: &mut Comparison) -> Outcome {
    let mut random = Random(0);
    let mut group = Group::<Reports>::new(comparison);
    for sheet in [mixed([LARGEST_COUNT; SECTIONS], &mut random), fullest(0)] {
        let length = sheet.len();
        let cuts = vec![
            vec![length],
            single_bytes(0, length, &mut random),
            at_random(0, length, 50, &mut random),
        ];
        group.send(&sheet, cuts)?;
    }
    group.finish()
}

/// The numbers that are left at some place of a good sheet with any of them changed, few or most; and then all the rest of
/// the sheet, so that there may be a report.
fn many_changed(comparison: &mut Comparison, seed: u64) -> Outcome {
    let mut random = Random(seed);
    let beside_bounds = beside_bounds();
    for sheet in [SHEET, EXAMPLE] {
        let begin = |length| Sent::new(&Reports::nothing(), &sheet[..length], vec![vec![length]]);
        let begun = arrive(comparison, (0..=sheet.len()).map(begin).collect())?;
        let mut sent = Vec::new();
        for _ in 0..MANY_CHANGED {
            let begun = &begun[random.number() as usize % begun.len()];
            let mut numbers = begun.asked().left().to_vec();
            for _ in 0..1 << (random.number() % 7) {
                numbers[random.number() as usize % REPORTING] = match random.number() % 4 {
                    0 => [0, u64::MAX][random.number() as usize % 2],
                    1 => of_any_magnitude(&mut random),
                    _ => one_of(&beside_bounds, &mut random),
                };
            }
            sent.push(from_any(&numbers, &sheet[begun.length()..], &mut random));
        }
        arrive::<Reports>(comparison, sent)?;
    }
    Ok(())
}

/// All of them the same number, the smallest and the largest among them, before a whole sheet.
fn all_alike(comparison: &mut Comparison) -> Outcome {
    let mut random = Random(0);
    let alike = |number| from_any(&[number; REPORTING], SHEET, &mut random);
    let sent = beside_bounds().into_iter().map(alike).collect();
    arrive::<Reports>(comparison, sent).map(drop)
}
