//! Sheets that are written and read again, and good ones that are read and written again.

use super::sheets::ask;
use super::unit;
use super::writes::{lists_up_to, PART};
use crate::call::Call;
use crate::comparison::{Comparison, Outcome};
use crate::workers::Unit;
use second::random::Random;
use second::sheet::{read, LARGEST_COUNT, LONGEST, SECTIONS, TEN_NINES};
use second::sheet_list::{distributions, full_lists, full_sheet, list, written, List};
use second::writer::{lists_of, OwnLists};

const UNITS: u64 = 8;

/// Of each unit, of up to so many states of each fluid: short ones, of which every line is read, and long ones.
const ANY_LISTS: [(usize, u64); 2] = [(200, 7), (10, LARGEST_COUNT)];

pub fn units() -> Vec<Unit> {
    let mut units = vec![
        unit(PART, |comparison| all_again(comparison, &list())),
        unit(PART, full_sheets),
    ];
    for seed in 0..UNITS {
        units.push(unit(PART, move |comparison| {
            let mut good = List::default();
            distributions(&mut good, &mut Random(seed));
            all_again(comparison, &good.sheets)
        }));
        units.push(unit(PART, move |comparison| any_lists(comparison, seed)));
    }
    units
}

/// Sheets of as many bytes as one may have, and of some less; and a full one of numbers of all magnitudes.
fn full_sheets(comparison: &mut Comparison) -> Outcome {
    let mut random = Random(0);
    for bytes in LONGEST - 2..=LONGEST {
        read_again(comparison, &full_lists(bytes))?;
        written_again(comparison, &full_sheet(bytes))?;
    }
    let state = |_| [TEN_NINES; 2].map(|most| random.magnitude(most));
    written_again(comparison, &written([LARGEST_COUNT; SECTIONS], state))
}

fn any_lists(comparison: &mut Comparison, seed: u64) -> Outcome {
    let mut random = Random(seed);
    for (count, most) in ANY_LISTS {
        for _ in 0..count {
            read_again(comparison, &lists_up_to(most, &mut random))?;
        }
    }
    Ok(())
}

/// What the archive wrote is read by the second implementation as the same lists, and by the archive as the second
/// implementation reads it.
fn read_again(comparison: &mut Comparison, lists: &OwnLists) -> Outcome {
    let [made] = comparison.answers([Call::write_sheet(lists, LONGEST)])?;
    let sheet = &made.sheet[..made.places[0] as usize];
    match read(sheet) {
        Ok(states) if lists_of(&states) == *lists => ask(comparison, sheet),
        told => Err(format!("{made}, which is read again as {told:?}")),
    }
}

/// The good ones among these.
fn all_again(comparison: &mut Comparison, sheets: &[Vec<u8>]) -> Outcome {
    let mut good = sheets.iter().filter(|sheet| read(sheet).is_ok());
    good.try_for_each(|sheet| written_again(comparison, sheet))
}

/// With just as much room as the sheet needs.
fn written_again(comparison: &mut Comparison, sheet: &[u8]) -> Outcome {
    let states = read(sheet).map_err(|refusal| format!("{refusal:?}"))?;
    let [made] = comparison.answers([Call::write_sheet(&lists_of(&states), sheet.len())])?;
    if made.number == 0 && made.sheet[..made.places[0] as usize] == *sheet {
        return Ok(());
    }
    let shown = sheet.escape_ascii();
    Err(format!("\"{shown}\" is written again as {made}"))
}
