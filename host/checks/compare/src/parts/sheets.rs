//! Sheets, good and damaged: what is answered of each, of its lines, and that its bytes stay.

use super::unit;
use crate::call::Call;
use crate::comparison::{Comparison, Outcome};
use crate::workers::Unit;
use second::random::Random;
use second::sheet::{state_lines, LARGEST_COUNT, LONGEST, SECTIONS, TEN_NINES};
use second::sheet_list::{
    any_text, damage, distributions, full_sheet, insert, lines_in_any_order, list, written, List,
    LARGER, WIDEST,
};
use std::array::from_fn;

const PART: &str = "sheets";

const UNITS: u64 = 8;

/// Of each unit.
const ANY_BYTES: usize = 400;
const DAMAGED: usize = 40;

/// Up to so many state lines each is asked for.
const SHORT: u64 = 16;

/// What lies behind the told length: it would end a line, and begin others that could stand there.
pub const BEHIND: &[u8] = b"\n0\n1\n0 0\n";

/// What is done with a sheet, which is the first so many of these bytes.
pub type Visit<'a> = &'a mut dyn FnMut(&[u8], usize) -> Outcome;

/// Visits one sheet after the other, the same ones each time.
pub type Source = Box<dyn Fn(Visit) -> Outcome + Send + Sync>;

pub fn units() -> Vec<Unit> {
    let asked = |source: Source| {
        unit(PART, move |comparison| {
            source(&mut |bytes, length| ask_beginning(comparison, bytes, length))
        })
    };
    sources().into_iter().map(asked).collect()
}

/// All sheets of this part.
pub fn sources() -> Vec<Source> {
    let mut sources: Vec<Source> = vec![
        Box::new(|visit| visit_all(visit, &list())),
        Box::new(inserted_bytes),
        Box::new(two_and_four_sections),
        Box::new(full_sheets),
        Box::new(long_sheets),
    ];
    for seed in 0..UNITS {
        sources.push(Box::new(move |visit| good_and_damaged(visit, seed)));
        sources.push(Box::new(move |visit| any_texts(visit, seed)));
    }
    sources
}

fn visit_all(visit: Visit, sheets: &[Vec<u8>]) -> Outcome {
    sheets
        .iter()
        .try_for_each(|sheet| visit_sheet(visit, sheet))
}

pub fn visit_sheet(visit: Visit, sheet: &[u8]) -> Outcome {
    visit(&[sheet, BEHIND].concat(), sheet.len())
}

pub fn ask(comparison: &mut Comparison, sheet: &[u8]) -> Outcome {
    ask_beginning(comparison, &[sheet, BEHIND].concat(), sheet.len())
}

/// The sheet is the first `length` bytes. All are also asked for the line after the last and those of the largest
/// numbers.
fn ask_beginning(comparison: &mut Comparison, bytes: &[u8], length: usize) -> Outcome {
    comparison.ask(Call::sheet(bytes, length))?;
    let count = state_lines(&bytes[..length]) as u64;
    let past = [count, count + 1, 1 << 32, u64::MAX];
    for k in lines_of(count).into_iter().chain(past) {
        comparison.ask(Call::sheet_line(bytes, length, k))?;
    }
    Ok(())
}

/// Of short sheets every line, of long ones the first and last of a few.
pub fn lines_of(count: u64) -> Vec<u64> {
    match count {
        0..=SHORT => (0..count).collect(),
        _ => vec![0, 1, count / 2, 999, 1000, 1999, 2000, count - 2, count - 1],
    }
}

/// A byte more at every place of the sheets that the list damages in other ways alone.
fn inserted_bytes(visit: Visit) -> Outcome {
    let mut inserted = List::default();
    for sheet in LARGER {
        insert(&mut inserted, sheet);
    }
    visit_all(visit, &inserted.sheets)
}

/// Good sheets cut off before the count of an empty last section, and good ones with a section more.
fn two_and_four_sections(visit: Visit) -> Outcome {
    let mut good = List::default();
    distributions(&mut good, &mut Random(0));
    for sheet in &good.sheets {
        if sheet.ends_with(b"\n0\n") {
            visit(sheet, sheet.len() - 2)?;
        }
        for fourth in [&b"0\n"[..], b"1\n300000 1000000\n"] {
            visit_sheet(visit, &[sheet, fourth].concat())?;
        }
    }
    Ok(())
}

/// Full sections: some bytes less than a sheet may have, as many, and more, up to the most that the
/// lines of full sections can have; a byte less or more at their end; and a section less.
fn full_sheets(visit: Visit) -> Outcome {
    for bytes in (LONGEST - 2..=LONGEST + 2).chain([WIDEST - 1, WIDEST]) {
        let sheet = full_sheet(bytes);
        visit_sheet(visit, &sheet)?;
        visit_sheet(visit, &[&sheet[..], b"\n"].concat())?;
        visit_sheet(visit, &sheet[..bytes - 1])?;
        visit(&sheet, bytes - WIDEST / SECTIONS)?;
    }
    Ok(())
}

/// Good sheets of every shape up to four state lines, each then damaged at every byte or cut off there
/// with the rest still behind.
fn good_and_damaged(visit: Visit, seed: u64) -> Outcome {
    let mut random = Random(seed);
    let mut good = List::default();
    distributions(&mut good, &mut random);
    visit_all(visit, &good.sheets)?;
    for _ in 0..DAMAGED {
        let sheet = &good.sheets[random.number() as usize % good.sheets.len()];
        for length in 0..sheet.len() {
            visit(sheet, length)?;
        }
        if sheet.len() < 40 {
            let mut damaged = List::default();
            damage(&mut damaged, sheet);
            visit_all(visit, &damaged.sheets)?;
        }
    }
    Ok(())
}

/// Good lines in any order, texts of a sheet's alphabet, and any bytes at all.
fn any_texts(visit: Visit, seed: u64) -> Outcome {
    let mut random = Random(seed);
    let mut texts = List::default();
    lines_in_any_order(&mut texts, &mut random, 500);
    any_text(&mut texts, &mut random, 20_000);
    for _ in 0..ANY_BYTES {
        let length = random.magnitude(300);
        let bytes: Vec<u8> = (0..length).map(|_| random.number() as u8).collect();
        texts.sheet(&bytes);
    }
    visit_all(visit, &texts.sheets)
}

/// Counts on both sides of 1000, with numbers of all magnitudes and with the widest.
fn long_sheets(visit: Visit) -> Outcome {
    let mut random = Random(0);
    let alone = |count| {
        let sections = 0..SECTIONS;
        sections.map(move |section| from_fn(|other| if other == section { count } else { 0 }))
    };
    let about_256 = from_fn(|section| 255 + section as u64);
    let full = [LARGEST_COUNT; SECTIONS];
    let mut one_less = full;
    one_less[1] -= 1;
    let several = [about_256, one_less, full];
    let counts = alone(SHORT + 1).chain(several);
    for counts in counts.chain(alone(LARGEST_COUNT + 1)) {
        let any = written(counts, |_| {
            [TEN_NINES; 2].map(|most| random.magnitude(most))
        });
        at_the_end(visit, &any)?;
        at_the_end(visit, &written(counts, |_| [TEN_NINES; 2]))?;
    }
    at_the_end(visit, b"9")
}

/// The sheet with its end damaged, and cut off or filled up at the greatest length and past it.
fn at_the_end(visit: Visit, sheet: &[u8]) -> Outcome {
    visit_sheet(visit, sheet)?;
    visit_sheet(visit, &[sheet, b"\n"].concat())?;
    visit_sheet(visit, &sheet[..sheet.len() - 1])?;
    for length in (LONGEST - 2..=LONGEST + 2).chain([2 * LONGEST, 2 * LONGEST + 4]) {
        for fill in [b'0', b'9', b'\n', b' ', 0, 255] {
            let mut longest = sheet.to_vec();
            longest.resize(length, fill);
            visit_sheet(visit, &longest)?;
        }
    }
    Ok(())
}
