//! A sheet written from lists beside the same sheet read.

use crate::rounds::{at_once, beside, interleaved, timing, Pass, Timing};
use second::random::Random;
use second::sheet::{read, State};
use second::state::FLUIDS;
use second::writer::{lent, lists_of, text, OwnLists};
use std::hint::black_box;
use woolyard::{boundary, SHEET_MOST_BYTES};

/// How many states of each fluid the sheet has. With numbers of ten digits it is nearly as long as a sheet may be.
const EACH: usize = 978;

/// Nanoseconds per sheet, and writing beside reading, round by round; and how many state lines and bytes the sheet has.
pub struct Writing {
    pub write: Timing,
    pub read: Timing,
    pub write_beside_read: f64,
    pub state_lines: usize,
    pub bytes: usize,
}

impl Writing {
    /// Also checks that what is written is the second implementation's sheet, and is read as the same states.
    pub fn measure() -> Writing {
        let states = wide_states();
        let lists = lists_of(&states);
        let sheet = text(lent(&lists)).into_bytes();
        assert_eq!(written(&lists), sheet);
        assert_eq!(read(&sheet).as_deref(), Ok(&states[..]));
        assert_read(&sheet, &states);
        let [write, read] = interleaved([writes(&lists), reads(&sheet)]);
        Writing {
            write_beside_read: beside(&write, &read),
            write: timing(write),
            read: timing(read),
            state_lines: states.len(),
            bytes: sheet.len(),
        }
    }
}

/// All numbers have ten digits, and are out of range, which does not matter to a sheet. The same in every run.
pub fn wide_states() -> Vec<State> {
    let mut random = Random(0x5EED);
    let mut ten_digits = || 1_000_000_000 + random.number() % 9_000_000_000;
    let fluids = FLUIDS.map(|fluid| [fluid.number; EACH]);
    let states = fluids.as_flattened().iter().map(|&fluid| State {
        fluid,
        millikelvin: ten_digits(),
        pascals: ten_digits(),
    });
    states.collect()
}

fn written(lists: &OwnLists) -> Vec<u8> {
    let mut buffer = vec![0; SHEET_MOST_BYTES];
    let mut length = 0;
    let number = boundary::write_sheet(lent(lists), &mut buffer, &mut length);
    assert_eq!(number, 0);
    buffer.truncate(length as usize);
    buffer
}

/// Every line by the proved library.
fn assert_read(sheet: &[u8], states: &[State]) {
    assert_eq!(woolyard::sheet(sheet), Ok(states.len() as u64));
    for (k, state) in (0..).zip(states) {
        let line = woolyard::sheet_line(sheet, k).map(|line| State {
            fluid: line.fluid.number(),
            millikelvin: line.millikelvin,
            pascals: line.pascals,
        });
        assert_eq!(line.as_ref(), Ok(state));
    }
}

fn writes(lists: &OwnLists) -> Pass<'_> {
    let mut buffer = vec![0; SHEET_MOST_BYTES];
    let mut length = 0;
    Box::new(move || {
        at_once(1, || {
            black_box(boundary::write_sheet(
                black_box(lent(lists)),
                &mut buffer,
                &mut length,
            ));
            black_box((&buffer, &length));
        })
    })
}

pub fn reads(sheet: &[u8]) -> Pass<'_> {
    let mut reading = [0; 3];
    Box::new(move || {
        at_once(1, || {
            black_box(boundary::sheet(black_box(sheet), &mut reading));
            black_box(&reading);
        })
    })
}
