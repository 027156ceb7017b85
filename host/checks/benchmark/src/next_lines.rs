//! A sheet walked over, one state line a call, beside the same sheet read; and its lines asked for by their numbers.

use crate::parts::{full_sections, Sheet};
use crate::rounds::{at_once, compared, timing, Compared, Pass, Timing};
use crate::writing::{reads, wide_states};
use second::sheet::State;
use std::hint::black_box;
use woolyard::boundary::{self, CURSOR};

/// How often every line is asked for by its number: an odd number, and few, since each call reads the whole sheet.
pub const ROUNDS_BY_NUMBER: usize = 3;

/// Of a sheet with as many states as there can be, whose lines are short, and of one with the widest numbers.
pub struct NextLines {
    pub accepted: Walked,
    pub wide: Walked,
    /// Every line of the first.
    pub by_number: Timing,
}

/// A walk beside reading the whole; and how many state lines and bytes the sheet has.
pub struct Walked {
    pub beside_reading: Compared,
    pub state_lines: usize,
    pub bytes: usize,
}

impl NextLines {
    /// Also checks every line that is told.
    pub fn measure(states: &[State]) -> NextLines {
        let accepted = Sheet::of(full_sections(states));
        let wide = Sheet::of(wide_states());
        NextLines {
            accepted: Walked::measure(&accepted),
            wide: Walked::measure(&wide),
            by_number: by_number(&accepted),
        }
    }
}

impl Walked {
    fn measure(sheet: &Sheet) -> Walked {
        let Sheet { states, bytes } = sheet;
        assert_walked(states, bytes);
        Walked {
            beside_reading: compared(walks(bytes), reads(bytes)),
            state_lines: states.len(),
            bytes: bytes.len(),
        }
    }
}

/// The sheet's states in their order, and then that none is left.
fn assert_walked(states: &[State], sheet: &[u8]) {
    let mut told = Vec::new();
    let end = walk(sheet, |&line| told.push(line));
    let expected = states.iter().map(as_told);
    assert_eq!(told, Vec::from_iter(expected));
    assert_eq!(end, 16);
}

fn as_told(state: &State) -> [u64; 3] {
    [state.fluid, state.millikelvin, state.pascals]
}

/// The number that no line came with.
#[inline]
fn walk(sheet: &[u8], mut told: impl FnMut(&[u64; 3])) -> u64 {
    let (mut cursor, mut state) = ([0; CURSOR], [0; 3]);
    loop {
        match boundary::sheet_next(sheet, &mut cursor, &mut state) {
            0 => told(&state),
            number => return number,
        }
    }
}

fn walks(sheet: &[u8]) -> Pass<'_> {
    Box::new(move || {
        at_once(1, || {
            let end = walk(black_box(sheet), |state| {
                black_box(state);
            });
            black_box(end);
        })
    })
}

/// Also checks every line.
fn by_number(sheet: &Sheet) -> Timing {
    let Sheet { states, bytes } = sheet;
    let round = || {
        at_once(1, || {
            for (k, expected) in (0..).zip(states) {
                let mut state = [0; 3];
                let number = boundary::sheet_line(black_box(bytes), k, &mut state);
                assert_eq!((number, state), (0, as_told(expected)));
            }
        })
    };
    timing((0..ROUNDS_BY_NUMBER).map(|_| round()).collect())
}
