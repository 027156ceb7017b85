//! A report on a sheet beside reading it and answering its states.

use crate::parts::{full_sections, Sheet};
use crate::proved;
use crate::rounds::{at_once, compared, Compared, Pass};
use crate::writing::wide_states;
use second::sheet::State;
use second::state::FLUIDS;
use std::cmp::Reverse;
use std::hint::black_box;
use woolyard::boundary::{self, FIGURES, REPORT, REPORTING, SECTION_REPORT};
use woolyard::SHEET_MOST_BYTES;

/// How many bytes a part has: as many as a sheet may have, and a packet of a network.
pub const PART_SIZES: [usize; 2] = [SHEET_MOST_BYTES, 1500];

/// On a sheet whose states are all accepted, and on one whose states are refused at once, so that little but the reading is
/// timed.
pub struct SheetReports {
    pub accepted: OnSheet,
    pub refused: OnSheet,
}

/// The report on the whole beside reading it and asking for each of its states, beside asking alone, and beside taking the
/// sheet in one part; and in parts of each size beside reading and asking. And how many state lines and bytes the sheet has.
pub struct OnSheet {
    pub beside_answering: Compared,
    pub beside_asking: Compared,
    pub beside_one_part: Compared,
    pub in_parts: [Compared; PART_SIZES.len()],
    pub state_lines: usize,
    pub bytes: usize,
}

impl SheetReports {
    /// Also checks every report that is timed.
    pub fn measure(states: &[State]) -> SheetReports {
        SheetReports {
            accepted: OnSheet::measure(&Sheet::of(full_sections(states))),
            refused: OnSheet::measure(&Sheet::of(wide_states())),
        }
    }
}

impl OnSheet {
    fn measure(sheet: &Sheet) -> OnSheet {
        let Sheet { states, bytes } = sheet;
        assert_reported(states, bytes);
        OnSheet {
            beside_answering: compared(reports(bytes), sheet.read_and_asked()),
            beside_asking: compared(reports(bytes), sheet.asked()),
            beside_one_part: compared(reports(bytes), sheet.taken(SHEET_MOST_BYTES)),
            in_parts: PART_SIZES
                .map(|size| compared(reports_in_parts(bytes, size), sheet.read_and_asked())),
            state_lines: states.len(),
            bytes: bytes.len(),
        }
    }
}

/// Whole and in parts, the report is what the replies of `woolyard_state` come to.
fn assert_reported(states: &[State], sheet: &[u8]) {
    let expected = (0, expected(states), 0);
    assert_eq!(report(sheet), expected);
    for size in PART_SIZES {
        assert_eq!(report_in_parts(sheet, size), expected, "in parts of {size}");
    }
}

/// Of one state line.
struct Reply {
    line: u64,
    number: u64,
    kind: u64,
    gas_density: u64,
}

/// Before state k of a sheet stand k others, and the counts of its section and of those before that.
fn expected(states: &[State]) -> [u64; REPORT] {
    let sections = FLUIDS.map(|fluid| {
        let numbered = (0..).zip(states);
        let own = numbered.filter(|(_, state)| state.fluid == fluid.number);
        let replies = own.map(|(k, state)| reply(k + fluid.number + 2, state));
        section(&Vec::from_iter(replies))
    });
    let numbers = sections.as_flattened().try_into();
    numbers.expect("a section for each fluid")
}

fn reply(line: u64, state: &State) -> Reply {
    let mut figures = [0; FIGURES];
    let number = proved::state(state, &mut figures);
    let [kind, _, _, gas_density, _] = figures;
    Reply {
        line,
        number,
        kind,
        gas_density,
    }
}

/// Each figure by itself.
fn section(replies: &[Reply]) -> [u64; SECTION_REPORT] {
    let answered = || replies.iter().filter(|reply| reply.number == 0);
    let [one, split] =
        [1, 2].map(|kind| answered().filter(|reply| reply.kind == kind).count() as u64);
    let [too_cold, too_hot, too_low, too_high] = [21, 22, 31, 32].map(|number| {
        let refused = replies.iter().filter(|reply| reply.number == number);
        refused.count() as u64
    });
    let densities = || answered().map(|reply| (reply.gas_density, reply.line));
    let sum = densities().map(|(density, _)| density).sum();
    let (smallest, its_line) = densities().min().unwrap_or_default();
    let largest = densities().max_by_key(|&(density, line)| (density, Reverse(line)));
    let (largest, line_of_largest) = largest.unwrap_or_default();
    [
        one,
        split,
        too_cold,
        too_hot,
        too_low,
        too_high,
        sum,
        smallest,
        its_line,
        largest,
        line_of_largest,
    ]
}

/// The reply's number, the report and the place.
type Told = (u64, [u64; REPORT], u64);

#[inline]
fn report(sheet: &[u8]) -> Told {
    let (mut report, mut place) = ([0; REPORT], 0);
    let number = boundary::report(sheet, &mut report, &mut place);
    (number, report, place)
}

/// In parts of this size, the last of which may be shorter.
#[inline]
fn report_in_parts(sheet: &[u8], size: usize) -> Told {
    let mut reporting = [0; REPORTING];
    for part in sheet.chunks(size) {
        black_box(boundary::report_take(&mut reporting, part));
    }
    let (mut report, mut place) = ([0; REPORT], 0);
    let number = boundary::report_end(&reporting, &mut report, &mut place);
    (number, report, place)
}

fn reports(sheet: &[u8]) -> Pass<'_> {
    Box::new(move || {
        at_once(1, || {
            black_box(report(black_box(sheet)));
        })
    })
}

fn reports_in_parts(sheet: &[u8], size: usize) -> Pass<'_> {
    Box::new(move || {
        at_once(1, || {
            black_box(report_in_parts(black_box(sheet), size));
        })
    })
}
