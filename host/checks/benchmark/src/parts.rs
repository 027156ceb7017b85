//! A sheet that arrives in parts beside the same sheet read whole.

use crate::contenders::calls;
use crate::proved;
use crate::rounds::{at_once, compared, Compared, Pass};
use crate::states::of_fluid;
use crate::writing::{reads, wide_states};
use second::sheet::State;
use second::state::FLUIDS;
use second::writer::{lent, lists_of, text};
use std::hint::black_box;
use woolyard::boundary::{self, FIGURES, LINE_NUMBERS, PARTS};
use woolyard::{SECTION_MOST_STATES, SHEET_MOST_BYTES};

/// How many bytes a part has: a key that is pressed, about a line, a packet of a network, and as many as a sheet may have.
pub const SIZES: [usize; 4] = [1, 16, 1500, SHEET_MOST_BYTES];

/// Of a sheet whose states are refused at once, so that little but the reading is timed, beside reading it; and of one whose
/// states are all accepted, beside reading it and then asking for each state. What is left of that little is told by the
/// first sheet in one part beside what the second is timed beside.
pub struct InParts {
    pub refused: OfSheet,
    pub accepted: OfSheet,
    pub refused_beside_asked: Compared,
}

/// For each size of its parts, beside the whole; and how many state lines and bytes the sheet has.
pub struct OfSheet {
    pub sizes: [Compared; SIZES.len()],
    pub state_lines: usize,
    pub bytes: usize,
}

impl InParts {
    /// Also checks all that is answered in parts.
    pub fn measure(states: &[State]) -> InParts {
        let refused = Sheet::of(wide_states());
        let accepted = Sheet::of(full_sections(states));
        InParts {
            refused: refused.measure(22, || reads(&refused.bytes)),
            accepted: accepted.measure(0, || accepted.read_and_asked()),
            refused_beside_asked: refused.beside(refused.read_and_asked(), SHEET_MOST_BYTES),
        }
    }
}

impl OfSheet {
    /// The sheet in one part.
    pub fn one_part(&self) -> &Compared {
        let [.., one_part] = &self.sizes;
        one_part
    }
}

/// As many of each fluid as a section may have.
pub fn full_sections(states: &[State]) -> Vec<State> {
    let fluids = FLUIDS.iter();
    let sections = fluids.flat_map(|fluid| of_fluid(states, fluid).take(SECTION_MOST_STATES));
    sections.collect()
}

/// The states in the order of their lines.
pub struct Sheet {
    pub states: Vec<State>,
    pub bytes: Vec<u8>,
}

impl Sheet {
    /// Of states that are in the order of their fluids.
    pub fn of(states: Vec<State>) -> Sheet {
        let bytes = text(lent(&lists_of(&states))).into_bytes();
        Sheet { states, bytes }
    }

    /// Every state must have a reply of this number.
    fn measure<'a>(&'a self, number: u64, whole: impl Fn() -> Pass<'a>) -> OfSheet {
        let sizes = SIZES.map(|size| {
            self.assert_answered(number, size);
            self.beside(whole(), size)
        });
        OfSheet {
            sizes,
            state_lines: self.states.len(),
            bytes: self.bytes.len(),
        }
    }

    /// In rounds of the two alone: behind parts of one byte the whole takes a fifth longer than behind one part of all, and
    /// so would flatter that if all sizes had rounds in common.
    fn beside(&self, whole: Pass, size: usize) -> Compared {
        compared(self.taken(size), whole)
    }

    /// Each line as `woolyard_state` answers it, and the end as `woolyard_sheet` has it of the whole.
    fn assert_answered(&self, number: u64, size: usize) {
        let states = self.states.iter();
        let expected: Vec<_> = states.map(|state| answer_to(state, number)).collect();
        let mut answers = Vec::new();
        let end = take_all(&self.bytes, size, |answer| answers.push(answer.to_vec()));
        assert_eq!(answers, expected, "in parts of {size}");
        let mut reading = [0; 3];
        let whole = boundary::sheet(&self.bytes, &mut reading);
        let [state_lines, place, _] = reading;
        assert_eq!(end, (whole, [state_lines, place]), "in parts of {size}");
    }

    pub fn taken(&self, size: usize) -> Pass<'_> {
        Box::new(move || {
            at_once(1, || {
                let end = take_all(black_box(&self.bytes), size, |answer| {
                    black_box(answer);
                });
                black_box(end);
            })
        })
    }

    /// The whole sheet read, and then one call for each of its states.
    pub fn read_and_asked(&self) -> Pass<'_> {
        let mut read = reads(&self.bytes);
        let mut asked = self.asked();
        Box::new(move || read() + asked())
    }

    /// The calls alone.
    pub fn asked(&self) -> Pass<'_> {
        let mut answer = calls(&self.states, proved::state);
        let count = self.states.len() as f64;
        Box::new(move || count * answer())
    }
}

/// What its line is answered by: the state as written, the number and the figures.
fn answer_to(state: &State, number: u64) -> Vec<u64> {
    let mut figures = [0; FIGURES];
    assert_eq!(proved::state(state, &mut figures), number, "{state:?}");
    let written = [state.fluid, state.millikelvin, state.pascals, number];
    [&written[..], &figures].concat()
}

/// What is said at the end of a sheet in parts of this size, the last of which may be shorter.
#[inline]
fn take_all(
    sheet: &[u8],
    size: usize,
    mut answered: impl FnMut(&[u64; LINE_NUMBERS]),
) -> (u64, [u64; 2]) {
    let mut parts = [0; PARTS];
    let mut taken = 0;
    let mut answer = [0; LINE_NUMBERS];
    for part in sheet.chunks(size) {
        let mut rest = part;
        while boundary::parts_take(&mut parts, rest, &mut taken, &mut answer) == 0 {
            answered(&answer);
            rest = &rest[taken as usize..];
        }
    }
    let mut reading = [0; 2];
    let number = boundary::parts_end(&parts, &mut reading);
    (number, reading)
}
