//! The state lines of a sheet, in one pass.

use crate::boundary::{self, CURSOR};
use crate::{sheet, FaultySheet, Refusal, State};
use std::iter::FusedIterator;

/// Each state line of a sheet as written, in range or not; and behind the last that stands the fault of a refused sheet,
/// once. The sheet is read as the lines are asked for: once in all, and for a fault once more, as [`sheet`] does. Who wants
/// nothing of a sheet that is refused asks that first.
///
/// ```
/// use woolyard::{FaultySheet, Fluid};
///
/// let mut states = woolyard::states(b"0\n2\n120000 500000\nx\n0\n");
/// let state = states.next().expect("a line")?;
/// assert_eq!((state.fluid, state.millikelvin, state.pascals), (Fluid::Oxygen, 120_000, 500_000));
/// let faulty = FaultySheet::Malformed { place: 18, line: b"x" };
/// assert_eq!(states.next(), Some(Err(faulty)));
/// assert_eq!(states.next(), None);
/// # Ok::<(), FaultySheet>(())
/// ```
pub fn states(sheet: &[u8]) -> States<'_> {
    States {
        sheet: Some(sheet),
        cursor: [0; CURSOR],
    }
}

/// The state lines of a sheet, which [`states()`] gives.
#[derive(Clone, Debug)]
#[must_use = "a sheet is read as its lines are asked for"]
pub struct States<'sheet> {
    /// None where all is told.
    sheet: Option<&'sheet [u8]>,
    cursor: [u64; CURSOR],
}

impl<'sheet> Iterator for States<'sheet> {
    type Item = Result<State, FaultySheet<'sheet>>;

    fn next(&mut self) -> Option<Result<State, FaultySheet<'sheet>>> {
        let sheet = self.sheet.take()?;
        let mut state = [0; 3];
        let number = boundary::sheet_next(sheet, &mut self.cursor, &mut state);
        let told = told(sheet, number, state);
        if let Some(Ok(_)) = told {
            self.sheet = Some(sheet);
        }
        told
    }
}

impl FusedIterator for States<'_> {}

/// What a step of this number comes to: a state, nothing where no line is left, or the fault.
pub(crate) fn told(
    text: &[u8],
    number: u64,
    state: [u64; 3],
) -> Option<Result<State, FaultySheet<'_>>> {
    match Refusal::check(number) {
        Ok(()) => Some(State::of(state).map_err(FaultySheet::Unknown)),
        // the header's NO_MORE_LINES is the same number
        Err(Refusal::NoSuchLine) => None,
        // only the reading of the whole tells the place of a fault and its line
        Err(refusal) => Some(Err(refusal.met(sheet(text), FaultySheet::Unknown))),
    }
}
