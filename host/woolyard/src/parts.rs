//! A sheet that arrives in parts.

use crate::boundary::{self, LINE_NUMBERS, PARTS, PART_USED_UP};
use crate::reply::index;
use crate::{answer, Fault, Line, Refusal};
use std::iter::FusedIterator;

/// All that is kept of a sheet between two of its parts: eight numbers, which are zeros before the first byte. They may be
/// stored, as [`numbers`](Parts::numbers), and gone on from at any time, also from a clone. It is not `Copy`, since what a
/// copy takes unseen is lost. However a sheet is cut, the answers are the same, and so is what [`end`](Parts::end) says
/// behind its last byte.
///
/// ```
/// use woolyard::{Fault, Parts};
///
/// let mut parts = Parts::default();
/// assert_eq!(parts.take(b"0\n1\n1200").count(), 0);
/// assert_eq!(parts.end(), Err(Fault::Malformed { place: 4 }));
///
/// let mut parts = Parts::from(parts.numbers());
/// for line in parts.take(b"00 500000\n0\n") {
///     let line = line?;
///     assert_eq!((line.millikelvin, line.pascals), (120_000, 500_000));
///     assert_eq!(line.reply.map(|answer| answer.gas_root), Ok(92_696));
/// }
/// assert_eq!(parts.end(), Ok(1));
/// # Ok::<(), Fault>(())
/// ```
#[derive(Clone, Debug, Default, PartialEq, Eq, Hash)]
pub struct Parts([u64; PARTS]);

impl From<[u64; PARTS]> for Parts {
    /// Any numbers at all may be given, but only those that a [`Parts`] had, or zeros, tell of a sheet.
    fn from(numbers: [u64; PARTS]) -> Parts {
        Parts(numbers)
    }
}

impl Parts {
    /// To be stored.
    pub fn numbers(&self) -> [u64; PARTS] {
        self.0
    }

    /// Takes the next bytes of the sheet, which may end anywhere, and answers each state whose line ends in them. They
    /// are taken as the lines are asked for.
    pub fn take<'part>(&mut self, part: &'part [u8]) -> Lines<'_, 'part> {
        Lines {
            parts: self,
            rest: Some(part),
        }
    }

    /// What would be said of the sheet if it were over here: the number of state lines, or the fault, which is then
    /// also a line that is missing or lacks its end. Nothing is changed, so more may be taken. Of at most
    /// [`SHEET_MOST_BYTES`](crate::SHEET_MOST_BYTES) it is what [`sheet`](crate::sheet) says of the whole.
    pub fn end(&self) -> Result<u64, Fault> {
        let mut reading = [0; 2];
        let number = boundary::parts_end(&self.0, &mut reading);
        let [state_lines, place] = reading;
        Fault::check(number, place)?;
        Ok(state_lines)
    }
}

/// The state lines that end in a part, each with the reply to its state. Where a fault was met, in this part or in one
/// before, it comes behind them, once, and the rest of the part has changed nothing; the lines before it stand.
#[derive(Debug)]
#[must_use = "a part is taken as its lines are asked for"]
pub struct Lines<'parts, 'part> {
    parts: &'parts mut Parts,
    /// None where all is taken.
    rest: Option<&'part [u8]>,
}

impl<'part> Lines<'_, 'part> {
    /// What of the part is not taken yet: to be taken later by whoever leaves off between two lines.
    pub fn rest(&self) -> &'part [u8] {
        self.rest.unwrap_or_default()
    }
}

impl Iterator for Lines<'_, '_> {
    type Item = Result<Line, Fault>;

    fn next(&mut self) -> Option<Result<Line, Fault>> {
        let rest = self.rest.take()?;
        let mut taken = 0;
        let mut numbers = [0; LINE_NUMBERS];
        let number = boundary::parts_take(&mut self.parts.0, rest, &mut taken, &mut numbers);
        if number == PART_USED_UP {
            return None;
        }
        if number != 0 {
            // only the end tells the place of a fault
            let fault = Refusal::of(number).met(self.parts.end(), Fault::Unknown);
            return Some(Err(fault));
        }
        self.rest = rest.get(index(taken)..);
        let told = self.rest.is_some().then(|| line(numbers));
        Some(told.ok_or(Fault::Unknown(Refusal::NO_ANSWER)))
    }
}

impl FusedIterator for Lines<'_, '_> {}

fn line([fluid, millikelvin, pascals, number, figures @ ..]: [u64; LINE_NUMBERS]) -> Line {
    let reply = answer(number, figures);
    Line {
        fluid,
        millikelvin,
        pascals,
        reply,
    }
}
