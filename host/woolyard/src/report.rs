//! What the states of a sheet come to, and the same of one that arrives in parts.

use crate::boundary::{self, PART_USED_UP, REPORT, REPORTING, SECTION_REPORT};
use crate::{Fault, Fluid, Refusal};

/// One page about a whole sheet.
#[derive(Clone, Copy, Debug, PartialEq, Eq, Hash)]
pub struct Report {
    pub parahydrogen: SectionReport,
    pub oxygen: SectionReport,
    pub nitrogen: SectionReport,
}

/// What the states of one fluid come to. The six counts together are the section's count.
#[derive(Clone, Copy, Debug, PartialEq, Eq, Hash)]
pub struct SectionReport {
    /// How many states were of kind ONE.
    pub one: u64,
    /// How many were SPLIT.
    pub split: u64,
    /// How many were refused by 21.
    pub temperature_too_low: u64,
    /// By 22.
    pub temperature_too_high: u64,
    /// By 31.
    pub pressure_too_low: u64,
    /// By 32.
    pub pressure_too_high: u64,
    /// Of the gas densities of the answered states, ONE and SPLIT, in grams per cubic metre: exact, and 0 where there are none.
    pub sum: u64,
    /// Of the same densities; None where no state was answered.
    pub smallest: Option<Reached>,
    pub largest: Option<Reached>,
}

/// A gas density that no other of its section is below, or above.
#[derive(Clone, Copy, Debug, PartialEq, Eq, Hash)]
pub struct Reached {
    /// In grams per cubic metre, rounded down.
    pub density: u64,
    /// Of the first state that reaches it, counted from 1 through the whole sheet, count lines included.
    pub line: u64,
}

impl Report {
    pub fn section(&self, fluid: Fluid) -> &SectionReport {
        match fluid {
            Fluid::Parahydrogen => &self.parahydrogen,
            Fluid::Oxygen => &self.oxygen,
            Fluid::Nitrogen => &self.nitrogen,
        }
    }

    /// What is told by a call that writes a report and a place.
    pub(crate) fn told(
        call: impl FnOnce(&mut [u64; REPORT], &mut u64) -> u64,
    ) -> Result<Report, Fault> {
        let mut numbers = [0; REPORT];
        let mut place = 0;
        let number = call(&mut numbers, &mut place);
        Fault::check(number, place)?;
        Ok(Report::of(numbers))
    }

    /// As the header lays them: hydrogen's eleven, then oxygen's, then nitrogen's.
    fn of(numbers: [u64; REPORT]) -> Report {
        let section = |fluid: Fluid| {
            let first = SECTION_REPORT * fluid.number() as usize;
            SectionReport::of(std::array::from_fn(|which| numbers[first + which]))
        };
        Report {
            parahydrogen: section(Fluid::Parahydrogen),
            oxygen: section(Fluid::Oxygen),
            nitrogen: section(Fluid::Nitrogen),
        }
    }
}

impl SectionReport {
    /// How many states were refused, by any number.
    pub fn refused(&self) -> u64 {
        total([
            self.temperature_too_low,
            self.temperature_too_high,
            self.pressure_too_low,
            self.pressure_too_high,
        ])
    }

    /// How many there were: the section's count.
    pub fn states(&self) -> u64 {
        total([self.one, self.split, self.refused()])
    }

    fn of(numbers: [u64; SECTION_REPORT]) -> SectionReport {
        let [one, split, refused @ .., sum, smallest, its_line, largest, line_of_largest] = numbers;
        let [temperature_too_low, temperature_too_high, pressure_too_low, pressure_too_high] =
            refused;
        let reached = |density, line| {
            let answered = (one, split) != (0, 0);
            answered.then_some(Reached { density, line })
        };
        SectionReport {
            one,
            split,
            temperature_too_low,
            temperature_too_high,
            pressure_too_low,
            pressure_too_high,
            sum,
            smallest: reached(smallest, its_line),
            largest: reached(largest, line_of_largest),
        }
    }
}

/// Counts of a sheet are small; those behind numbers that no sheet has left may be any, and are no reason to panic.
fn total<const COUNTS: usize>(counts: [u64; COUNTS]) -> u64 {
    counts.into_iter().fold(0, u64::saturating_add)
}

/// All that is kept between two parts of a sheet that is reported on: numbers, which are zeros before the first byte. They
/// may be stored, as [`numbers`](Reporting::numbers), and gone on from at any time, also from a clone. It is not `Copy`,
/// since what a copy takes unseen is lost. However a sheet is cut, [`end`](Reporting::end) says the same behind its last
/// byte.
///
/// ```
/// use woolyard::{Fault, Reporting};
///
/// let mut reporting = Reporting::default();
/// reporting.take(b"0\n1\n1200")?;
/// assert_eq!(reporting.end(), Err(Fault::Malformed { place: 4 }));
///
/// let mut reporting = Reporting::from(reporting.numbers());
/// reporting.take(b"00 500000\n0\n")?;
/// assert_eq!(reporting.end(), woolyard::report(b"0\n1\n120000 500000\n0\n"));
/// # Ok::<(), Fault>(())
/// ```
#[derive(Clone, Debug, PartialEq, Eq, Hash)]
pub struct Reporting([u64; REPORTING]);

impl Default for Reporting {
    fn default() -> Reporting {
        Reporting([0; REPORTING])
    }
}

impl From<[u64; REPORTING]> for Reporting {
    /// Any numbers at all may be given, but only those that a [`Reporting`] had, or zeros, tell of a sheet.
    fn from(numbers: [u64; REPORTING]) -> Reporting {
        Reporting(numbers)
    }
}

impl Reporting {
    /// To be stored.
    pub fn numbers(&self) -> [u64; REPORTING] {
        self.0
    }

    /// Takes the next bytes of the sheet, which may end anywhere. Where a fault was met, in this part or in one before, it is
    /// told, and again with every part from then on.
    pub fn take(&mut self, part: &[u8]) -> Result<(), Fault> {
        match boundary::report_take(&mut self.0, part) {
            PART_USED_UP => Ok(()),
            // only the end tells the place of a fault
            number => Err(Refusal::of(number).met(self.end(), Fault::Unknown)),
        }
    }

    /// What would be said of the sheet if it were over here: the report, or the fault, which is then also a line that is
    /// missing or lacks its end. Nothing is changed, so more may be taken. Of at most
    /// [`SHEET_MOST_BYTES`](crate::SHEET_MOST_BYTES) it is what [`report`](crate::report()) says of the whole.
    pub fn end(&self) -> Result<Report, Fault> {
        Report::told(|report, place| boundary::report_end(&self.0, report, place))
    }
}
