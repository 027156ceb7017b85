//! The report of a sheet that arrives in parts.

use super::journeys::{Asked, Fault, Taken};
use crate::call::{Call, KeptReport, REPORT, REPORTING, REPORT_PLACE};
use second::report::SECTION_FIGURES;

/// The first so many figures of a section count its states.
const COUNTS: usize = 6;

#[derive(Clone)]
pub struct Reports {
    kept: KeptReport,
    told: Told,
}

#[derive(Clone, Debug, PartialEq, Eq)]
pub struct Told {
    fault: Fault,
    /// What the sheet's end said last: the number, the place and the report.
    end: (u64, u64, [u64; REPORT]),
    /// The numbers that were left.
    numbers: [u64; REPORTING],
}

impl Asked for Reports {
    type Told = Told;

    const KEPT: usize = REPORTING;

    fn nothing() -> Reports {
        Reports::behind(KeptReport::nothing())
    }

    fn from_any(numbers: &[u64]) -> Reports {
        Reports::behind(KeptReport {
            numbers: numbers.try_into().expect("as many as are kept"),
            reporting: None,
        })
    }

    fn take(&self, part: &[u8], length: usize) -> Call {
        Call::report_take(&self.kept, part, length)
    }

    fn end(&self) -> Call {
        Call::report_end(&self.kept)
    }

    fn take_answered(&mut self, answer: &Call, _: usize) -> Taken {
        match self.told.fault.stays_with_part(answer.number) {
            true => Taken::All,
            false => Taken::Impossible,
        }
    }

    fn end_answered(&mut self, answer: &Call) -> bool {
        let end @ (number, place, report) = end_of(answer);
        self.told.end = end;
        let plausible = match number {
            0 => place == 0,
            6 => report == [0; REPORT],
            _ => place == 0 && report == [0; REPORT],
        };
        plausible && self.told.fault.stays_with_end(number)
    }

    fn keep(&mut self, answer: Call) {
        self.kept = KeptReport::after(answer);
        self.told.numbers = self.kept.numbers;
    }

    fn told(&self) -> &Told {
        &self.told
    }

    fn left(&self) -> &[u64] {
        &self.told.numbers
    }

    fn is_known(&self) -> bool {
        self.kept.reporting.is_some()
    }

    /// Its report, and the reply to the sheet alone.
    fn whole_calls(&self, bytes: &[u8], length: usize) -> Vec<Call> {
        vec![Call::report(bytes, length), Call::sheet(bytes, length)]
    }

    /// The report is that of the whole; and what the sheet is said to be is what the reply to it says, with as many
    /// states as were counted.
    fn is_told(&self, answer: &mut dyn FnMut() -> Call) -> bool {
        let [whole, sheet] = [answer(), answer()];
        let (number, place, report) = self.told.end;
        let sections = report.chunks(SECTION_FIGURES);
        let states: u64 = sections.flat_map(|section| &section[..COUNTS]).sum();
        end_of(&whole) == self.told.end
            && sheet.number == number
            && sheet.places[..2] == [states, place]
    }
}

impl Reports {
    fn behind(kept: KeptReport) -> Reports {
        let told = Told {
            fault: Fault::default(),
            end: (0, 0, [0; REPORT]),
            numbers: kept.numbers,
        };
        Reports { kept, told }
    }
}

/// The number, the place and the report that a call told.
fn end_of(call: &Call) -> (u64, u64, [u64; REPORT]) {
    (call.number, call.places[REPORT_PLACE], call.reported())
}

#[cfg(test)]
mod tests {
    use super::super::adding::Adding;
    use super::*;
    use crate::call::{Function, AHEAD, REPORTED_ROOM};

    const GOOD: &[u8] = b"1\n300000 1000000\n0\n0\n";

    const ADDING: Adding = Adding {
        take: Function::ReportTake,
        end: Function::ReportEnd,
        is_known: |call| call.reporting.is_some(),
        sum: AHEAD,
        behind_part: |_| (),
        at_end: |call, sum| {
            call.lists[REPORTED_ROOM + AHEAD..][..REPORT].fill(0);
            call.places[REPORT_PLACE] = sum;
        },
        change: |_| (),
    };

    fn any() -> Reports {
        Reports::from_any(&[0; REPORTING])
    }

    #[test]
    fn all_is_well() {
        let arrived = ADDING.arrived(&any(), GOOD).expect("no difference");
        let [any, good] = &arrived[..] else {
            panic!("two sheets");
        };
        assert_eq!(any.asked().left()[..2], [233, 1]);
        let (number, place, report) = good.asked().told().end;
        assert_eq!((number, place), (0, 0));
        assert_eq!(report[..12], [1, 0, 0, 0, 0, 0, 804, 804, 2, 804, 2, 0]);
    }

    /// A part that counts, though it may be empty; a fault that is mended, or told of by another number; and an end that
    /// tells of another fault, of none, of no number, or of a figure where it is refused.
    #[test]
    fn what_any_numbers_may_not_do() {
        let changes: [fn(&mut Call); 7] = [
            |call| call.lists[2] += u64::from(call.function == Function::ReportTake),
            |call| call.lists[3] &= u64::from(call.length > 0),
            |call| call.number += u64::from(call.number == 6 && call.length == 1),
            |call| call.number += u64::from(call.function == Function::ReportEnd),
            |call| call.number *= u64::from(call.function == Function::ReportTake),
            |call| call.number += 10 * u64::from(call.function == Function::ReportEnd),
            |call| {
                if call.function == Function::ReportEnd {
                    call.lists[82] = 1;
                }
            },
        ];
        ADDING.assert_told(&any(), GOOD, &changes);
    }
}
