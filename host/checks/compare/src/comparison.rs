//! Asks the archive and the second implementation the same, and stops at the first difference.

use crate::boundary::Boundary;
use crate::call::{Call, Function, AHEAD, CURSOR, PARTS, REPORTING};
use crate::second_side::Second;
use crate::tally::Tally;
use second::heat::NOT_NUMBERS;
use second::random::Random;
use std::io;
use std::mem;

/// The first difference in one line, or why there was no answer.
pub type Outcome = Result<(), String>;

/// How much waits before it is asked at once. A served process reads a batch into 4 MiB; each call adds
/// less than 130 bytes to what it lends, and the last one lends less than four fifths of that.
const MOST_CALLS: usize = 2000;
const MOST_LENT_BYTES: usize = 300_000;

pub struct Comparison {
    archive: Box<dyn Boundary>,
    second: Second,
    junk: Random,
    waiting: Batch,
    pub tally: Tally,
}

/// Calls that are asked together.
#[derive(Default)]
struct Batch {
    calls: Vec<Call>,
    lent_bytes: usize,
}

impl Batch {
    fn add(&mut self, call: Call) {
        self.lent_bytes += call.lent_bytes();
        self.calls.push(call);
    }

    fn is_full(&self) -> bool {
        self.calls.len() >= MOST_CALLS || self.lent_bytes >= MOST_LENT_BYTES
    }
}

impl Comparison {
    pub fn new(archive: Box<dyn Boundary>) -> Comparison {
        Comparison {
            archive,
            second: Second::default(),
            junk: Random(0),
            waiting: Batch::default(),
            tally: Tally::default(),
        }
    }

    /// From here on the junk is the same in every run.
    pub fn begin(&mut self, seed: u64) {
        self.junk = Random(seed);
        self.tally = Tally::default();
    }

    /// Has this call compared, at once or by the next `settle`.
    pub fn ask(&mut self, call: Call) -> Outcome {
        let question = self.question(call);
        self.waiting.add(question);
        if self.waiting.is_full() {
            return self.settle();
        }
        Ok(())
    }

    /// The calls as the archive made them, compared at once: for what only several answers tell.
    pub fn answers<const COUNT: usize>(
        &mut self,
        calls: [Call; COUNT],
    ) -> Result<[Call; COUNT], String> {
        let answers = self.all_answers(calls)?;
        Ok(answers.try_into().expect("an answer to each"))
    }

    /// The same of any number of calls, of which no more are asked at once than could wait.
    pub fn all_answers(
        &mut self,
        calls: impl IntoIterator<Item = Call>,
    ) -> Result<Vec<Call>, String> {
        let mut answers = Vec::new();
        let mut batch = Batch::default();
        for call in calls {
            batch.add(self.question(call));
            if batch.is_full() {
                answers.extend(self.compared(&mem::take(&mut batch).calls)?);
            }
        }
        answers.extend(self.compared(&batch.calls)?);
        Ok(answers)
    }

    /// The places are filled with junk, and so are a buffer and what is lent beside a cursor and the numbers that are kept
    /// of a sheet, so that one which should be written and is not shows, and one that should not be and is.
    fn question(&mut self, mut call: Call) -> Call {
        call.places = [(); 5].map(|()| self.junk());
        match call.function {
            Function::WriteSheet => call.sheet.fill_with(|| self.junk.number() as u8),
            Function::PartsTake | Function::PartsEnd => {
                call.lists[PARTS..].fill_with(|| self.junk());
            }
            Function::Report => call.lists.fill_with(|| self.junk()),
            Function::SheetNext => self.junk_beside(&mut call.lists, CURSOR),
            Function::ReportTake | Function::ReportEnd => {
                self.junk_beside(&mut call.lists, REPORTING);
            }
            _ => (),
        }
        self.tally.count(call.function);
        call
    }

    /// Ahead of the first so many numbers that are the function's, and behind them.
    fn junk_beside(&mut self, lists: &mut [u64], numbers: usize) {
        lists[..AHEAD].fill_with(|| self.junk());
        lists[AHEAD + numbers..].fill_with(|| self.junk());
    }

    /// Any number, or the pattern of a NaN, which a copy as a double might change.
    fn junk(&mut self) -> u64 {
        let any = self.junk.number();
        let pattern = NOT_NUMBERS[any as usize % NOT_NUMBERS.len()];
        match any >> 62 {
            0 => pattern,
            1 => pattern | 1 << 63,
            _ => any,
        }
    }

    /// Compares all that waits.
    pub fn settle(&mut self) -> Outcome {
        let questions = mem::take(&mut self.waiting).calls;
        self.compared(&questions).map(drop)
    }

    /// What the archive made of them, which is what the second implementation did. Of a sheet that arrives in parts each
    /// keeps its own, and both come back.
    fn compared(&mut self, questions: &[Call]) -> Result<Vec<Call>, String> {
        let mut archive = made(self.archive.as_mut(), questions)
            .map_err(|error| format!("the archive gives no answer: {error}"))?;
        let second = made(&mut self.second, questions).map_err(|error| error.to_string())?;
        for ((question, archive), mut second) in questions.iter().zip(&mut archive).zip(second) {
            second.take_over_kept(archive);
            archive.arrival.clone_from(&second.arrival);
            archive.reporting.clone_from(&second.reporting);
            if *archive != second {
                return Err(format!(
                    "{question}: the archive answers {archive}; the second implementation {second}"
                ));
            }
        }
        Ok(archive)
    }

    /// For parts that choose questions by what is answered.
    pub fn second(&mut self) -> &mut Second {
        &mut self.second
    }
}

fn made(boundary: &mut dyn Boundary, questions: &[Call]) -> io::Result<Vec<Call>> {
    let mut calls = questions.to_vec();
    boundary.make(&mut calls)?;
    Ok(calls)
}

#[cfg(test)]
mod tests {
    use super::*;
    use crate::call::{Kept, KeptReport};
    use second::cursor::Cursor;
    use second::sheet::{LONGEST, TEN_NINES};
    use second::state::bytes_of_slot;
    use second::writer::OwnLists;
    use std::sync::Arc;

    /// The second implementation in the archive's stead, with one answer changed.
    struct Changed(fn(&mut Call));

    impl Boundary for Changed {
        fn make(&mut self, calls: &mut [Call]) -> io::Result<()> {
            Second::default().make(calls)?;
            calls.last_mut().map(self.0);
            Ok(())
        }
    }

    fn outcome(calls: Vec<Call>, change: fn(&mut Call)) -> Outcome {
        let mut comparison = Comparison::new(Box::new(Changed(change)));
        for call in calls {
            comparison.ask(call)?;
        }
        comparison.settle()
    }

    fn calls() -> Vec<Call> {
        let state = [1, 120_000, 500_000];
        vec![
            Call::abi(),
            Call::state(state),
            Call::walk(state, 8411),
            Call::band(state, [950, 1050]),
            Call::claims(&[[1, 120_000, 500_000, 0, 92_696]], [1; 5]),
            Call::heat(0),
            Call::heat_table(41_500),
            Call::viscosity(1000),
            Call::sheet(b"0\n0\n0\n0", 6),
            Call::sheet_next(b"0\n0\n0\n0", 6, Cursor::default()),
            Call::parts_take(&Kept::nothing(), b"0\n0\n0\n0", 6),
            Call::parts_end(&Kept::nothing()),
            Call::report(b"0\n0\n0\n0", 6),
            Call::report_take(&KeptReport::nothing(), b"0\n0\n0\n0", 6),
            Call::report_end(&KeptReport::nothing()),
            Call::write_sheet(&OwnLists::default(), 6),
            Call::side_with_book(state, 1, 63, &[7; 195], 192),
            Call::state_with_book(state, 63, &[7; 195], 192),
        ]
    }

    #[test]
    fn no_difference() {
        assert_eq!(outcome(calls(), |_| ()), Ok(()));
    }

    /// In the number, in a figure, in each byte of the slot, in the byte before it, in the first of the
    /// book, and past its end.
    #[test]
    fn differences() {
        let changes: [fn(&mut Call); 8] = [
            |call| call.number = 4,
            |call| call.places[4] += 1,
            |call| call.book[189] = 7,
            |call| call.book[190] = 7,
            |call| call.book[191] = 7,
            |call| call.book[188] = 0x18,
            |call| call.book[0] = 0x18,
            |call| call.book[192] = 0,
        ];
        for change in changes {
            let told = outcome(calls(), change).expect_err("a difference");
            assert!(told.contains("slot 63") && told.contains("; the second implementation 0 and"));
        }
    }

    /// Where the dense side is named: in the number, in both figures, and in the slot, where the gas root
    /// belongs.
    #[test]
    fn differences_of_a_side() {
        let state = [1, 120_000, 500_000];
        let side = || vec![Call::side_with_book(state, 1, 63, &[7; 195], 192)];
        assert_eq!(outcome(side(), |_| ()), Ok(()));
        let changes: [fn(&mut Call); 4] = [
            |call| call.number = 12,
            |call| call.places[0] = 92_696,
            |call| call.places[1] = 17_299,
            |call| call.book[189..192].copy_from_slice(&bytes_of_slot(1699)),
        ];
        for change in changes {
            let told = outcome(side(), change).expect_err("a difference");
            assert!(told.contains("side 1, slot 63") && told.contains("[1699, 943832, "));
        }
    }

    /// Of a walk that ends, of one that is cut short, and of one whose state is refused: in the number, in the
    /// root, in the count, and in a place that it does not have.
    #[test]
    fn differences_of_a_walk() {
        for (state, limit) in [
            ([1, 120_000, 500_000], 8411),
            ([1, 120_000, 500_000], 8410),
            ([1, 55_999, 500_000], 8411),
        ] {
            let walk = || vec![Call::walk(state, limit)];
            assert_eq!(outcome(walk(), |_| ()), Ok(()));
            let changes: [fn(&mut Call); 4] = [
                |call| call.number ^= 11,
                |call| call.places[0] ^= 92_696,
                |call| call.places[1] += 1,
                |call| call.places[2] ^= 1,
            ];
            for change in changes {
                let told = outcome(walk(), change).expect_err("a difference");
                assert!(told.contains(&format!("pascals 500000, limit {limit}) over")));
            }
        }
    }

    /// Of a band that is answered, of one whose scalings are refused, and of one whose state is: in the number,
    /// in each root, in the order of the two, and in a place that it does not have.
    #[test]
    fn differences_of_a_band() {
        for (state, [lower, upper]) in [
            ([1, 120_000, 500_000], [950, 1050]),
            ([1, 120_000, 500_000], [1050, 950]),
            ([1, 55_999, 500_000], [950, 1050]),
        ] {
            let band = || vec![Call::band(state, [lower, upper])];
            assert_eq!(outcome(band(), |_| ()), Ok(()));
            let changes: [fn(&mut Call); 4] = [
                |call| call.number ^= 13,
                |call| call.places[0] += 1,
                |call| call.places[1] += 1,
                |call| call.places[2] ^= 1,
            ];
            for change in changes {
                let told = outcome(band(), change).expect_err("a difference");
                assert!(told.contains(&format!("500000, lower {lower}, upper {upper}) over")));
            }
        }
        let answered = vec![Call::band([1, 120_000, 500_000], [950, 1050])];
        let told = outcome(answered, |call| call.places.swap(0, 1)).expect_err("a difference");
        assert!(told.contains("answers 0 and [92232, 93155, "));
    }

    /// Of claims that stand, of a refused one behind one that stands, and of lists of unequal lengths: in the number,
    /// in the claim's number, in a place that the call does not have, in a number of the first list and of the last,
    /// and past their ends.
    #[test]
    fn differences_of_claims() {
        let [gas, dense] = [
            [1, 120_000, 500_000, 0, 92_696],
            [1, 120_000, 500_000, 1, 1699],
        ];
        let wrong = [1, 120_000, 500_000, 1, 92_696];
        for (claims, lengths, told) in [
            ([gas, dense, wrong], [2; 5], "0 and [0, "),
            ([gas, wrong, wrong], [2; 5], "14 and [1, "),
            ([gas, wrong, wrong], [2, 2, 2, 2, 1], "8 and [0, "),
        ] {
            let list = || vec![Call::claims(&claims, lengths)];
            assert_eq!(outcome(list(), |_| ()), Ok(()));
            let changes: [fn(&mut Call); 7] = [
                |call| call.number ^= 14,
                |call| call.places[0] += 1,
                |call| call.places[1] ^= 1,
                |call| call.lists[0] = 0,
                |call| call.lists[2] = 0,
                |call| call.lists[12] = 0,
                |call| call.lists[14] = 0,
            ];
            for change in changes {
                let difference = outcome(list(), change).expect_err("a difference");
                assert!(difference.contains(&format!("(lengths {lengths:?}) over")));
                assert!(difference.contains(&format!("; the second implementation {told}")));
                assert!(difference.contains(", fluids [1, 1, 1], millikelvin [120000, "));
            }
        }
    }

    /// Of a sheet that is written, and of lists that each refusal is for: in the number, in the length, in a place that
    /// the call does not have, in the first byte of the buffer, behind the sheet that it is to hold, past the buffer's
    /// end, in a number of the first list and of the last, and past their ends.
    #[test]
    fn differences_of_a_written_sheet() {
        let lists = |hydrogen: &[u64], nitrogen: &[u64]| {
            let [hydrogen, nitrogen] = [hydrogen, nitrogen].map(<[u64]>::to_vec);
            let empty = Vec::new;
            [
                hydrogen.clone(),
                hydrogen,
                empty(),
                empty(),
                vec![7],
                nitrogen,
            ]
        };
        for (lists, length, told) in [
            (lists(&[1], &[2]), 20, "0 and [14, "),
            (lists(&[1], &[2]), 14, "0 and [14, "),
            (lists(&[1, 2], &[]), 20, "8 and [0, "),
            (lists(&[1], &[TEN_NINES + 1]), 20, "9 and [0, "),
            (lists(&[1], &[2]), 13, "10 and [0, "),
        ] {
            let write = || vec![Call::write_sheet(&lists, length)];
            assert_eq!(outcome(write(), |_| ()), Ok(()));
            let changes: [fn(&mut Call); 10] = [
                |call| call.number ^= 10,
                |call| call.places[0] += 1,
                |call| call.places[1] ^= 1,
                |call| call.sheet[0] ^= 1,
                |call| call.sheet[14] ^= 1,
                |call| call.sheet[call.length - 1] ^= 1,
                |call| call.sheet[call.length] ^= 1,
                |call| call.lists[0] = 0,
                |call| *call.lists.last_mut().expect("six lists") = 0,
                |call| call.lists[1] ^= 1,
            ];
            for change in changes {
                let difference = outcome(write(), change).expect_err("a difference");
                assert!(difference.contains(&format!("buffer length {length}) over")));
                assert!(difference.contains(&format!("; the second implementation {told}")));
                assert!(difference.contains(", hydrogen millikelvin [1, "));
            }
        }
    }

    fn assert_told_of(call: &Call, told: &str, changes: &[fn(&mut Call)]) {
        let call = || vec![call.clone()];
        assert_eq!(outcome(call(), |_| ()), Ok(()));
        for &change in changes {
            let difference = outcome(call(), change).expect_err("a difference");
            assert!(difference.contains(told), "{difference}");
        }
    }

    /// In the number, and in a place, of which the call has none.
    #[test]
    fn differences_of_the_abi() {
        let changes: [fn(&mut Call); 3] = [
            |call| call.number += 1,
            |call| call.number = 0,
            |call| call.places[0] ^= 1,
        ];
        assert_told_of(&Call::abi(), "; the second implementation 1 and ", &changes);
    }

    /// Of a line that is told, of a sheet that is over, of a fault and of a sheet that is too long: in the number, in the
    /// state, in a place that the call does not have, in the cursor, beside it, and in the sheet and behind it.
    #[test]
    fn differences_of_a_next_line() {
        let changes: [fn(&mut Call); 14] = [
            |call| call.number ^= 16,
            |call| call.places[0] += 1,
            |call| call.places[1] += 1,
            |call| call.places[2] += 1,
            |call| call.places[3] ^= 1,
            |call| call.lists[2] += 1,
            |call| call.lists[3] ^= 1,
            |call| call.lists[4] += 1,
            |call| call.lists[0] ^= 1,
            |call| call.lists[1] ^= 1,
            |call| call.lists[5] ^= 1,
            |call| call.lists[6] ^= 1,
            |call| call.sheet[0] ^= 1,
            |call| *call.sheet.last_mut().expect("what lies behind") ^= 1,
        ];
        let sheet = b"0\n1\n5 6\n0\n\n0\n";
        let too_long = [b'0'; LONGEST + 2];
        for (sheet, length, told) in [
            (&sheet[..], 10, "0 and [1, 5, 6, "),
            (&b"0\n0\n0\n0\n"[..], 6, "16 and [0, 0, 0, "),
            (sheet, 7, "6 and [0, 0, 0, "),
            (&too_long, LONGEST + 1, "7 and [0, 0, 0, "),
        ] {
            let call = Call::sheet_next(sheet, length, Cursor::default());
            let told = format!("; the second implementation {told}");
            assert_told_of(&call, &told, &changes);
        }
    }

    /// Behind the numbers that are kept, behind the answer, in a place that the call does not have, in the part and
    /// behind it.
    const BESIDE_A_PART: [fn(&mut Call); 6] = [
        |call| call.lists[8] ^= 1,
        |call| call.lists[9] ^= 1,
        |call| call.lists[19] ^= 1,
        |call| call.places[1] ^= 1,
        |call| call.sheet[0] ^= 1,
        |call| *call.sheet.last_mut().expect("what lies behind") ^= 1,
    ];

    /// Of a part in which a state line ends, of one that is used up, and of one in which a fault is met: in the number, in
    /// how much is taken, and in the answer. The numbers that the archive keeps are its own.
    #[test]
    fn differences_of_a_part() {
        let changes: [fn(&mut Call); 4] = [
            |call| call.number ^= 16,
            |call| call.places[0] += 1,
            |call| call.lists[10] += 1,
            |call| call.lists[18] += 1,
        ];
        for (part, length, told) in [
            (b"1\n300000 1000000\n0\n", 19, "0 and [17, "),
            (b"1\n300000 1000000\n0\n", 16, "16 and [16, "),
            (b"1\n300000 1000000 \n0", 19, "6 and [19, "),
        ] {
            let call = Call::parts_take(&Kept::nothing(), part, length);
            let told = format!("; the second implementation {told}");
            assert_told_of(&call, &told, &[&changes[..], &BESIDE_A_PART].concat());
            assert_eq!(outcome(vec![call], |call| call.lists[..8].fill(7)), Ok(()));
        }
    }

    /// Of a good sheet's end and of one that lacks a line: in the number, in what is read, in a place that the call
    /// does not have, in the numbers that are kept, and behind them.
    #[test]
    fn differences_of_the_end_of_a_sheet() {
        let changes: [fn(&mut Call); 7] = [
            |call| call.number ^= 6,
            |call| call.places[0] += 1,
            |call| call.places[1] += 1,
            |call| call.places[2] ^= 1,
            |call| call.lists[0] ^= 1,
            |call| call.lists[7] ^= 1,
            |call| call.lists[8] ^= 1,
        ];
        for (sheet, told) in [
            (&b"0\n0\n0\n"[..], "0 and [0, 0, "),
            (b"0\n0\n", "6 and [0, 4, "),
        ] {
            let mut kept = Kept::nothing();
            let arrival = kept.arrival.as_mut().expect("nothing yet");
            assert_eq!(arrival.take(sheet), (sheet.len(), Err(16)));
            assert_told_of(&Call::parts_end(&kept), told, &changes);
        }
    }

    /// Of any numbers all that the functions may write is the archive's to say, and nothing else.
    #[test]
    fn differences_with_any_numbers() {
        let any = Kept {
            parts: [7; 8],
            arrival: None,
        };
        let take = || vec![Call::parts_take(&any, b"0\n0\n", 3)];
        let written = |call: &mut Call| {
            call.lists[..8].fill(1);
            call.lists[10..19].fill(2);
            [call.number, call.places[0]] = [3, 4];
        };
        assert_eq!(outcome(take(), written), Ok(()));
        for change in BESIDE_A_PART {
            assert!(outcome(take(), change).is_err());
        }
        let end = || vec![Call::parts_end(&any)];
        assert_eq!(outcome(end(), |call| call.places[..2].fill(1)), Ok(()));
        assert!(outcome(end(), |call| call.places[2] ^= 1).is_err());
        assert!(outcome(end(), |call| call.lists[0] ^= 1).is_err());
    }

    /// Ahead of the first list of a report and behind the last, in the places beside the one that the call has.
    const BESIDE_A_REPORT: [fn(&mut Call); 6] = [
        |call| call.lists[0] ^= 1,
        |call| call.lists[1] ^= 1,
        |call| call.lists[46] ^= 1,
        |call| *call.lists.last_mut().expect("a list") ^= 1,
        |call| call.places[1] ^= 1,
        |call| call.places[3] ^= 1,
    ];

    /// Of the report of a whole sheet and of refused ones: in the number, in the place, in the first figure and the last,
    /// beside all of these, and in the sheet and behind it.
    #[test]
    fn differences_of_a_report() {
        let changes: [fn(&mut Call); 7] = [
            |call| call.number ^= 6,
            |call| call.places[2] += 1,
            |call| call.lists[2] += 1,
            |call| call.lists[34] += 1,
            |call| call.lists[35] ^= 1,
            |call| call.sheet[0] ^= 1,
            |call| *call.sheet.last_mut().expect("what lies behind") ^= 1,
        ];
        for (length, told) in [(21, "0 and ["), (20, "6 and ["), (22, "6 and [")] {
            let call = Call::report(b"0\n0\n1\n300000 1000000\n\n0\n", length);
            let told = format!("; the second implementation {told}");
            assert_told_of(&call, &told, &[&changes[..], &BESIDE_A_REPORT].concat());
        }
    }

    /// Of a part in which no fault is met and of one in which one is: in the number, beside the numbers that are kept,
    /// which are the archive's own, and in the part.
    #[test]
    fn differences_of_a_reported_part() {
        let changes: [fn(&mut Call); 3] = [
            |call| call.number ^= 16,
            |call| call.places[2] ^= 1,
            |call| call.sheet[0] ^= 1,
        ];
        for (part, told) in [(b"0\n0\n0\n", "16 and ["), (b"0\n0\nx\n", "6 and [")] {
            let call = Call::report_take(&KeptReport::nothing(), part, 6);
            let told = format!("; the second implementation {told}");
            assert_told_of(&call, &told, &[&changes[..], &BESIDE_A_REPORT].concat());
            assert_eq!(
                outcome(vec![call], |call| call.lists[2..46].fill(7)),
                Ok(())
            );
        }
    }

    /// Of a good sheet's end and of one that lacks a line: in the number, in the place, in the first figure and the last,
    /// in the numbers that are kept, and beside all of these.
    #[test]
    fn differences_of_the_end_of_a_reported_sheet() {
        let changes: [fn(&mut Call); 8] = [
            |call| call.number ^= 6,
            |call| call.places[2] += 1,
            |call| call.lists[50] += 1,
            |call| call.lists[82] += 1,
            |call| call.lists[49] ^= 1,
            |call| call.lists[83] ^= 1,
            |call| call.lists[2] ^= 1,
            |call| call.lists[45] ^= 1,
        ];
        for (sheet, told) in [
            (&b"0\n0\n0\n"[..], "; the second implementation 0 and ["),
            (b"0\n0\n", "; the second implementation 6 and ["),
        ] {
            let mut kept = KeptReport::nothing();
            let reporting = kept.reporting.as_mut().expect("nothing yet");
            assert_eq!(Arc::make_mut(reporting).take(sheet), 16);
            let changes = [&changes[..], &BESIDE_A_REPORT].concat();
            assert_told_of(&Call::report_end(&kept), told, &changes);
        }
    }

    /// As for the parts of a sheet whose lines are answered.
    #[test]
    fn differences_of_reports_with_any_numbers() {
        let any = KeptReport {
            numbers: [7; 44],
            reporting: None,
        };
        let take = || vec![Call::report_take(&any, b"0\n0\n", 3)];
        let written = |call: &mut Call| {
            call.lists[2..46].fill(1);
            call.number = 3;
        };
        assert_eq!(outcome(take(), written), Ok(()));
        let end = || vec![Call::report_end(&any)];
        let written = |call: &mut Call| {
            call.lists[50..83].fill(1);
            [call.number, call.places[2]] = [3, 4];
        };
        assert_eq!(outcome(end(), written), Ok(()));
        for change in BESIDE_A_REPORT {
            assert!(outcome(take(), change).is_err());
            assert!(outcome(end(), change).is_err());
        }
        assert!(outcome(take(), |call| call.sheet[0] ^= 1).is_err());
        assert!(outcome(end(), |call| call.lists[2] ^= 1).is_err());
        assert!(outcome(end(), |call| call.lists[83] ^= 1).is_err());
    }

    /// Of an answer of the heat table, of a factor, and of those that are refused: in the number, in the one
    /// figure, and in a place that it does not have.
    #[test]
    fn differences_of_one_figure() {
        for (call, asked) in [
            (Call::heat_table(41_500), "(millikelvin 41500) over"),
            (Call::heat_table(13_999), "(millikelvin 13999) over"),
            (Call::heat_table(1_000_001), "(millikelvin 1000001) over"),
            (Call::viscosity(1000), "(thousandths 1000) over"),
            (Call::viscosity(99), "(thousandths 99) over"),
        ] {
            let call = || vec![call.clone()];
            assert_eq!(outcome(call(), |_| ()), Ok(()));
            let changes: [fn(&mut Call); 3] = [
                |call| call.number ^= 15,
                |call| call.places[0] += 1,
                |call| call.places[1] ^= 1,
            ];
            for change in changes {
                let told = outcome(call(), change).expect_err("a difference");
                assert!(told.contains(asked));
            }
        }
    }

    /// They come in the order of the questions, and a difference is told of here too.
    #[test]
    fn answers() {
        let calls = || [Call::heat_table(40_000), Call::heat_table(13_999)];
        let asked = |change| Comparison::new(Box::new(Changed(change))).answers(calls());
        let answers = asked(|_| ()).expect("no difference");
        let told = answers.map(|call| (call.number, call.places[0]));
        assert_eq!(told, [(0, 10_312), (21, 0)]);
        assert!(asked(|call| call.places[0] += 1).is_err());
    }

    /// Of a refused heat capacity, whose double stays; of a sheet's bytes; of a place it does not have.
    #[test]
    fn differences_of_what_stays() {
        let heat = || vec![Call::heat(0)];
        let sheet = || vec![Call::sheet(b"0\n0\n0\n0", 6)];
        let side = || vec![Call::side([1, 120_000, 500_000], 0)];
        assert!(outcome(heat(), |call| call.places[0] ^= 1).is_err());
        assert!(outcome(sheet(), |call| call.sheet[0] = b'1').is_err());
        assert!(outcome(sheet(), |call| call.places[3] ^= 1).is_err());
        assert!(outcome(side(), |call| call.places[2] ^= 1).is_err());
    }
}
