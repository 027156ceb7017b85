//! Document 02, C-15: a sheet that arrives in parts, taken byte by byte. A line is held until it ends, and is then read
//! as a line of a whole sheet is.

use crate::sheet::{count_line, state_line, State, LINE_END, LONGEST, SECTIONS};
use crate::state::FLUIDS;

/// How many bytes a good line has at most, without its end: two numbers of ten digits and the space between.
pub const WIDEST_LINE: usize = 21;

/// What is answered of a part in which no state line ends and no fault was met.
pub const USED_UP: u64 = 16;

/// What came of a sheet so far.
#[derive(Clone, Debug, Default, PartialEq, Eq)]
pub struct Arrival {
    /// How many bytes came, the one at which a fault was met among them and none behind it.
    bytes: usize,
    /// Where the line begins that is held.
    place: usize,
    /// The line that is held, which has not ended.
    line: Vec<u8>,
    /// How many sections are over.
    sections: usize,
    /// How many state lines the next one still wants, after its count.
    wanted: Option<u64>,
    /// The state lines of all sections.
    states: u64,
    fault: Option<Fault>,
}

/// The number of a refusal, and its place.
#[derive(Clone, Copy, Debug, PartialEq, Eq)]
pub struct Fault {
    pub number: u64,
    pub place: usize,
}

const TOO_LONG: Fault = Fault {
    number: 7,
    place: 0,
};

impl Arrival {
    /// Takes bytes up to the first end of a state line: how many those are, and the state; or all of them, and the
    /// number of the fault that was met, or 16 for none.
    pub fn take(&mut self, part: &[u8]) -> (usize, Result<State, u64>) {
        for (place, &byte) in part.iter().enumerate() {
            if let Some(state) = self.take_byte(byte) {
                return (place + 1, Ok(state));
            }
        }
        let number = self.fault.map_or(USED_UP, |fault| fault.number);
        (part.len(), Err(number))
    }

    /// The state whose line ends with this byte. Of two faults at one byte 7 is looked for first, and behind a fault
    /// nothing is looked at.
    fn take_byte(&mut self, byte: u8) -> Option<State> {
        if self.fault.is_some() {
            return None;
        }
        self.bytes += 1;
        if self.bytes > LONGEST {
            self.fault = Some(TOO_LONG);
            return None;
        }
        if self.sections == SECTIONS {
            self.fault = Some(self.badly_formed());
            return None;
        }
        if byte == LINE_END {
            return self.end_line();
        }
        self.line.push(byte);
        if self.line.len() > WIDEST_LINE {
            self.fault = Some(self.badly_formed());
        }
        None
    }

    /// Each such fault has the place of a line's first byte, be it held, missing, or one too many.
    fn badly_formed(&self) -> Fault {
        Fault {
            number: 6,
            place: self.place,
        }
    }

    /// What the line says that was held, if it can stand there.
    fn end_line(&mut self) -> Option<State> {
        let line = std::mem::take(&mut self.line);
        let said = match self.wanted {
            None => count_line(&line).map(|count| self.count(count)),
            Some(wanted) => state_line(&line).map(|state| self.state(wanted, state)),
        };
        match said {
            Some(state) => {
                self.place = self.bytes;
                state
            }
            None => {
                self.fault = Some(self.badly_formed());
                None
            }
        }
    }

    fn count(&mut self, count: u64) -> Option<State> {
        self.states += count;
        self.want(count);
        None
    }

    fn state(&mut self, wanted: u64, [millikelvin, pascals]: [u64; 2]) -> Option<State> {
        let fluid = FLUIDS[self.sections].number;
        self.want(wanted - 1);
        Some(State {
            fluid,
            millikelvin,
            pascals,
        })
    }

    /// So many state lines more, or the next section's count.
    fn want(&mut self, states: u64) {
        self.wanted = Some(states).filter(|&states| states > 0);
        if self.wanted.is_none() {
            self.sections += 1;
        }
    }

    /// What is said of the sheet if it is over here: the number of its state lines, or the fault, which may be that
    /// a line or its end is missing.
    pub fn end(&self) -> Result<u64, Fault> {
        match self.fault {
            Some(fault) => Err(fault),
            None if self.sections < SECTIONS => Err(self.badly_formed()),
            None => Ok(self.states),
        }
    }
}

#[cfg(test)]
mod tests {
    use super::*;
    use crate::random::Random;
    use crate::sheet::{read, Refusal, EXAMPLE, TEN_NINES};
    use crate::sheet_list::{full_sheet, list};

    const NONE: u64 = USED_UP;

    fn badly_formed(place: usize) -> Fault {
        Fault { number: 6, place }
    }

    /// The states of a part, and the number with which it is used up.
    fn take_all(arrival: &mut Arrival, mut part: &[u8]) -> (Vec<State>, u64) {
        let mut states = Vec::new();
        loop {
            let (taken, told) = arrival.take(part);
            part = &part[taken..];
            match told {
                Ok(state) => states.push(state),
                Err(number) => {
                    assert!(part.is_empty());
                    return (states, number);
                }
            }
        }
    }

    /// The same of all bytes before these and of them, after whole parts.
    fn taken(parts: &[&[u8]]) -> (Vec<State>, u64, Arrival) {
        let mut arrival = Arrival::default();
        let mut states = Vec::new();
        let mut number = NONE;
        for part in parts {
            let (more, told) = take_all(&mut arrival, part);
            states.extend(more);
            number = told;
        }
        (states, number, arrival)
    }

    /// What a whole sheet's reply says of the same.
    fn of_whole(sheet: &[u8]) -> Result<u64, Fault> {
        match read(sheet) {
            Ok(states) => Ok(states.len() as u64),
            Err(Refusal { number, place, .. }) => Err(Fault { number, place }),
        }
    }

    /// Whether the fault of these bytes was met by the last of them, found from the whole: the faulty line has ended,
    /// has too many bytes, or stands behind a good sheet.
    fn met_of_whole(sheet: &[u8]) -> u64 {
        match read(sheet) {
            Err(Refusal {
                number,
                place,
                line,
            }) => {
                let ended = place + line.len() < sheet.len();
                let behind = place < sheet.len() && read(&sheet[..place]).is_ok();
                let met = ended || behind || line.len() > WIDEST_LINE;
                if met {
                    number
                } else {
                    NONE
                }
            }
            Ok(_) => NONE,
        }
    }

    /// Byte by byte, what is said of every beginning.
    fn assert_beginnings(sheet: &[u8]) {
        let mut arrival = Arrival::default();
        for length in 0..=sheet.len() {
            let shown = sheet[..length].escape_ascii();
            assert_eq!(arrival.end(), of_whole(&sheet[..length]), "{shown}");
            let (_, number) = take_all(&mut arrival, b"");
            assert_eq!(number, met_of_whole(&sheet[..length]), "{shown}");
            if let Some(&byte) = sheet.get(length) {
                arrival.take_byte(byte);
            }
        }
    }

    /// Three parts, the second of up to so many bytes, which may be none.
    fn assert_cut_everywhere(sheet: &[u8], most: usize) {
        let expected = taken(&[sheet]);
        for first in 0..=sheet.len() {
            for second in first..=sheet.len().min(first + most) {
                let parts = [&sheet[..first], &sheet[first..second], &sheet[second..]];
                assert_eq!(taken(&parts), expected, "{}", sheet.escape_ascii());
            }
        }
        if let Ok(states) = read(sheet) {
            assert_eq!(expected.0, states);
        }
    }

    /// Document 01's good sheets.
    #[test]
    fn good_sheets_cut_everywhere() {
        for sheet in [EXAMPLE, b"0\n0\n0\n"] {
            assert_cut_everywhere(sheet, sheet.len());
            assert_beginnings(sheet);
            let (_, number, arrival) = taken(&[sheet]);
            assert_eq!(number, NONE);
            assert!(arrival.end().is_ok());
        }
        let mut arrival = Arrival::default();
        let state = |millikelvin, pascals| State {
            fluid: 1,
            millikelvin,
            pascals,
        };
        assert_eq!(arrival.take(b"0\n2\n300000 100"), (14, Err(NONE)));
        assert_eq!(arrival.take(b""), (0, Err(NONE)));
        assert_eq!(
            arrival.take(b"0000\n12"),
            (5, Ok(state(300_000, 1_000_000)))
        );
        assert_eq!(arrival.take(b"12"), (2, Err(NONE)));
        assert_eq!(
            arrival.take(b"0000 500000\n0\n"),
            (12, Ok(state(120_000, 500_000)))
        );
        assert_eq!(arrival.end(), Err(badly_formed(33)));
        assert_eq!(arrival.take(b"0\n"), (2, Err(NONE)));
        assert_eq!(arrival.end(), Ok(2));
    }

    /// Every beginning of the sheets that the reader is compared on is told of as a whole sheet is, and its fault
    /// is met where the whole says; and however they are cut, no more and no less comes of them.
    #[test]
    fn sheets_of_the_list() {
        for sheet in list() {
            assert_beginnings(&sheet);
            assert_cut_everywhere(&sheet, 1);
        }
    }

    /// A line of 21 bytes is held until it ends, be it good or bad; a longer one is faulty at its 22nd, unless that
    /// ends it.
    #[test]
    fn long_lines() {
        let before: [&[u8]; 7] = [
            b"",
            b"0\n",
            b"0\n0\n",
            b"2\n",
            b"2\n5 6\n",
            b"0\n1\n",
            b"0\n0\n1\n",
        ];
        for (before, fill) in before
            .into_iter()
            .flat_map(|before| b"09 x\0".map(|fill| (before, fill)))
        {
            let line = [fill; 21];
            let place = before.len();
            let (_, number, arrival) = taken(&[before, &line]);
            assert_eq!((number, arrival.end()), (NONE, Err(badly_formed(place))));
            for last in [b"\n", b"9", b" ", b"x"] {
                let (_, number, arrival) = taken(&[before, &line, last]);
                assert_eq!((number, arrival.end()), (6, Err(badly_formed(place))));
            }
        }
        let widest = b"9999999999 9999999999";
        let mut arrival = Arrival::default();
        assert_eq!(arrival.take(b"1\n"), (2, Err(NONE)));
        assert_eq!(arrival.take(widest), (21, Err(NONE)));
        let (mut ended, mut longer) = (arrival.clone(), arrival);
        let state = State {
            fluid: 0,
            millikelvin: TEN_NINES,
            pascals: TEN_NINES,
        };
        assert_eq!(ended.take(b"\n"), (1, Ok(state)));
        assert_eq!(longer.take(b"9"), (1, Err(6)));
        assert_eq!(longer.end(), Err(badly_formed(2)));
    }

    /// A byte behind the last line is met at once, also one that ends a line, and nothing mends a fault.
    #[test]
    fn behind_the_last_line() {
        for rest in [&b"\n"[..], b"0", b" ", b"0\n", b"0\n0\n0\n"] {
            let (_, number, arrival) = taken(&[b"0\n0\n0\n", &rest[..1], &rest[1..]]);
            assert_eq!((number, arrival.end()), (6, Err(badly_formed(6))));
        }
    }

    /// Answers that were given stand, and no state comes behind a fault.
    #[test]
    fn answers_before_a_fault() {
        let (states, number, arrival) = taken(&[b"3\n5 6\n7 8\n9 ", b"\n1 2\n0\n0\n", b"1 2\n"]);
        let told: Vec<u64> = states.iter().map(|state| state.pascals).collect();
        assert_eq!((told, number), (vec![6, 8], 6));
        assert_eq!(arrival.end(), Err(badly_formed(10)));
    }

    /// What is told of a full sheet of so many bytes with others behind it, all in parts of any length.
    fn of_full(bytes: usize, behind: &[u8]) -> (usize, u64, Result<u64, Fault>) {
        let sheet = [&full_sheet(bytes), behind].concat();
        let mut random = Random(bytes as u64);
        let mut arrival = Arrival::default();
        let mut rest = &sheet[..];
        let (mut states, mut number) = (0, NONE);
        while !rest.is_empty() {
            let part = random.magnitude(3000).min(rest.len() as u64) as usize;
            let (more, told) = take_all(&mut arrival, &rest[..part]);
            states += more.len();
            number = told;
            rest = &rest[part..];
        }
        (states, number, arrival.end())
    }

    /// The last byte of a full sheet ends its last line. Where that is number 65,537, or one behind, no answer is given
    /// any more.
    #[test]
    fn longest_sheets() {
        for bytes in [65_535, 65_536] {
            assert_eq!(of_full(bytes, b""), (3000, NONE, Ok(3000)));
        }
        for bytes in 65_537..=65_540 {
            assert_eq!(of_full(bytes, b""), (2999, 7, Err(TOO_LONG)));
            assert_eq!(of_full(bytes, b"x\n"), (2999, 7, Err(TOO_LONG)));
        }
    }

    /// A byte too many that is number 65,537 is refused by 7 and not by 6, and one that comes before it by 6 however
    /// many follow.
    #[test]
    fn which_fault_comes_first() {
        for behind in [&b"x"[..], b"\n", b"xxx", b"\n0\n0\n", &[b'0'; 1000]] {
            assert_eq!(of_full(65_536, behind), (3000, 7, Err(TOO_LONG)));
            let expected = (3000, 6, Err(badly_formed(65_535)));
            assert_eq!(of_full(65_535, behind), expected);
        }
    }

    /// Of a line that is bad where it ends, or at its 22nd byte, that byte being number 65,535 to 65,539.
    #[test]
    fn bad_lines_beside_the_most() {
        let sheet = full_sheet(65_590);
        for line in [&b"x\n"[..], b"\n", b"9999999999 999999999x\n", &[b'9'; 22]] {
            for last in 65_535..=65_539 {
                let place = last - line.len();
                // whole lines, the last of the sheet's cut off
                let before = &full_sheet(place + 44)[..place];
                let (_, number, arrival) = taken(&[before, line, b"9\n9 9\n"]);
                let expected = if last < 65_537 {
                    badly_formed(place)
                } else {
                    TOO_LONG
                };
                assert_eq!((number, arrival.end()), (expected.number, Err(expected)));
            }
        }
        // held, and never ended
        let (_, number, arrival) = taken(&[&sheet[..65_536]]);
        assert_eq!((number, arrival.end()), (NONE, of_whole(&sheet[..65_536])));
        let (_, number, arrival) = taken(&[&sheet[..65_537]]);
        assert_eq!((number, arrival.end()), (7, Err(TOO_LONG)));
    }
}
