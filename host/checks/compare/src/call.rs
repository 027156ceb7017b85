//! A call of one of the header's functions: all that goes in, and all that the function may write.

use second::arrival::Arrival;
use second::cursor::Cursor;
use second::report::{Reporting, FIGURES};
use second::state::FLUIDS;
use second::writer::{OwnLists, LISTS};
use std::fmt;
use std::sync::Arc;

/// The functions, by the numbers that a served process knows them by.
#[derive(Clone, Copy, Debug, PartialEq, Eq)]
pub enum Function {
    Abi = 0,
    State = 1,
    StateWithBook = 2,
    Side = 3,
    SideWithBook = 4,
    Walk = 5,
    Band = 6,
    Claims = 7,
    Heat = 8,
    HeatTable = 9,
    Viscosity = 10,
    Sheet = 11,
    SheetLine = 12,
    SheetNext = 13,
    PartsTake = 14,
    PartsEnd = 15,
    Report = 16,
    ReportTake = 17,
    ReportEnd = 18,
    WriteSheet = 19,
}

/// The names in the header, in the order of the numbers.
pub const NAMES: [&str; 20] = [
    "woolyard_abi",
    "woolyard_state",
    "woolyard_state_with_book",
    "woolyard_side",
    "woolyard_side_with_book",
    "woolyard_walk",
    "woolyard_band",
    "woolyard_claims",
    "woolyard_heat",
    "woolyard_heat_table",
    "woolyard_viscosity",
    "woolyard_sheet",
    "woolyard_sheet_line",
    "woolyard_sheet_next",
    "woolyard_parts_take",
    "woolyard_parts_end",
    "woolyard_report",
    "woolyard_report_take",
    "woolyard_report_end",
    "woolyard_write_sheet",
];

/// How many plain numbers or lists a function has at most: those of a sheet that is to be written are the most.
pub const ARGUMENTS: usize = LISTS;

/// The lists of claims.
const CLAIMS: [&str; 5] = ["fluids", "millikelvin", "pascals", "sides", "roots"];

/// The lists of each fluid in a sheet that is to be written.
const OF_FLUID: [&str; 2] = ["millikelvin", "pascals"];

/// How many numbers the archive keeps between two parts of a sheet, and how many are told of a state line.
pub const PARTS: usize = 8;
pub const LINE: usize = 9;

/// What a call lends of a sheet that arrives in parts, each with room for so many numbers, of which the last are not the
/// function's.
const ARRIVING: [&str; 2] = ["parts", "answer"];
pub const ARRIVING_ROOM: usize = 10;

/// How many numbers a report has, and how many the archive keeps between two parts of a sheet that is reported.
pub const REPORT: usize = FIGURES;
pub const REPORTING: usize = 44;

/// How many numbers lie ahead of a cursor, of a report and of what is kept for one, that are not the function's.
pub const AHEAD: usize = 2;

/// How many numbers a cursor over a sheet has. It is lent with others on both sides.
pub const CURSOR: usize = 3;
const CURSOR_ROOM: usize = AHEAD + CURSOR + 2;

/// What a call lends of a report, each with room for so many numbers, of which the first and the last are not the
/// function's. Its place is the middle one of the places, so others lie on both sides of that too.
const REPORTED: [&str; 2] = ["reporting", "report"];
pub const REPORTED_ROOM: usize = AHEAD + REPORTING + 2;
pub const REPORT_PLACE: usize = 2;

/// Lies behind the last number of each list of a sheet to be written, where the function is not to look: it would be
/// refused.
const BEHIND: u64 = u64::MAX;

/// So many bytes lie behind the buffer, more than the widest line has.
const BYTES_BEHIND: usize = 24;

/// What no answered or refused call leaves as its number.
const NOT_YET_MADE: u64 = u64::MAX;

/// Before the call it holds the question, and after it the answer too, so that two calls are compared
/// whole: the number, every place, and all that is lent, what lies past the told length among it.
#[derive(Clone, Debug, PartialEq, Eq)]
pub struct Call {
    pub function: Function,
    /// The plain numbers in the order of the header, a double as its pattern, or the lengths of the lists; zeros
    /// for the rest.
    pub arguments: [u64; ARGUMENTS],
    /// What the function fills in, as far as it has so many; the rest must stay as it was.
    pub places: [u64; 5],
    pub book: Vec<u8>,
    /// The sheet, a part of it, or the buffer that it is to be written into.
    pub sheet: Vec<u8>,
    /// How many bytes of the book, the sheet, its part or the buffer the function is told of. More may lie behind.
    pub length: usize,
    /// The lists with room for as many numbers each, one behind the other. The function is told of so many of each
    /// as the arguments say; of what is kept of a sheet, and of the answer to a part, it knows how many they are.
    pub lists: Vec<u64>,
    /// What the second implementation keeps of a sheet that arrives in parts; the archive keeps it in the first of the
    /// numbers that are lent. None where these are any numbers, of which the second implementation can say nothing.
    pub arrival: Option<Box<Arrival>>,
    /// The same of one that is reported. It grows with the sheet, so calls share it until one changes it.
    pub reporting: Option<Arc<Reporting>>,
    /// The reply's number.
    pub number: u64,
}

impl Call {
    /// The arguments that the function has, from the first on.
    fn new<const COUNT: usize>(function: Function, arguments: [u64; COUNT]) -> Call {
        let mut all = [0; ARGUMENTS];
        all[..COUNT].copy_from_slice(&arguments);
        Call {
            function,
            arguments: all,
            places: [0; 5],
            book: Vec::new(),
            sheet: Vec::new(),
            length: 0,
            lists: Vec::new(),
            arrival: None,
            reporting: None,
            number: NOT_YET_MADE,
        }
    }

    pub fn abi() -> Call {
        Call::new(Function::Abi, [])
    }

    pub fn state(state: [u64; 3]) -> Call {
        Call::new(Function::State, state)
    }

    /// The first `length` bytes of `book` are the book.
    pub fn state_with_book(state: [u64; 3], slot: u64, book: &[u8], length: usize) -> Call {
        let [fluid, millikelvin, pascals] = state;
        let arguments = [fluid, millikelvin, pascals, slot];
        Call {
            book: book.to_vec(),
            length,
            ..Call::new(Function::StateWithBook, arguments)
        }
    }

    pub fn side([fluid, millikelvin, pascals]: [u64; 3], side: u64) -> Call {
        Call::new(Function::Side, [fluid, millikelvin, pascals, side])
    }

    /// As for `state_with_book`.
    pub fn side_with_book(
        state: [u64; 3],
        side: u64,
        slot: u64,
        book: &[u8],
        length: usize,
    ) -> Call {
        let [fluid, millikelvin, pascals] = state;
        let arguments = [fluid, millikelvin, pascals, side, slot];
        Call {
            book: book.to_vec(),
            length,
            ..Call::new(Function::SideWithBook, arguments)
        }
    }

    pub fn walk([fluid, millikelvin, pascals]: [u64; 3], limit: u64) -> Call {
        Call::new(Function::Walk, [fluid, millikelvin, pascals, limit])
    }

    /// The scalings in the order in which they are told.
    pub fn band([fluid, millikelvin, pascals]: [u64; 3], [lower, upper]: [u64; 2]) -> Call {
        let arguments = [fluid, millikelvin, pascals, lower, upper];
        Call::new(Function::Band, arguments)
    }

    /// Each claim is a fluid, a temperature, a pressure, a side and a root, which go into the five lists. The first
    /// so many numbers of each, in this order, are the list.
    pub fn claims(claims: &[[u64; 5]], lengths: [usize; 5]) -> Call {
        let list = |which: usize| claims.iter().map(move |claim| claim[which]);
        let lengths = lengths.map(|length| length as u64);
        Call {
            lists: (0..lengths.len()).flat_map(list).collect(),
            ..Call::new(Function::Claims, lengths)
        }
    }

    pub fn heat(kelvin_pattern: u64) -> Call {
        Call::new(Function::Heat, [kelvin_pattern])
    }

    pub fn heat_table(millikelvin: u64) -> Call {
        Call::new(Function::HeatTable, [millikelvin])
    }

    pub fn viscosity(thousandths: u64) -> Call {
        Call::new(Function::Viscosity, [thousandths])
    }

    /// The first `length` bytes of `sheet` are the sheet.
    pub fn sheet(sheet: &[u8], length: usize) -> Call {
        Call {
            sheet: sheet.to_vec(),
            length,
            ..Call::new(Function::Sheet, [])
        }
    }

    /// As for `sheet`.
    pub fn sheet_line(sheet: &[u8], length: usize, k: u64) -> Call {
        Call {
            sheet: sheet.to_vec(),
            length,
            ..Call::new(Function::SheetLine, [k])
        }
    }

    /// As for `sheet`. The numbers beside the cursor's are the comparison's to say.
    pub fn sheet_next(sheet: &[u8], length: usize, cursor: Cursor) -> Call {
        let mut lists = vec![0; CURSOR_ROOM];
        lists[AHEAD..][..CURSOR].copy_from_slice(&cursor.numbers());
        Call {
            sheet: sheet.to_vec(),
            length,
            lists,
            ..Call::new(Function::SheetNext, [])
        }
    }

    /// The first `length` bytes of `part` are the part. The numbers behind those that are kept are the comparison's to say.
    pub fn parts_take(kept: &Kept, part: &[u8], length: usize) -> Call {
        Call {
            sheet: part.to_vec(),
            length,
            ..Call::of_kept(Function::PartsTake, kept, ARRIVING.len())
        }
    }

    pub fn parts_end(kept: &Kept) -> Call {
        Call::of_kept(Function::PartsEnd, kept, 1)
    }

    /// With so many lists, of which what is kept is the first.
    fn of_kept(function: Function, kept: &Kept, lists: usize) -> Call {
        let mut numbers = kept.parts.to_vec();
        numbers.resize(lists * ARRIVING_ROOM, 0);
        Call {
            lists: numbers,
            arrival: kept.arrival.clone(),
            ..Call::new(function, [])
        }
    }

    /// As for `sheet`. What the report's room holds is the comparison's to say.
    pub fn report(sheet: &[u8], length: usize) -> Call {
        Call {
            sheet: sheet.to_vec(),
            length,
            lists: vec![0; REPORTED_ROOM],
            ..Call::new(Function::Report, [])
        }
    }

    /// As for `parts_take`.
    pub fn report_take(kept: &KeptReport, part: &[u8], length: usize) -> Call {
        Call {
            sheet: part.to_vec(),
            length,
            ..Call::of_kept_report(Function::ReportTake, kept, 1)
        }
    }

    pub fn report_end(kept: &KeptReport) -> Call {
        Call::of_kept_report(Function::ReportEnd, kept, REPORTED.len())
    }

    /// With so many lists, of which what is kept is the first.
    fn of_kept_report(function: Function, kept: &KeptReport, lists: usize) -> Call {
        let mut numbers = vec![0; lists * REPORTED_ROOM];
        numbers[AHEAD..][..REPORTING].copy_from_slice(&kept.numbers);
        Call {
            lists: numbers,
            reporting: kept.reporting.clone(),
            ..Call::new(function, [])
        }
    }

    /// The function is told of so many bytes of the buffer. What they hold is the comparison's to say.
    pub fn write_sheet(lists: &OwnLists, length: usize) -> Call {
        let lengths = lists.each_ref().map(Vec::len);
        let room = 1 + lengths.into_iter().max().unwrap_or(0);
        let filled_up = |list: &Vec<u64>| {
            let mut list = list.clone();
            list.resize(room, BEHIND);
            list
        };
        Call {
            sheet: vec![0; length + BYTES_BEHIND],
            length,
            lists: lists.each_ref().map(filled_up).concat(),
            ..Call::new(Function::WriteSheet, lengths.map(|length| length as u64))
        }
    }
}

/// What is kept of a sheet between two of its parts, by the archive and by the second implementation, as a call has it.
#[derive(Clone, Default)]
pub struct Kept {
    pub parts: [u64; PARTS],
    pub arrival: Option<Box<Arrival>>,
}

impl Kept {
    /// Before the first byte.
    pub fn nothing() -> Kept {
        Kept {
            arrival: Some(Box::default()),
            ..Kept::default()
        }
    }

    /// As a call left it.
    pub fn after(call: Call) -> Kept {
        let parts = call.lists.first_chunk();
        Kept {
            parts: *parts.expect("a call that lends what is kept"),
            arrival: call.arrival,
        }
    }
}

/// The same of a sheet that is reported.
#[derive(Clone)]
pub struct KeptReport {
    pub numbers: [u64; REPORTING],
    pub reporting: Option<Arc<Reporting>>,
}

impl KeptReport {
    /// Before the first byte.
    pub fn nothing() -> KeptReport {
        KeptReport {
            numbers: [0; REPORTING],
            reporting: Some(Arc::default()),
        }
    }

    /// As a call left it.
    pub fn after(call: Call) -> KeptReport {
        let numbers = call.lists[AHEAD..].first_chunk();
        KeptReport {
            numbers: *numbers.expect("a call that lends what is kept"),
            reporting: call.reporting,
        }
    }
}

/// What the function is told of its lists, of which it has so many. The first of its arguments are their lengths.
pub fn told_lists<const COUNT: usize>(lists: &[u64], lengths: [u64; ARGUMENTS]) -> [&[u64]; COUNT] {
    let room = lists.len() / COUNT;
    std::array::from_fn(|which| &lists[which * room..][..room][..lengths[which] as usize])
}

/// Of a call that was made, the answer; of one that was not, the question and what lay in the places.
impl fmt::Display for Call {
    fn fmt(&self, text: &mut fmt::Formatter<'_>) -> fmt::Result {
        if self.number == NOT_YET_MADE {
            let asked = self.asked();
            write!(text, "{}({asked}) over ", NAMES[self.function as usize])?;
        } else {
            write!(text, "{} and ", self.number)?;
        }
        match self.function {
            Function::Heat => write!(text, "{:#018x}", self.places[0]),
            _ => write!(text, "{:?}", self.places),
        }?;
        match self.function {
            Function::Abi
            | Function::State
            | Function::Side
            | Function::Walk
            | Function::Band
            | Function::Heat
            | Function::HeatTable
            | Function::Viscosity => Ok(()),
            Function::StateWithBook | Function::SideWithBook => {
                write!(text, ", book {:?}", self.book)
            }
            Function::Claims => self.write_lists(text, &CLAIMS),
            Function::Sheet | Function::SheetLine => {
                write!(text, ", sheet \"{}\"", self.sheet.escape_ascii())
            }
            Function::SheetNext => {
                self.write_lists(text, &["cursor"])?;
                write!(text, ", sheet \"{}\"", self.sheet.escape_ascii())
            }
            Function::PartsTake => {
                self.write_lists(text, &ARRIVING)?;
                write!(text, ", part \"{}\"", self.sheet.escape_ascii())
            }
            Function::PartsEnd => self.write_lists(text, &ARRIVING[..1]),
            Function::Report => {
                self.write_lists(text, &REPORTED[1..])?;
                write!(text, ", sheet \"{}\"", self.sheet.escape_ascii())
            }
            Function::ReportTake => {
                self.write_lists(text, &REPORTED[..1])?;
                write!(text, ", part \"{}\"", self.sheet.escape_ascii())
            }
            Function::ReportEnd => self.write_lists(text, &REPORTED),
            Function::WriteSheet => {
                let names =
                    FLUIDS.map(|fluid| OF_FLUID.map(|list| format!("{} {list}", fluid.name)));
                self.write_lists(text, names.as_flattened())?;
                write!(text, ", buffer \"{}\"", self.sheet.escape_ascii())
            }
        }
    }
}

impl Call {
    /// Takes over from the same call, as the archive made it, what the second implementation can't say: the numbers that
    /// the archive keeps, and where they were any numbers all that the function may write.
    pub fn take_over_kept(&mut self, archive: &Call) {
        match self.function {
            Function::PartsTake => {
                self.take_over_list(archive, 0, PARTS);
                if self.arrival.is_none() {
                    self.number = archive.number;
                    self.places[0] = archive.places[0];
                    self.take_over_list(archive, ARRIVING_ROOM, LINE);
                }
            }
            Function::PartsEnd if self.arrival.is_none() => {
                self.number = archive.number;
                self.places[..2].copy_from_slice(&archive.places[..2]);
            }
            Function::ReportTake => {
                self.take_over_list(archive, AHEAD, REPORTING);
                if self.reporting.is_none() {
                    self.number = archive.number;
                }
            }
            Function::ReportEnd if self.reporting.is_none() => {
                self.number = archive.number;
                self.places[REPORT_PLACE] = archive.places[REPORT_PLACE];
                self.take_over_list(archive, REPORTED_ROOM + AHEAD, REPORT);
            }
            _ => (),
        }
    }

    /// So many of the numbers that are lent, from one on.
    fn take_over_list(&mut self, archive: &Call, first: usize, count: usize) {
        let list = first..first + count;
        self.lists[list.clone()].copy_from_slice(&archive.lists[list]);
    }

    /// The report of a call that makes one, as it was left.
    pub fn reported(&self) -> [u64; REPORT] {
        let room = self.lists.len() - REPORTED_ROOM;
        let report = self.lists[room + AHEAD..].first_chunk();
        *report.expect("a call that makes a report")
    }

    /// The cursor of a call that has one, as it was lent or left.
    pub fn cursor(&self) -> Cursor {
        let numbers = self.lists[AHEAD..].first_chunk::<CURSOR>();
        Cursor::from(*numbers.expect("a call that lends a cursor"))
    }

    /// How many bytes the book, the sheet and the lists take.
    pub fn lent_bytes(&self) -> usize {
        self.book.len() + self.sheet.len() + size_of_val(&self.lists[..])
    }

    /// With all that lies past their lengths.
    fn write_lists(
        &self,
        text: &mut fmt::Formatter<'_>,
        names: &[impl fmt::Display],
    ) -> fmt::Result {
        let room = self.lists.len() / names.len();
        for (which, name) in names.iter().enumerate() {
            write!(text, ", {name} {:?}", &self.lists[which * room..][..room])?;
        }
        Ok(())
    }

    /// What came before of a sheet that arrives in parts.
    fn behind(&self) -> String {
        let any = "any numbers".to_string();
        let arrival = self.arrival.as_ref().map(|arrival| format!("{arrival:?}"));
        let reporting = self.reporting.as_ref().map(|kept| format!("{kept:?}"));
        arrival.or(reporting).unwrap_or(any)
    }

    /// The arguments with their names.
    fn asked(&self) -> String {
        let [first, second, third, fourth, fifth, ..] = self.arguments;
        let state = format!("fluid {first}, millikelvin {second}, pascals {third}");
        let length = self.length;
        match self.function {
            Function::Abi => String::new(),
            Function::State => state,
            Function::StateWithBook => format!("{state}, slot {fourth}, book length {length}"),
            Function::Side => format!("{state}, side {fourth}"),
            Function::SideWithBook => {
                format!("{state}, side {fourth}, slot {fifth}, book length {length}")
            }
            Function::Walk => format!("{state}, limit {fourth}"),
            Function::Band => format!("{state}, lower {fourth}, upper {fifth}"),
            Function::Claims => format!("lengths {:?}", &self.arguments[..CLAIMS.len()]),
            Function::Heat => format!("kelvin {first:#018x} or {}", f64::from_bits(first)),
            Function::HeatTable => format!("millikelvin {first}"),
            Function::Viscosity => format!("thousandths {first}"),
            Function::Sheet | Function::SheetNext | Function::Report => format!("length {length}"),
            Function::SheetLine => format!("length {length}, k {first}"),
            Function::PartsTake | Function::ReportTake => {
                format!("length {length}, behind {}", self.behind())
            }
            Function::PartsEnd | Function::ReportEnd => format!("behind {}", self.behind()),
            Function::WriteSheet => {
                format!("lengths {:?}, buffer length {length}", self.arguments)
            }
        }
    }
}
