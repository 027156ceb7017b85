//! The twenty functions of include/woolyard.h, as they are: numbers in, the reply's number out, and the
//! figures in the places that the caller lends. All that is unsafe stands here.
//!
//! The header asks that a pointer points to as many elements as its array or its length says, that it
//! is not null, and that what is written through one lies apart from what the others point to. A Rust
//! reference or slice is such a pointer, an empty slice's too, and one that is `&mut` lies apart from
//! every other. No function keeps a pointer, so none outlives its call.
//!
//! Each is inlined, so that a call costs what one of the C function does.

/// How many figures a state has.
pub const FIGURES: usize = 5;

/// How many figures one side of it has.
pub const SIDE_FIGURES: usize = 2;

/// How many figures a walk has.
pub const WALK_FIGURES: usize = 2;

/// How many roots a band has.
pub const BAND_ROOTS: usize = 2;

/// How many lists a sheet is written from, two for each fluid.
pub const SHEET_LISTS: usize = 6;

/// How many numbers a cursor over a sheet has.
pub const CURSOR: usize = 3;

/// How many numbers are kept of a sheet between two of its parts.
pub const PARTS: usize = 8;

/// How many numbers are answered of a state line that has ended: three as written, the reply's and its figures.
pub const LINE_NUMBERS: usize = 4 + FIGURES;

/// The number of a part in which no other state line ends, and of one that a report has taken and no fault was met in. It
/// is no refusal.
pub const PART_USED_UP: u64 = 16;

/// How many numbers a report has of each fluid, and of all.
pub const SECTION_REPORT: usize = 11;
pub const REPORT: usize = 3 * SECTION_REPORT;

/// How many numbers are kept of a sheet between two of its parts, with its report so far.
pub const REPORTING: usize = 44;

mod foreign {
    extern "C" {
        pub fn woolyard_abi() -> u64;
        pub fn woolyard_state(
            fluid: u64,
            millikelvin: u64,
            pascals: u64,
            figures: *mut [u64; super::FIGURES],
        ) -> u64;
        pub fn woolyard_state_with_book(
            fluid: u64,
            millikelvin: u64,
            pascals: u64,
            slot: u64,
            book: *mut u8,
            book_length: usize,
            figures: *mut [u64; super::FIGURES],
        ) -> u64;
        pub fn woolyard_side(
            fluid: u64,
            millikelvin: u64,
            pascals: u64,
            side: u64,
            figures: *mut [u64; super::SIDE_FIGURES],
        ) -> u64;
        pub fn woolyard_side_with_book(
            fluid: u64,
            millikelvin: u64,
            pascals: u64,
            side: u64,
            slot: u64,
            book: *mut u8,
            book_length: usize,
            figures: *mut [u64; super::SIDE_FIGURES],
        ) -> u64;
        pub fn woolyard_walk(
            fluid: u64,
            millikelvin: u64,
            pascals: u64,
            limit: u64,
            walked: *mut [u64; super::WALK_FIGURES],
        ) -> u64;
        pub fn woolyard_band(
            fluid: u64,
            millikelvin: u64,
            pascals: u64,
            lower: u64,
            upper: u64,
            roots: *mut [u64; super::BAND_ROOTS],
        ) -> u64;
        pub fn woolyard_claims(
            fluids: *const u64,
            fluids_length: usize,
            millikelvin: *const u64,
            millikelvin_length: usize,
            pascals: *const u64,
            pascals_length: usize,
            sides: *const u64,
            sides_length: usize,
            roots: *const u64,
            roots_length: usize,
            claim: *mut u64,
        ) -> u64;
        pub fn woolyard_heat(kelvin: f64, heat: *mut f64) -> u64;
        pub fn woolyard_heat_table(millikelvin: u64, heat: *mut u64) -> u64;
        pub fn woolyard_viscosity(thousandths: u64, factor: *mut u64) -> u64;
        pub fn woolyard_sheet(sheet: *const u8, length: usize, reading: *mut [u64; 3]) -> u64;
        pub fn woolyard_sheet_line(
            sheet: *const u8,
            length: usize,
            k: u64,
            state: *mut [u64; 3],
        ) -> u64;
        pub fn woolyard_sheet_next(
            sheet: *const u8,
            length: usize,
            cursor: *mut [u64; super::CURSOR],
            state: *mut [u64; 3],
        ) -> u64;
        pub fn woolyard_parts_take(
            parts: *mut [u64; super::PARTS],
            part: *const u8,
            length: usize,
            taken: *mut u64,
            answer: *mut [u64; super::LINE_NUMBERS],
        ) -> u64;
        pub fn woolyard_parts_end(parts: *const [u64; super::PARTS], reading: *mut [u64; 2])
            -> u64;
        pub fn woolyard_report(
            sheet: *const u8,
            length: usize,
            report: *mut [u64; super::REPORT],
            place: *mut u64,
        ) -> u64;
        pub fn woolyard_report_take(
            reporting: *mut [u64; super::REPORTING],
            part: *const u8,
            length: usize,
        ) -> u64;
        pub fn woolyard_report_end(
            reporting: *const [u64; super::REPORTING],
            report: *mut [u64; super::REPORT],
            place: *mut u64,
        ) -> u64;
        pub fn woolyard_write_sheet(
            hydrogen_millikelvin: *const u64,
            hydrogen_millikelvin_length: usize,
            hydrogen_pascals: *const u64,
            hydrogen_pascals_length: usize,
            oxygen_millikelvin: *const u64,
            oxygen_millikelvin_length: usize,
            oxygen_pascals: *const u64,
            oxygen_pascals_length: usize,
            nitrogen_millikelvin: *const u64,
            nitrogen_millikelvin_length: usize,
            nitrogen_pascals: *const u64,
            nitrogen_pascals_length: usize,
            buffer: *mut u8,
            buffer_length: usize,
            length: *mut u64,
        ) -> u64;
    }
}

/// `woolyard_abi`: the archive's own number of what C sees of it.
#[inline]
pub fn abi() -> u64 {
    // SAFETY: nothing is lent.
    unsafe { foreign::woolyard_abi() }
}

/// `woolyard_state`: kind, gas root, dense root, gas density and dense density.
#[inline]
pub fn state(fluid: u64, millikelvin: u64, pascals: u64, figures: &mut [u64; FIGURES]) -> u64 {
    // SAFETY: `figures` is the five places that are written, and nothing else is lent.
    unsafe { foreign::woolyard_state(fluid, millikelvin, pascals, figures) }
}

/// `woolyard_state_with_book`: the same, with a book of any length.
#[inline]
pub fn state_with_book(
    fluid: u64,
    millikelvin: u64,
    pascals: u64,
    slot: u64,
    book: &mut [u8],
    figures: &mut [u64; FIGURES],
) -> u64 {
    let length = book.len();
    let book = book.as_mut_ptr();
    // SAFETY: `book` has `length` bytes, `figures` five places; both are `&mut`, so they lie apart.
    unsafe {
        foreign::woolyard_state_with_book(fluid, millikelvin, pascals, slot, book, length, figures)
    }
}

/// `woolyard_side`: root and density of the side, which may be any number.
#[inline]
pub fn side(
    fluid: u64,
    millikelvin: u64,
    pascals: u64,
    side: u64,
    figures: &mut [u64; SIDE_FIGURES],
) -> u64 {
    // SAFETY: `figures` is the two places that are written, and nothing else is lent.
    unsafe { foreign::woolyard_side(fluid, millikelvin, pascals, side, figures) }
}

/// `woolyard_side_with_book`: the same, with a book of any length.
#[inline]
pub fn side_with_book(
    fluid: u64,
    millikelvin: u64,
    pascals: u64,
    side: u64,
    slot: u64,
    book: &mut [u8],
    figures: &mut [u64; SIDE_FIGURES],
) -> u64 {
    let length = book.len();
    let book = book.as_mut_ptr();
    // SAFETY: `book` has `length` bytes, `figures` two places; both are `&mut`, so they lie apart.
    unsafe {
        foreign::woolyard_side_with_book(
            fluid,
            millikelvin,
            pascals,
            side,
            slot,
            book,
            length,
            figures,
        )
    }
}

/// `woolyard_walk`: the gas root and how many values were worked out; the limit may be any number.
#[inline]
pub fn walk(
    fluid: u64,
    millikelvin: u64,
    pascals: u64,
    limit: u64,
    walked: &mut [u64; WALK_FIGURES],
) -> u64 {
    // SAFETY: `walked` is the two places that are written, and nothing else is lent.
    unsafe { foreign::woolyard_walk(fluid, millikelvin, pascals, limit, walked) }
}

/// `woolyard_band`: the gas root at the lower scaling and at the upper; both scalings may be any number.
#[inline]
pub fn band(
    fluid: u64,
    millikelvin: u64,
    pascals: u64,
    lower: u64,
    upper: u64,
    roots: &mut [u64; BAND_ROOTS],
) -> u64 {
    // SAFETY: `roots` is the two places that are written, and nothing else is lent.
    unsafe { foreign::woolyard_band(fluid, millikelvin, pascals, lower, upper, roots) }
}

/// `woolyard_claims`: lists of any lengths and of any numbers; `claim` is the number of the refused one, or 0.
#[inline]
pub fn claims(
    fluids: &[u64],
    millikelvin: &[u64],
    pascals: &[u64],
    sides: &[u64],
    roots: &[u64],
    claim: &mut u64,
) -> u64 {
    // SAFETY: each list has as many numbers as its length says and none is written; `claim` is the one place that
    // is, and lies apart, since it is `&mut`.
    unsafe {
        foreign::woolyard_claims(
            fluids.as_ptr(),
            fluids.len(),
            millikelvin.as_ptr(),
            millikelvin.len(),
            pascals.as_ptr(),
            pascals.len(),
            sides.as_ptr(),
            sides.len(),
            roots.as_ptr(),
            roots.len(),
            claim,
        )
    }
}

/// `woolyard_heat`: any double at all; where it is refused, `heat` is left alone.
#[inline]
pub fn heat(kelvin: f64, heat: &mut f64) -> u64 {
    // SAFETY: `heat` is the one place that is written, and nothing else is lent.
    unsafe { foreign::woolyard_heat(kelvin, heat) }
}

/// `woolyard_heat_table`: any number at all; where it is refused, `heat` is 0.
#[inline]
pub fn heat_table(millikelvin: u64, heat: &mut u64) -> u64 {
    // SAFETY: `heat` is the one place that is written, and nothing else is lent.
    unsafe { foreign::woolyard_heat_table(millikelvin, heat) }
}

/// `woolyard_viscosity`: any number at all; where it is refused, `factor` is 0.
#[inline]
pub fn viscosity(thousandths: u64, factor: &mut u64) -> u64 {
    // SAFETY: `factor` is the one place that is written, and nothing else is lent.
    unsafe { foreign::woolyard_viscosity(thousandths, factor) }
}

/// `woolyard_sheet`: the number of state lines, the place and the length of the faulty line.
#[inline]
pub fn sheet(sheet: &[u8], reading: &mut [u64; 3]) -> u64 {
    // SAFETY: `sheet` has the bytes that its length says and none is written; `reading` is the three
    // places that are, and lies apart, since it is `&mut`.
    unsafe { foreign::woolyard_sheet(sheet.as_ptr(), sheet.len(), reading) }
}

/// `woolyard_sheet_line`: fluid, temperature in millikelvin and pressure in pascals of state line k.
#[inline]
pub fn sheet_line(sheet: &[u8], k: u64, state: &mut [u64; 3]) -> u64 {
    // SAFETY: as for `sheet`, with `state` for `reading`.
    unsafe { foreign::woolyard_sheet_line(sheet.as_ptr(), sheet.len(), k, state) }
}

/// `woolyard_sheet_next`: fluid, temperature in millikelvin and pressure in pascals of the next state line, and the cursor
/// behind it, which may be any numbers and is left alone where there is none.
#[inline]
pub fn sheet_next(sheet: &[u8], cursor: &mut [u64; CURSOR], state: &mut [u64; 3]) -> u64 {
    // SAFETY: `sheet` has the bytes that its length says and none is written; `cursor` and `state` are the places that
    // are, and lie apart from it and from each other, since they are `&mut`.
    unsafe { foreign::woolyard_sheet_next(sheet.as_ptr(), sheet.len(), cursor, state) }
}

/// `woolyard_parts_take`: any bytes as the next of a sheet that arrives in parts, and any numbers as what is kept of it;
/// `taken` is how many bytes were used, and `answer` what is answered of a state line that ended, or zeros.
#[inline]
pub fn parts_take(
    parts: &mut [u64; PARTS],
    part: &[u8],
    taken: &mut u64,
    answer: &mut [u64; LINE_NUMBERS],
) -> u64 {
    // SAFETY: `part` has the bytes that its length says and none is written; `parts`, `taken` and `answer` are the
    // places that are, and lie apart from it and from each other, since they are `&mut`.
    unsafe { foreign::woolyard_parts_take(parts, part.as_ptr(), part.len(), taken, answer) }
}

/// `woolyard_parts_end`: the number of state lines and the place, if the sheet were over here.
#[inline]
pub fn parts_end(parts: &[u64; PARTS], reading: &mut [u64; 2]) -> u64 {
    // SAFETY: `parts` is the eight numbers that are read; `reading` is the two places that are written, and lies
    // apart, since it is `&mut`.
    unsafe { foreign::woolyard_parts_end(parts, reading) }
}

/// `woolyard_report`: eleven numbers for each fluid, and the place, of a whole sheet.
#[inline]
pub fn report(sheet: &[u8], report: &mut [u64; REPORT], place: &mut u64) -> u64 {
    // SAFETY: `sheet` has the bytes that its length says and none is written; `report` and `place` are the places that
    // are, and lie apart from it and from each other, since they are `&mut`.
    unsafe { foreign::woolyard_report(sheet.as_ptr(), sheet.len(), report, place) }
}

/// `woolyard_report_take`: any bytes as the next of a sheet that arrives in parts, all of which are used, and any numbers
/// as what is kept of it.
#[inline]
pub fn report_take(reporting: &mut [u64; REPORTING], part: &[u8]) -> u64 {
    // SAFETY: `part` has the bytes that its length says and none is written; `reporting` is the places that are, and lies
    // apart, since it is `&mut`.
    unsafe { foreign::woolyard_report_take(reporting, part.as_ptr(), part.len()) }
}

/// `woolyard_report_end`: the report and the place, if the sheet were over here.
#[inline]
pub fn report_end(
    reporting: &[u64; REPORTING],
    report: &mut [u64; REPORT],
    place: &mut u64,
) -> u64 {
    // SAFETY: `reporting` is the numbers that are read; `report` and `place` are the places that are written, and lie
    // apart from it and from each other, since they are `&mut`.
    unsafe { foreign::woolyard_report_end(reporting, report, place) }
}

/// `woolyard_write_sheet`: for hydrogen, oxygen and nitrogen in turn a list of temperatures in millikelvin and one of
/// pressures in pascals, of any lengths and of any numbers; `length` is that of the sheet which the buffer then begins
/// with, or 0.
#[inline]
pub fn write_sheet(lists: [&[u64]; SHEET_LISTS], buffer: &mut [u8], length: &mut u64) -> u64 {
    let [hydrogen_millikelvin, hydrogen_pascals, lists @ ..] = lists;
    let [oxygen_millikelvin, oxygen_pascals, lists @ ..] = lists;
    let [nitrogen_millikelvin, nitrogen_pascals] = lists;
    // SAFETY: each list has as many numbers as its length says and none is written; `buffer` has the bytes that its
    // length says, `length` is one place, and both are `&mut`, so they lie apart from each other and from the lists.
    unsafe {
        foreign::woolyard_write_sheet(
            hydrogen_millikelvin.as_ptr(),
            hydrogen_millikelvin.len(),
            hydrogen_pascals.as_ptr(),
            hydrogen_pascals.len(),
            oxygen_millikelvin.as_ptr(),
            oxygen_millikelvin.len(),
            oxygen_pascals.as_ptr(),
            oxygen_pascals.len(),
            nitrogen_millikelvin.as_ptr(),
            nitrogen_millikelvin.len(),
            nitrogen_pascals.as_ptr(),
            nitrogen_pascals.len(),
            buffer.as_mut_ptr(),
            buffer.len(),
            length,
        )
    }
}
