//! Woolyard: compressibility roots and densities of parahydrogen, oxygen and nitrogen, hydrogen's ideal
//! heat capacity, the excess viscosity factor of dense gas, and state sheets.
//!
//! Safe Rust over `libwoolyard.a`, whose functions are proved to answer what docs/RULES.md defines. Every
//! function answers every input, and the caller checks nothing first. None keeps a reference or has state
//! of its own, so calls may run at the same time; what is known of a sheet that arrives in parts is the
//! caller's own, a [`Parts`] or a [`Reporting`]. And none allocates but [`claims`], [`write_sheet`] and
//! [`write_sheet_into`], which make lists of their rows.
//!
//! The build asks the archive for its ABI and stops where that is not this wrapper's [`ABI`]. The proofs end at
//! the archive, so the wrapper relies on none of its numbers: one that it does not know is an error value.
//!
//! ```
//! use woolyard::{Fluid, Kind, Refusal, Side};
//!
//! let answer = woolyard::state(Fluid::Oxygen, 120_000, 500_000)?;
//! assert_eq!(answer.kind, Kind::Split);
//! assert_eq!((answer.gas_root, answer.gas_density), (92_696, 17_299));
//! assert_eq!((answer.dense_root, answer.dense_density), (1699, 943_832));
//!
//! let dense = woolyard::side(Fluid::Oxygen, 120_000, 500_000, Side::Dense)?;
//! assert_eq!((dense.root, dense.density), (1699, 943_832));
//!
//! let refused = woolyard::state(Fluid::Oxygen, 55_999, 500_000);
//! assert_eq!(refused, Err(Refusal::TemperatureTooLow));
//! # Ok::<(), Refusal>(())
//! ```

mod abi;
pub mod boundary;
mod parts;
mod reply;
mod report;
mod states;
#[cfg(test)]
mod tests;

pub use abi::ABI;
use boundary::{BAND_ROOTS, FIGURES, SHEET_LISTS, SIDE_FIGURES, WALK_FIGURES};
pub use parts::{Lines, Parts};
use reply::index;
pub use reply::{
    Answer, Band, Claim, Fault, FaultySheet, Fluid, Kind, Line, Refusal, RefusedClaim, Side,
    SideAnswer, State, Walk,
};
pub use report::{Reached, Report, Reporting, SectionReport};
pub use states::{states, States};

/// How many bytes a book has.
pub const BOOK_BYTES: usize = 192;

/// How many bytes a sheet may have.
pub const SHEET_MOST_BYTES: usize = 65_536;

/// How many states of one fluid a sheet may have.
pub const SECTION_MOST_STATES: usize = 1000;

/// A limit with which no walk is cut short.
pub const WALK_ENOUGH: u64 = 100_001;

/// The ends of the range of a scaling, in thousandths, and the scaling that changes nothing.
pub const SCALING_LEAST: u64 = 500;
pub const SCALING_MOST: u64 = 1500;
pub const SCALING_NONE: u64 = 1000;

/// The ABI of the archive that is linked, as it tells it. The build has held it against [`ABI`], unless it was one for
/// another machine: there a program may do so as it starts.
pub fn abi() -> u64 {
    boundary::abi()
}

/// The reply to a state: its five figures, or the first of refusals 21, 22, 31 and 32 that applies.
pub fn state(fluid: Fluid, millikelvin: u64, pascals: u64) -> Result<Answer, Refusal> {
    let mut figures = [0; FIGURES];
    let number = boundary::state(fluid.number(), millikelvin, pascals, &mut figures);
    answer(number, figures)
}

/// The same with a book of starting points, 192 bytes, holding anything at all. Slot k, from 0 to 63, has
/// bytes 3 k to 3 k + 2, the lowest first. An answered call writes the gas root into the three bytes of
/// its slot and touches no other byte; a refused call writes nothing to the book. What the book holds
/// changes how long an answer takes, never what it is. The first of refusals 21, 22, 31, 32 and 4 that
/// applies is given.
///
/// ```
/// use woolyard::{Fluid, BOOK_BYTES};
///
/// let mut book = [0; BOOK_BYTES];
/// let answer = woolyard::state_with_book(Fluid::Oxygen, 120_000, 500_000, 5, &mut book)?;
/// let slot = u32::from_le_bytes([book[15], book[16], book[17], 0]);
/// assert_eq!(u64::from(slot), answer.gas_root);
/// # Ok::<(), woolyard::Refusal>(())
/// ```
pub fn state_with_book(
    fluid: Fluid,
    millikelvin: u64,
    pascals: u64,
    slot: u64,
    book: &mut [u8],
) -> Result<Answer, Refusal> {
    let mut figures = [0; FIGURES];
    let fluid = fluid.number();
    let number = boundary::state_with_book(fluid, millikelvin, pascals, slot, book, &mut figures);
    answer(number, figures)
}

/// The reply to a state for the one side that is named: that side's root and density, or the first of
/// refusals 21, 22, 31 and 32 that applies. For a state of kind ONE both sides give the same figures.
pub fn side(
    fluid: Fluid,
    millikelvin: u64,
    pascals: u64,
    side: Side,
) -> Result<SideAnswer, Refusal> {
    let mut figures = [0; SIDE_FIGURES];
    let [fluid, side] = [fluid.number(), side.number()];
    let number = boundary::side(fluid, millikelvin, pascals, side, &mut figures);
    side_answer(number, figures)
}

/// The same with a book, which is used as [`state_with_book`] uses it: an answered call writes the gas root
/// into its slot, whichever side is named, and touches no other byte; a refused call writes nothing to
/// the book. The first of refusals 21, 22, 31, 32 and 4 that applies is given.
pub fn side_with_book(
    fluid: Fluid,
    millikelvin: u64,
    pascals: u64,
    side: Side,
    slot: u64,
    book: &mut [u8],
) -> Result<SideAnswer, Refusal> {
    let mut figures = [0; SIDE_FIGURES];
    let [fluid, side] = [fluid.number(), side.number()];
    let number =
        boundary::side_with_book(fluid, millikelvin, pascals, side, slot, book, &mut figures);
    side_answer(number, figures)
}

/// The gas root of a state found the slow way: the cubic is worked out at N + b and then at one place below
/// after another, until its value is not positive; N is the grid, 100,000, and b the state's own B* on it,
/// as docs/RULES.md has them. That place is the gas root of [`state`]. No more values are worked out than the
/// limit says, which may be any number; where the walk needs more, it is refusal 11, and as many were worked
/// out as the limit says. The first of refusals 21, 22, 31, 32 and 11 that applies is given.
///
/// ```
/// use woolyard::{Fluid, Refusal, WALK_ENOUGH};
///
/// let walk = woolyard::walk(Fluid::Oxygen, 120_000, 500_000, WALK_ENOUGH)?;
/// assert_eq!((walk.gas_root, walk.values), (92_696, 8411));
/// let cut_short = woolyard::walk(Fluid::Oxygen, 120_000, 500_000, 8410);
/// assert_eq!(cut_short, Err(Refusal::WalkCutShort));
/// # Ok::<(), Refusal>(())
/// ```
pub fn walk(fluid: Fluid, millikelvin: u64, pascals: u64, limit: u64) -> Result<Walk, Refusal> {
    let mut walked = [0; WALK_FIGURES];
    let number = boundary::walk(fluid.number(), millikelvin, pascals, limit, &mut walked);
    Refusal::check(number)?;
    let [gas_root, values] = walked;
    Ok(Walk { gas_root, values })
}

/// What if the attraction is a little off: the gas root of a state at two scalings of its a, which is A* on
/// the grid, as docs/RULES.md has it. The scalings are whole numbers of thousandths, from 500 to 1500, the lower
/// first; they may be equal, and 1000 is a itself. The scaled a is rounded down, and b is left as it is. At every
/// scaling from the lower to the upper the gas root lies between the two that are answered. The first of refusals
/// 21, 22, 31, 32 and 13 that applies is given; 13 is for scalings out of order or range.
///
/// ```
/// use woolyard::{Fluid, Refusal};
///
/// let band = woolyard::band(Fluid::Oxygen, 120_000, 500_000, 950, 1050)?;
/// assert_eq!((band.lower_root, band.upper_root), (93_155, 92_232));
/// let out_of_order = woolyard::band(Fluid::Oxygen, 120_000, 500_000, 1050, 950);
/// assert_eq!(out_of_order, Err(Refusal::ScalingOutOfRange));
/// # Ok::<(), Refusal>(())
/// ```
pub fn band(
    fluid: Fluid,
    millikelvin: u64,
    pascals: u64,
    lower: u64,
    upper: u64,
) -> Result<Band, Refusal> {
    let mut roots = [0; BAND_ROOTS];
    let fluid = fluid.number();
    let number = boundary::band(fluid, millikelvin, pascals, lower, upper, &mut roots);
    Refusal::check(number)?;
    let [lower_root, upper_root] = roots;
    Ok(Band {
        lower_root,
        upper_root,
    })
}

/// Checks roots that other programs gave, as the rows of a spreadsheet have them. A claim stands exactly if its
/// state is accepted and the root is that side's own, which is the one that [`side`] answers. The first claim that
/// does not is told, with the first of refusals 1, 21, 22, 31, 32, 12 and 14 that applies to it; 14 is for another
/// root. Where there are no rows, there is none that does not stand.
///
/// ```
/// use woolyard::{Claim, Fluid, Refusal, RefusedClaim, Side};
///
/// let oxygen = |side: Side, root| Claim {
///     fluid: Fluid::Oxygen.number(),
///     millikelvin: 120_000,
///     pascals: 500_000,
///     side: side.number(),
///     root,
/// };
/// let gas = oxygen(Side::Gas, 92_696);
/// assert_eq!(woolyard::claims(&[gas, oxygen(Side::Dense, 1699)]), Ok(()));
/// let refused = RefusedClaim {
///     claim: 1,
///     refusal: Refusal::RootDiffers,
/// };
/// assert_eq!(woolyard::claims(&[gas, oxygen(Side::Dense, 92_696)]), Err(refused));
/// ```
pub fn claims(rows: &[Claim]) -> Result<(), RefusedClaim> {
    let list = |number: fn(&Claim) -> u64| rows.iter().map(number).collect::<Vec<u64>>();
    let mut claim = 0;
    let number = boundary::claims(
        &list(|row| row.fluid),
        &list(|row| row.millikelvin),
        &list(|row| row.pascals),
        &list(|row| row.side),
        &list(|row| row.root),
        &mut claim,
    );
    Refusal::check(number).map_err(|refusal| RefusedClaim {
        claim: index(claim),
        refusal,
    })
}

/// Hydrogen's ideal heat capacity at a temperature in kelvin, any double at all: kJ/(kg K), equal bit
/// for bit to Table 4 evaluated from A5 down, each operation rounded once. Below 14, above 1000, an
/// infinity or a NaN it is refusal 5.
pub fn heat(kelvin: f64) -> Result<f64, Refusal> {
    let mut heat = 0.0;
    Refusal::check(boundary::heat(kelvin, &mut heat))?;
    Ok(heat)
}

/// The same in whole numbers, for a machine that has no doubles: J/(kg K), at a temperature in millikelvin, any
/// number at all. At a whole kelvin it is the polynomial of Table 4 with its decimals as they are printed, worked
/// out exactly, times 1000 and rounded down; between two it is the straight line between their whole numbers,
/// rounded down. Below 14,000 it is refusal 21, and above 1,000,000 refusal 22, as for parahydrogen.
///
/// ```
/// use woolyard::Refusal;
///
/// assert_eq!(woolyard::heat_table(300_000), Ok(14_842));
/// assert_eq!(woolyard::heat_table(41_500), Ok(10_323));
/// assert_eq!(woolyard::heat_table(13_999), Err(Refusal::TemperatureTooLow));
/// ```
pub fn heat_table(millikelvin: u64) -> Result<u64, Refusal> {
    let mut heat = 0;
    Refusal::check(boundary::heat_table(millikelvin, &mut heat))?;
    Ok(heat)
}

/// The excess viscosity factor of TM-564's equation (2.12-2), in millionths, at a reduced density in
/// thousandths, any number at all: what the equation has in braces, worked out exactly and rounded down three
/// times. Its 1e-7 and its xi stay with the caller. Below 100, where the formula can't be used, and above 3000
/// it is refusal 15.
///
/// ```
/// use woolyard::Refusal;
///
/// assert_eq!(woolyard::viscosity(1000), Ok(4_447_135));
/// assert_eq!(woolyard::viscosity(99), Err(Refusal::DensityOutOfRange));
/// ```
pub fn viscosity(thousandths: u64) -> Result<u64, Refusal> {
    let mut factor = 0;
    Refusal::check(boundary::viscosity(thousandths, &mut factor))?;
    Ok(factor)
}

/// Reads a whole sheet: the number of state lines, which is the sum of the three counts. The faulty line
/// of a refused one is given back as a part of `sheet`.
///
/// ```
/// use woolyard::FaultySheet;
///
/// assert_eq!(woolyard::sheet(b"0\n1\n120000 500000\n0\n"), Ok(1));
/// let faulty = FaultySheet::Malformed { place: 2, line: b"x" };
/// assert_eq!(woolyard::sheet(b"0\nx\n0\n"), Err(faulty));
/// ```
pub fn sheet(sheet: &[u8]) -> Result<u64, FaultySheet<'_>> {
    let mut reading = [0; 3];
    let number = boundary::sheet(sheet, &mut reading);
    let [state_lines, place, length] = reading;
    match Fault::check(number, place) {
        Ok(()) => Ok(state_lines),
        Err(fault) => Err(FaultySheet::of(fault, sheet, length)),
    }
}

/// State line k of a sheet, counted from 0 through all sections: its fluid, temperature in millikelvin
/// and pressure in pascals as written, in range or not. Refusal 7 comes before 6, and 6 before 16,
/// which is given exactly when the sheet is good and k is not below the number of state lines. Each call reads the
/// whole sheet: [`states`] tells all lines in one pass.
pub fn sheet_line(sheet: &[u8], k: u64) -> Result<State, Refusal> {
    let mut state = [0; 3];
    Refusal::check(boundary::sheet_line(sheet, k, &mut state))?;
    State::of(state)
}

/// One page about a whole sheet: for each fluid what its states come to. A refused sheet has the fault that [`sheet`] tells,
/// without the line, and no report.
///
/// ```
/// use woolyard::{Fault, Reached};
///
/// let report = woolyard::report(b"0\n2\n120000 500000\n55999 500000\n0\n")?;
/// assert_eq!((report.oxygen.split, report.oxygen.temperature_too_low), (1, 1));
/// let reached = Reached { density: 17_299, line: 3 };
/// assert_eq!((report.oxygen.smallest, report.oxygen.largest), (Some(reached), Some(reached)));
/// assert_eq!((report.nitrogen.states(), report.nitrogen.smallest), (0, None));
/// assert_eq!(woolyard::report(b"0\nx\n0\n"), Err(Fault::Malformed { place: 2 }));
/// # Ok::<(), Fault>(())
/// ```
pub fn report(sheet: &[u8]) -> Result<Report, Fault> {
    Report::told(|report, place| boundary::report(sheet, report, place))
}

/// The sheet of these rows, as a spreadsheet has them, in any order of the fluids: a section for each fluid with its
/// count, in which its rows keep their order. States out of range are written too. [`sheet_line`] reads the same
/// states back; and the states of a good sheet are written as the very bytes of that one. The first of refusals 8, 9
/// and 10 that applies is given: 8 for more than [`SECTION_MOST_STATES`] rows of one fluid, 9 for a number of more
/// than ten digits, and 10 for a sheet of more than [`SHEET_MOST_BYTES`].
///
/// ```
/// use woolyard::{Fluid, Refusal, State};
///
/// let row = |fluid, millikelvin, pascals| State { fluid, millikelvin, pascals };
/// let rows = [row(Fluid::Oxygen, 120_000, 500_000), row(Fluid::Parahydrogen, 300_000, 1_000_000)];
/// let sheet = woolyard::write_sheet(&rows)?;
/// assert_eq!(sheet, b"1\n300000 1000000\n1\n120000 500000\n0\n");
/// let eleven_digits = woolyard::write_sheet(&[row(Fluid::Oxygen, 10_000_000_000, 0)]);
/// assert_eq!(eleven_digits, Err(Refusal::TooManyDigits));
/// # Ok::<(), Refusal>(())
/// ```
pub fn write_sheet(rows: &[State]) -> Result<Vec<u8>, Refusal> {
    let mut sheet = vec![0; SHEET_MOST_BYTES];
    let length = write_sheet_into(rows, &mut sheet)?;
    sheet.truncate(length);
    sheet.shrink_to_fit();
    Ok(sheet)
}

/// The same into a buffer, which then begins with the sheet, and its length. The bytes behind the sheet stay as they
/// were, and where it is refused all of them. A buffer of just the sheet's length is enough, and one of
/// [`SHEET_MOST_BYTES`] has room for every sheet that can be written; where there is no room, it is refusal 10.
pub fn write_sheet_into(rows: &[State], buffer: &mut [u8]) -> Result<usize, Refusal> {
    let lists: [Vec<u64>; SHEET_LISTS] = std::array::from_fn(|which| {
        let fluid = Fluid::ALL[which / 2];
        let own = rows.iter().filter(|row| row.fluid == fluid);
        own.map(|row| [row.millikelvin, row.pascals][which % 2])
            .collect()
    });
    let mut length = 0;
    let lists = lists.each_ref().map(Vec::as_slice);
    Refusal::check(boundary::write_sheet(lists, buffer, &mut length))?;
    written(length, buffer.len())
}

/// The length of a sheet that was written, which is no more than there was room for.
fn written(length: u64, room: usize) -> Result<usize, Refusal> {
    let length = index(length);
    if length > room {
        return Err(Refusal::NO_ANSWER);
    }
    Ok(length)
}

/// An answer of these figures, unless the number is a refusal's.
fn answer(number: u64, figures: [u64; FIGURES]) -> Result<Answer, Refusal> {
    Refusal::check(number)?;
    let [kind, gas_root, dense_root, gas_density, dense_density] = figures;
    Ok(Answer {
        kind: Kind::of(kind)?,
        gas_root,
        dense_root,
        gas_density,
        dense_density,
    })
}

/// The same of one side.
fn side_answer(number: u64, figures: [u64; SIDE_FIGURES]) -> Result<SideAnswer, Refusal> {
    Refusal::check(number)?;
    let [root, density] = figures;
    Ok(SideAnswer { root, density })
}
