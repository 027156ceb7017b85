//! What docs/RULES.md says of states, of sheets and of the calls on them.

mod abi;
mod report;
mod states;
mod unknown;

use super::*;
use boundary::{LINE_NUMBERS, PARTS};

const EXAMPLE: &[u8] = b"1
300000 1000000
3
300000 1000000
120000 500000
55999 500000
0
";

fn one(root: u64, density: u64) -> Answer {
    Answer {
        kind: Kind::One,
        gas_root: root,
        dense_root: root,
        gas_density: density,
        dense_density: density,
    }
}

#[test]
fn states() {
    let oxygen = |millikelvin, pascals| state(Fluid::Oxygen, millikelvin, pascals);
    assert_eq!(oxygen(300_000, 1_000_000), Ok(one(99_286, 12_920)));
    let split = Answer {
        kind: Kind::Split,
        gas_root: 92_696,
        dense_root: 1699,
        gas_density: 17_299,
        dense_density: 943_832,
    };
    assert_eq!(oxygen(120_000, 500_000), Ok(split));
    let hydrogen = |millikelvin, pascals| state(Fluid::Parahydrogen, millikelvin, pascals);
    assert_eq!(hydrogen(300_000, 1_000_000), Ok(one(100_474, 804)));
    assert_eq!(hydrogen(1_000_000, 10_000), Ok(one(100_001, 2)));
}

#[test]
fn nitrogen() {
    let nitrogen = |millikelvin, pascals| state(Fluid::Nitrogen, millikelvin, pascals);
    assert_eq!(nitrogen(300_000, 1_000_000), Ok(one(99_654, 11_269)));
    let split = Answer {
        kind: Kind::Split,
        gas_root: 91_704,
        dense_root: 1518,
        gas_density: 12_246,
        dense_density: 739_841,
    };
    assert_eq!(nitrogen(90_000, 300_000), Ok(split));
    assert_eq!(nitrogen(63_999, 0), Err(Refusal::TemperatureTooLow));
    assert_eq!(nitrogen(1_000_001, 0), Err(Refusal::TemperatureTooHigh));
    assert_eq!(nitrogen(64_000, 9_999), Err(Refusal::PressureTooLow));
    assert_eq!(nitrogen(64_000, 50_000_001), Err(Refusal::PressureTooHigh));
    let dense = side(Fluid::Nitrogen, 90_000, 300_000, Side::Dense);
    assert_eq!(dense, Ok(one_side(1518, 739_841)));
    let mut book = [7; BOOK_BYTES];
    let with_book = state_with_book(Fluid::Nitrogen, 90_000, 300_000, 63, &mut book);
    assert_eq!(with_book, Ok(split));
    assert_eq!(book, sevens_but(63, [0x38, 0x66, 0x01]));
}

#[test]
fn ends_of_the_ranges() {
    let oxygen = |millikelvin, pascals| state(Fluid::Oxygen, millikelvin, pascals);
    assert_eq!(oxygen(55_999, 0), Err(Refusal::TemperatureTooLow));
    assert_eq!(oxygen(1_000_001, 0), Err(Refusal::TemperatureTooHigh));
    assert_eq!(oxygen(56_000, 9_999), Err(Refusal::PressureTooLow));
    assert_eq!(oxygen(56_000, 50_000_001), Err(Refusal::PressureTooHigh));
    assert!(oxygen(56_000, 10_000).is_ok());
    assert!(oxygen(56_000, 50_000_000).is_ok());
    assert!(oxygen(1_000_000, 10_000).is_ok());
}

#[test]
fn fluids() {
    assert_eq!(Fluid::try_from(0), Ok(Fluid::Parahydrogen));
    assert_eq!(Fluid::try_from(1), Ok(Fluid::Oxygen));
    assert_eq!(Fluid::try_from(2), Ok(Fluid::Nitrogen));
    // the second to the fourth are fluids to whoever keeps 32 bits
    for number in [3, 1 << 32, (1 << 32) + 1, (1 << 32) + 2, u64::MAX] {
        assert_eq!(Fluid::try_from(number), Err(Refusal::NoSuchFluid));
        let mut figures = [7; FIGURES];
        assert_eq!(boundary::state(number, 0, 0, &mut figures), 1);
        assert_eq!(figures, [0; FIGURES]);
    }
}

#[test]
fn slots_of_the_book() {
    let call =
        |slot, book: &mut [u8]| state_with_book(Fluid::Oxygen, 300_000, 1_000_000, slot, book);
    for (slot, length) in [
        (0, 0),
        (0, 1),
        (0, 64),
        (0, 191),
        (64, 192),
        (0, 193),
        (0, 256),
    ] {
        let mut book = vec![7; length];
        assert_eq!(call(slot, &mut book), Err(Refusal::NoSuchSlot));
        assert_eq!(book, vec![7; length]);
    }
    for slot in [0, 5, 63] {
        let mut book = [7; BOOK_BYTES];
        assert_eq!(call(slot, &mut book), Ok(one(99_286, 12_920)));
        assert_eq!(book, sevens_but(slot, [0xD6, 0x83, 0x01]));
    }
}

/// A book of sevens with these bytes in one slot.
fn sevens_but(slot: u64, bytes: [u8; 3]) -> [u8; BOOK_BYTES] {
    let mut book = [7; BOOK_BYTES];
    book[3 * slot as usize..][..3].copy_from_slice(&bytes);
    book
}

/// Neither gas nor dense, though the second and third are those to whoever keeps 32 bits.
const NO_SIDES: [u64; 4] = [2, 1 << 32, (1 << 32) + 1, u64::MAX];

fn one_side(root: u64, density: u64) -> SideAnswer {
    SideAnswer { root, density }
}

/// Each side of a SPLIT state has its own figures, and the two of a ONE state share them.
#[test]
fn sides() {
    let split = |which| side(Fluid::Oxygen, 120_000, 500_000, which);
    assert_eq!(split(Side::Gas), Ok(one_side(92_696, 17_299)));
    assert_eq!(split(Side::Dense), Ok(one_side(1699, 943_832)));
    for which in [Side::Gas, Side::Dense] {
        let oxygen = |millikelvin, pascals| side(Fluid::Oxygen, millikelvin, pascals, which);
        assert_eq!(oxygen(300_000, 1_000_000), Ok(one_side(99_286, 12_920)));
        assert_eq!(oxygen(55_999, 0), Err(Refusal::TemperatureTooLow));
        assert_eq!(oxygen(1_000_001, 0), Err(Refusal::TemperatureTooHigh));
        assert_eq!(oxygen(56_000, 9_999), Err(Refusal::PressureTooLow));
        assert_eq!(oxygen(56_000, 50_000_001), Err(Refusal::PressureTooHigh));
        let hydrogen = side(Fluid::Parahydrogen, 300_000, 1_000_000, which);
        assert_eq!(hydrogen, Ok(one_side(100_474, 804)));
    }
}

#[test]
fn numbers_of_the_sides() {
    assert_eq!(Side::try_from(0), Ok(Side::Gas));
    assert_eq!(Side::try_from(1), Ok(Side::Dense));
    for side in NO_SIDES {
        assert_eq!(Side::try_from(side), Err(Refusal::NoSuchSide));
    }
    assert_eq!(Refusal::check(12), Err(Refusal::NoSuchSide));
}

/// A call on a state that has a refusal of its own: the state's own come before it, and what is written is zeros
/// in any case but the last, whose two places are given.
fn told_after_the_state(call: impl Fn([u64; 3], &mut [u64; 2]) -> u64, own: (u64, [u64; 2])) {
    for (state, told) in [
        ([3, 0, 0], (1, [0, 0])),
        ([1, 55_999, 0], (21, [0, 0])),
        ([1, 1_000_001, 0], (22, [0, 0])),
        ([1, 120_000, 9_999], (31, [0, 0])),
        ([1, 120_000, 50_000_001], (32, [0, 0])),
        ([1, 120_000, 500_000], own),
    ] {
        let mut places = [7; 2];
        let number = call(state, &mut places);
        assert_eq!((number, places), told, "{state:?}");
    }
}

#[test]
fn sides_that_are_neither() {
    for side in NO_SIDES {
        told_after_the_state(
            |[fluid, millikelvin, pascals], figures| {
                boundary::side(fluid, millikelvin, pascals, side, figures)
            },
            (12, [0, 0]),
        );
    }
}

/// 12 comes after 32 and before 4, at a good slot and a bad one, and nothing is written to the book.
#[test]
fn sides_that_are_neither_with_a_book() {
    let mut book = [7; BOOK_BYTES];
    for (side, slot) in NO_SIDES.map(|side| [(side, 5), (side, 64)]).concat() {
        let call = |pascals, book: &mut [u8]| {
            let mut figures = [7; SIDE_FIGURES];
            let number =
                boundary::side_with_book(1, 120_000, pascals, side, slot, book, &mut figures);
            assert_eq!(figures, [0; SIDE_FIGURES]);
            number
        };
        assert_eq!(call(50_000_001, &mut book), 32);
        assert_eq!(call(500_000, &mut book), 12);
        assert_eq!(call(500_000, &mut book[..191]), 12);
    }
    assert_eq!(book, [7; BOOK_BYTES]);
}

/// Whichever side is named, the gas root is written.
#[test]
fn slots_of_the_book_with_a_side() {
    for (which, expected) in [
        (Side::Gas, one_side(92_696, 17_299)),
        (Side::Dense, one_side(1699, 943_832)),
    ] {
        let call = |slot, book: &mut [u8]| {
            side_with_book(Fluid::Oxygen, 120_000, 500_000, which, slot, book)
        };
        let mut book = [7; BOOK_BYTES];
        assert_eq!(call(64, &mut book), Err(Refusal::NoSuchSlot));
        assert_eq!(call(0, &mut book[..191]), Err(Refusal::NoSuchSlot));
        assert_eq!(book, [7; BOOK_BYTES]);
        // the second time the gas root is what the call starts from
        for _ in 0..2 {
            assert_eq!(call(63, &mut book), Ok(expected));
            assert_eq!(book, sevens_but(63, [0x18, 0x6A, 0x01]));
        }
    }
}

/// With as many values as each needs, and with the header's limit that is enough for all: the last is the
/// longest walk that is known.
#[test]
fn walks() {
    for (fluid, millikelvin, pascals, gas_root, values) in [
        (Fluid::Oxygen, 300_000, 1_000_000, 99_286, 1600),
        (Fluid::Oxygen, 120_000, 500_000, 92_696, 8411),
        (Fluid::Parahydrogen, 300_000, 1_000_000, 100_474, 164),
        (Fluid::Parahydrogen, 1_000_000, 10_000, 100_001, 1),
        (Fluid::Nitrogen, 90_000, 300_000, 91_704, 9370),
        (Fluid::Oxygen, 56_000, 249_932, 1306, 99_880),
    ] {
        let with = |limit| walk(fluid, millikelvin, pascals, limit);
        let whole = Walk { gas_root, values };
        for limit in [values, values + 1, WALK_ENOUGH, 1 << 32, 1 << 63, u64::MAX] {
            assert_eq!(with(limit), Ok(whole));
        }
        for limit in [0, values - 1] {
            assert_eq!(with(limit), Err(Refusal::WalkCutShort));
        }
        let answer = state(fluid, millikelvin, pascals);
        assert_eq!(answer.map(|answer| answer.gas_root), Ok(gas_root));
    }
}

/// The count of a walk that is cut short is the limit.
#[test]
fn walks_that_are_refused() {
    for limit in [0, 1, 8410] {
        told_after_the_state(
            |[fluid, millikelvin, pascals], walked| {
                boundary::walk(fluid, millikelvin, pascals, limit, walked)
            },
            (11, [0, limit]),
        );
    }
}

fn two_roots(lower_root: u64, upper_root: u64) -> Band {
    Band {
        lower_root,
        upper_root,
    }
}

#[test]
fn bands() {
    let oxygen = |lower, upper| band(Fluid::Oxygen, 120_000, 500_000, lower, upper);
    assert_eq!(oxygen(950, 1050), Ok(two_roots(93_155, 92_232)));
    assert_eq!(oxygen(500, 1500), Ok(two_roots(97_086, 87_806)));
    assert_eq!(oxygen(500, 500), Ok(two_roots(97_086, 97_086)));
    assert_eq!(oxygen(1500, 1500), Ok(two_roots(87_806, 87_806)));
}

/// Where the gas root jumps: at the upper scaling no root but the dense one is left.
#[test]
fn bands_over_a_jump() {
    let hydrogen = band(Fluid::Parahydrogen, 25_000, 400_000, 1229, 1230);
    assert_eq!(hydrogen, Ok(two_roots(48_204, 5456)));
    let oxygen = band(Fluid::Oxygen, 120_000, 1_500_000, 1273, 1274);
    assert_eq!(oxygen, Ok(two_roots(48_702, 4434)));
    let nitrogen = band(Fluid::Nitrogen, 100_000, 900_000, 1466, 1467);
    assert_eq!(nitrogen, Ok(two_roots(49_524, 3716)));
}

/// At scaling 1000 a state has its own gas root, and at every other of a band one between those of the ends.
#[test]
fn roots_of_a_band() {
    for (fluid, millikelvin, pascals) in [
        (Fluid::Oxygen, 300_000, 1_000_000),
        (Fluid::Oxygen, 120_000, 1_500_000),
        (Fluid::Parahydrogen, 1_000_000, 10_000),
        (Fluid::Parahydrogen, 14_000, 50_000_000),
        (Fluid::Nitrogen, 90_000, 300_000),
    ] {
        let roots = |lower, upper| {
            let band = band(fluid, millikelvin, pascals, lower, upper).expect("a band");
            [band.lower_root, band.upper_root]
        };
        let own = state(fluid, millikelvin, pascals)
            .expect("a state")
            .gas_root;
        assert_eq!(roots(SCALING_NONE, SCALING_NONE), [own, own]);
        let [mut last, least] = roots(SCALING_LEAST, SCALING_MOST);
        for scaling in SCALING_LEAST..=SCALING_MOST {
            let [root, _] = roots(scaling, scaling);
            assert!(least <= root && root <= last, "{scaling}");
            last = root;
        }
    }
}

/// The second to last band is in range to whoever keeps 32 bits.
#[test]
fn bands_that_are_refused() {
    for (lower, upper) in [
        (499, 1000),
        (1000, 1501),
        (1001, 1000),
        (1500, 500),
        (0, 0),
        (1 << 63, 1 << 63),
        ((1 << 32) + 1000, (1 << 32) + 1000),
        (u64::MAX, u64::MAX),
    ] {
        told_after_the_state(
            |[fluid, millikelvin, pascals], roots| {
                boundary::band(fluid, millikelvin, pascals, lower, upper, roots)
            },
            (13, [0, 0]),
        );
    }
    assert_eq!(Refusal::check(13), Err(Refusal::ScalingOutOfRange));
}

fn row([fluid, millikelvin, pascals, side, root]: [u64; 5]) -> Claim {
    Claim {
        fluid,
        millikelvin,
        pascals,
        side,
        root,
    }
}

/// Both sides of a SPLIT state, of a ONE state, and of another fluid.
const STANDING: [[u64; 5]; 6] = [
    [1, 120_000, 500_000, 0, 92_696],
    [1, 120_000, 500_000, 1, 1699],
    [0, 300_000, 1_000_000, 0, 100_474],
    [0, 300_000, 1_000_000, 1, 100_474],
    [2, 90_000, 300_000, 0, 91_704],
    [2, 90_000, 300_000, 1, 1518],
];

#[test]
fn claims_that_stand() {
    assert_eq!(claims(&STANDING.map(row)), Ok(()));
    assert_eq!(claims(&[]), Ok(()));
    for claim in STANDING {
        assert_eq!(claims(&[row(claim)]), Ok(()));
    }
}

/// The other side's root, the cubic's root between the two, those beside the side's own, one that is the side's to
/// whoever keeps 32 bits, and none; each for a claim behind others and before one that is refused too.
#[test]
fn claims_of_another_root() {
    let refused = RefusedClaim {
        claim: 2,
        refusal: Refusal::RootDiffers,
    };
    let far = [(1 << 32) + 92_696, (1 << 32) + 1699];
    for (side, own, other_side) in [(0, 92_696, 1699), (1, 1699, 92_696)] {
        let others = [other_side, 5604, own - 1, own + 1, 0, u64::MAX];
        for root in others.into_iter().chain(far) {
            let other = [1, 120_000, 500_000, side, root];
            let list = [
                STANDING[0],
                STANDING[1],
                other,
                STANDING[2],
                [3, 0, 0, 0, 0],
            ];
            assert_eq!(claims(&list.map(row)), Err(refused), "{other:?}");
        }
    }
}

/// In the order of the refusals, each with all that come behind it: the state's own, 12 and 14.
#[test]
fn claims_that_are_refused() {
    for (refused, refusal) in [
        ([3, 0, 0, 2, 0], Refusal::NoSuchFluid),
        ([1, 55_999, 0, 2, 0], Refusal::TemperatureTooLow),
        ([1, 1_000_001, 0, 2, 0], Refusal::TemperatureTooHigh),
        ([1, 120_000, 9_999, 2, 0], Refusal::PressureTooLow),
        ([1, 120_000, 50_000_001, 2, 0], Refusal::PressureTooHigh),
        ([1, 120_000, 500_000, 2, 0], Refusal::NoSuchSide),
        ([1, 120_000, 500_000, 1, 0], Refusal::RootDiffers),
    ] {
        for claim in 0..STANDING.len() {
            let mut list = STANDING.map(row);
            list[claim] = row(refused);
            assert_eq!(claims(&list), Err(RefusedClaim { claim, refusal }));
        }
    }
}

/// Each list in turn is shorter or longer than the others; where it is as long, all claims stand.
#[test]
fn lists_of_unequal_lengths() {
    let list = |which: usize, length| {
        let numbers = STANDING.iter().map(move |claim| claim[which]);
        numbers.take(length).collect::<Vec<u64>>()
    };
    let call = |lengths: [usize; 5]| {
        let lists = [0, 1, 2, 3, 4].map(|which| list(which, lengths[which]));
        let [fluids, millikelvin, pascals, sides, roots] = &lists;
        let mut claim = 7;
        let number = boundary::claims(fluids, millikelvin, pascals, sides, roots, &mut claim);
        (number, claim)
    };
    for length in 0..=STANDING.len() {
        assert_eq!(call([length; 5]), (0, 0));
        for (which, other) in (0..5).flat_map(|which| [(which, 0), (which, 3), (which, 6)]) {
            let mut lengths = [length; 5];
            lengths[which] = other;
            let number = if other == length { 0 } else { 8 };
            assert_eq!(call(lengths), (number, 0), "{lengths:?}");
        }
    }
    assert_eq!(Refusal::check(8), Err(Refusal::ListsUnfit));
}

#[test]
fn heat_capacities() {
    assert_eq!(heat(40.0), Ok(10.3121));
    assert_ne!(heat(40.0_f64.next_up()), Ok(10.3121));
    for kelvin in [14.0_f64.next_down(), 1000.0_f64.next_up(), f64::NAN] {
        assert_eq!(heat(kelvin), Err(Refusal::HeatOutOfRange));
    }
}

/// Beside the ends of the rows of Table 4; where the table rises, and where it falls; and the last kelvin.
#[test]
fn heat_table_answers() {
    for (millikelvin, expected) in [
        (14_000, 10_312),
        (40_000, 10_312),
        (40_001, 10_312),
        (40_999, 10_329),
        (41_000, 10_330),
        (41_001, 10_329),
        (41_500, 10_323),
        (41_999, 10_316),
        (42_000, 10_316),
        (150_000, 16_204),
        (151_000, 16_208),
        (500_000, 14_515),
        (501_000, 14_515),
        (999_999, 15_132),
        (1_000_000, 15_133),
    ] {
        assert_eq!(heat_table(millikelvin), Ok(expected), "{millikelvin}");
    }
}

/// A call that is refused by this number, which writes 0.
fn refused_with_zero(call: fn(u64, &mut u64) -> u64, argument: u64, refusal: Refusal) {
    let mut place = 7;
    assert_eq!(call(argument, &mut place), refusal.number());
    assert_eq!(place, 0);
}

#[test]
fn heat_table_refusals() {
    for (millikelvin, refusal) in [
        (0, Refusal::TemperatureTooLow),
        (13_999, Refusal::TemperatureTooLow),
        (1_000_001, Refusal::TemperatureTooHigh),
        // 300,000 to whoever keeps 32 bits, and to whoever keeps 16 bits of the kelvins
        ((1 << 32) + 300_000, Refusal::TemperatureTooHigh),
        ((1000 << 16) + 300_000, Refusal::TemperatureTooHigh),
        (u64::MAX, Refusal::TemperatureTooHigh),
    ] {
        assert_eq!(heat_table(millikelvin), Err(refusal));
        refused_with_zero(boundary::heat_table, millikelvin, refusal);
    }
}

#[test]
fn excess_viscosity_factors() {
    assert_eq!(viscosity(100), Ok(223_950));
    assert_eq!(viscosity(1000), Ok(4_447_135));
    assert_eq!(viscosity(3000), Ok(157_192_927));
    // the last but one is 1000 to whoever keeps 32 bits
    for thousandths in [0, 99, 3001, (1 << 32) + 1000, u64::MAX] {
        let refusal = Refusal::DensityOutOfRange;
        assert_eq!(viscosity(thousandths), Err(refusal));
        refused_with_zero(boundary::viscosity, thousandths, refusal);
    }
}

const fn state_of(fluid: Fluid, millikelvin: u64, pascals: u64) -> State {
    State {
        fluid,
        millikelvin,
        pascals,
    }
}

const EXAMPLE_STATES: [State; 4] = [
    state_of(Fluid::Parahydrogen, 300_000, 1_000_000),
    state_of(Fluid::Oxygen, 300_000, 1_000_000),
    state_of(Fluid::Oxygen, 120_000, 500_000),
    state_of(Fluid::Oxygen, 55_999, 500_000),
];

#[test]
fn lines_of_the_example() {
    assert_eq!(sheet(EXAMPLE), Ok(4));
    for (k, state) in (0..).zip(EXAMPLE_STATES) {
        assert_eq!(sheet_line(EXAMPLE, k), Ok(state));
    }
    assert_eq!(sheet_line(EXAMPLE, 4), Err(Refusal::NoSuchLine));
    assert_eq!(sheet_line(EXAMPLE, u64::MAX), Err(Refusal::NoSuchLine));
}

fn malformed(place: usize, line: &[u8]) -> FaultySheet<'_> {
    FaultySheet::Malformed { place, line }
}

#[test]
fn small_sheets() {
    assert_eq!(sheet(b"0\n0\n0\n"), Ok(0));
    assert_eq!(sheet_line(b"0\n0\n0\n", 0), Err(Refusal::NoSuchLine));
    assert_eq!(sheet(b""), Err(malformed(0, b"")));
    assert_eq!(sheet_line(b"", 0), Err(Refusal::SheetMalformed));
}

/// Nitrogen's section is the third: a sheet without it lacks a line, and nothing follows it.
#[test]
fn sections_of_a_sheet() {
    let text = b"1\n300000 1000000\n0\n1\n90000 300000\n";
    let state = state_of(Fluid::Nitrogen, 90_000, 300_000);
    assert_eq!(sheet(text), Ok(2));
    assert_eq!(sheet_line(text, 1), Ok(state));
    assert_eq!(sheet(b"0\n0\n"), Err(malformed(4, b"")));
    assert_eq!(sheet(b"0\n0\n0\n0\n"), Err(malformed(6, b"0")));
}

/// The faulty line is a part of the sheet and no copy of it.
#[test]
fn faulty_line_of_a_sheet() {
    let text = b"0\n1\n120000  500000\n0\n";
    let Err(FaultySheet::Malformed { place, line }) = sheet(text) else {
        panic!("a sheet with two spaces is refused")
    };
    assert_eq!((place, line), (4, &b"120000  500000"[..]));
    assert!(std::ptr::eq(line, &text[4..18]));
}

/// Full sections of the widest lines, which are too long; and with shorter numbers in the first lines, so that they
/// have as many bytes as a sheet may have.
fn widest_and_longest() -> [String; 2] {
    let line = "9999999999 9999999999";
    let section = format!("1000\n{}", format!("{line}\n").repeat(1000));
    let widest = section.repeat(3);
    let longest = widest
        .replacen(line, "9 9", 26)
        .replacen(line, "9 99999999", 1);
    [widest, longest]
}

#[test]
fn full_sections() {
    let [widest, longest] = widest_and_longest();
    assert_eq!(sheet(widest.as_bytes()), Err(FaultySheet::TooLong));
    assert_eq!(longest.len(), SHEET_MOST_BYTES);
    assert_eq!(sheet(longest.as_bytes()), Ok(3000));
}

#[test]
fn longest_sheet() {
    let too_long = [b'0'; SHEET_MOST_BYTES + 1];
    assert_eq!(sheet(&too_long), Err(FaultySheet::TooLong));
    assert_eq!(sheet_line(&too_long, 0), Err(Refusal::SheetTooLong));
    let line = &too_long[1..];
    assert_eq!(sheet(line), Err(malformed(0, line)));
}

/// The rows of a fluid keep their order, wherever those of the others stand.
#[test]
fn sheet_of_the_example() {
    let [hydrogen, oxygen @ ..] = EXAMPLE_STATES;
    let [first, second, third] = oxygen;
    for rows in [
        [hydrogen, first, second, third],
        [first, hydrogen, second, third],
        [first, second, third, hydrogen],
    ] {
        assert_eq!(write_sheet(&rows).as_deref(), Ok(EXAMPLE));
    }
    assert_ne!(
        write_sheet(&[hydrogen, second, first, third]).as_deref(),
        Ok(EXAMPLE)
    );
    assert_eq!(write_sheet(&[]).as_deref(), Ok(&b"0\n0\n0\n"[..]));
}

/// In a buffer with more room than it needs, with just as much, and with one byte less.
#[test]
fn sheet_in_a_buffer() {
    let length = EXAMPLE.len();
    for room in [length, length + 1, SHEET_MOST_BYTES, 2 * SHEET_MOST_BYTES] {
        let mut buffer = vec![7; room];
        let told = write_sheet_into(&EXAMPLE_STATES, &mut buffer);
        assert_eq!(told, Ok(length));
        let (sheet, behind) = buffer.split_at(length);
        assert_eq!(sheet, EXAMPLE);
        assert!(behind.iter().all(|&byte| byte == 7));
    }
    for room in [0, 1, length - 1] {
        let mut buffer = vec![7; room];
        let told = write_sheet_into(&EXAMPLE_STATES, &mut buffer);
        assert_eq!(told, Err(Refusal::NoRoom));
        assert_eq!(buffer, vec![7; room]);
    }
}

/// Any number that fits is written and read again as it was, in range or not.
#[test]
fn numbers_of_a_written_sheet() {
    for fluid in Fluid::ALL {
        for number in [0, 1, 9, 10, 1 << 32, 1_000_000_000, 9_999_999_999] {
            for state in [state_of(fluid, number, 7), state_of(fluid, 7, number)] {
                let sheet = write_sheet(&[state, state]).expect("a sheet");
                assert_eq!(sheet_line(&sheet, 1), Ok(state));
            }
        }
        // the last two are 7 to whoever keeps 32 bits or takes the highest for a sign
        for number in [10_000_000_000, u64::MAX, (1 << 34) + 7, (1 << 63) + 7] {
            for state in [state_of(fluid, number, 7), state_of(fluid, 7, number)] {
                assert_eq!(write_sheet(&[state]), Err(Refusal::TooManyDigits));
            }
        }
    }
}

/// As many rows of each fluid as a section may have, and one more; and full sections of as many bytes as a sheet may
/// have, and one more.
#[test]
fn full_sheets_that_are_written() {
    for fluid in Fluid::ALL {
        let rows = [state_of(fluid, 7, 0); SECTION_MOST_STATES + 1];
        let written = write_sheet(&rows[1..]).expect("a sheet");
        assert_eq!(sheet(&written), Ok(1000));
        assert_eq!(write_sheet(&rows), Err(Refusal::ListsUnfit));
    }
    let wide = |fluid| [state_of(fluid, 9_999_999_999, 9_999_999_999); SECTION_MOST_STATES];
    let mut rows = Fluid::ALL.map(wide).concat();
    assert_eq!(write_sheet(&rows), Err(Refusal::NoRoom));
    rows[..26].fill(state_of(Fluid::Parahydrogen, 9, 9));
    rows[26].millikelvin = 99;
    assert_eq!(write_sheet(&rows), Err(Refusal::NoRoom));
    rows[26] = state_of(Fluid::Parahydrogen, 9, 99_999_999);
    let written = write_sheet(&rows).expect("a sheet");
    assert_eq!(
        (written.len(), sheet(&written)),
        (SHEET_MOST_BYTES, Ok(3000))
    );
    rows[26].pascals = 999_999_999;
    assert_eq!(write_sheet(&rows), Err(Refusal::NoRoom));
}

/// Each refusal with all that come behind it, and with the faults in the lists of different fluids. The lists may share
/// their memory, as they are only read.
#[test]
fn lists_of_a_sheet_that_are_refused() {
    let [short, long, too_long] = [1, 1000, 1001].map(|length| vec![9_999_999_999; length]);
    let digits = vec![10_000_000_000; 1000];
    for (lists, number) in [
        ([&digits, &digits, &short, &short, &long, &short], 8),
        ([&digits, &digits, &long, &long, &too_long, &too_long], 8),
        ([&short, &long, &long, &long, &digits, &digits], 8),
        ([&long, &long, &long, &long, &long, &digits], 9),
        ([&digits, &long, &long, &long, &long, &long], 9),
        ([&long; 6], 10),
        ([&short; 6], 0),
    ] {
        let mut buffer = vec![7; 2 * SHEET_MOST_BYTES];
        let mut length = 7;
        let lists = lists.map(Vec::as_slice);
        let told = boundary::write_sheet(lists, &mut buffer, &mut length);
        let written = if number == 0 { 3 * 24 } else { 0 };
        assert_eq!((told, length), (number, written));
        assert!(buffer[written as usize..].iter().all(|&byte| byte == 7));
    }
    for refusal in [Refusal::ListsUnfit, Refusal::TooManyDigits, Refusal::NoRoom] {
        assert_eq!(Refusal::check(refusal.number()), Err(refusal));
    }
}

/// What is answered of a sheet in these parts, and what is said at its end.
fn in_parts(list: &[&[u8]]) -> (Vec<Line>, Result<u64, Fault>) {
    let mut parts = Parts::default();
    let mut lines = Vec::new();
    for part in list {
        lines.extend(parts.take(part).flatten());
    }
    (lines, parts.end())
}

fn line_of(state: State) -> Line {
    let reply = super::state(state.fluid, state.millikelvin, state.pascals);
    Line {
        fluid: state.fluid.number(),
        millikelvin: state.millikelvin,
        pascals: state.pascals,
        reply,
    }
}

/// What `sheet` says of it, without the line.
fn whole(text: &[u8]) -> Result<u64, Fault> {
    sheet(text).map_err(|faulty| faulty.fault())
}

/// A line that is wrong in each way and a section too many, each behind a state; with the byte at which the fault is
/// met, and its place.
const FAULTY: [(&[u8], usize, usize); 7] = [
    (b"1\n7 7\n1\n120000  500000\n0\n", 22, 8),
    (b"1\n7 7\n1\n12345678901 7\n0\n", 21, 8),
    (b"1\n7 7\n1\n1234567890 12345678901\n0\n", 29, 8),
    (b"1\n7 7\n1001\n7 7\n0\n", 10, 6),
    (b"1\n7 7\n07\n", 8, 6),
    (b"1\n7 7\n0\n0\n0\n", 10, 10),
    (b"1\n7 7\n0\n\n", 8, 8),
];

/// What is wrong with them is met only where they are over.
const UNFINISHED: [&[u8]; 5] = [b"", b"2\n7 7\n", b"2\n7 7", b"0\n0\n0", &[b'7'; 21]];

/// Into three parts at every two places, which leaves some of them empty.
#[test]
fn sheets_cut_anywhere() {
    let faulty = FAULTY.map(|(text, ..)| text);
    for text in [&faulty[..], &UNFINISHED, &[EXAMPLE, b"0\n0\n0\n"]].concat() {
        let expected = in_parts(&[text]);
        assert_eq!(expected.1, whole(text), "{}", text.escape_ascii());
        for second in 0..=text.len() {
            let (before, last) = text.split_at(second);
            for first in 0..=second {
                let (first, middle) = before.split_at(first);
                assert_eq!(in_parts(&[first, middle, last]), expected);
            }
        }
    }
    assert_eq!(in_parts(&[EXAMPLE]).0, EXAMPLE_STATES.map(line_of));
}

/// Each state as the last byte of its line is taken, and at every place what is said of the sheet so far.
#[test]
fn sheet_byte_by_byte() {
    let mut parts = Parts::default();
    let mut states = EXAMPLE_STATES.into_iter();
    for (place, byte) in EXAMPLE.iter().enumerate() {
        assert_eq!(parts.end(), whole(&EXAMPLE[..place]));
        let ends = [16, 33, 47, 60].contains(&place);
        let expected = if ends { states.next() } else { None };
        let lines: Vec<_> = parts.take(&[*byte]).collect();
        assert_eq!(lines, Vec::from_iter(expected.map(line_of).map(Ok)));
    }
    assert_eq!((parts.end(), states.next()), (Ok(4), None));
}

/// The byte at which a fault is met. Behind it no part brings anything but the fault, once, and so the end.
fn met(text: &[u8]) -> Option<(usize, Fault)> {
    let mut parts = Parts::default();
    let place = text
        .iter()
        .position(|byte| parts.take(&[*byte]).any(|line| line.is_err()))?;
    let fault = parts.end().expect_err("a fault");
    for part in [&text[place + 1..], EXAMPLE, &[7; SHEET_MOST_BYTES], b""] {
        assert_eq!(Vec::from_iter(parts.take(part)), [Err(fault)]);
        assert_eq!(parts.end(), Err(fault));
    }
    Some((place, fault))
}

/// A bad line at its end, but a long one at its 22nd byte; and what is behind the last line at once.
#[test]
fn where_a_fault_is_met() {
    for (text, byte, place) in FAULTY.into_iter().chain([(&[b'7'; 22][..], 21, 0)]) {
        let fault = Fault::Malformed { place };
        assert_eq!(met(text), Some((byte, fault)), "{}", text.escape_ascii());
    }
    assert_eq!(UNFINISHED.map(met), [None; 5]);
    assert_eq!(met(EXAMPLE), None);
}

/// Byte 65,537 is too much, also where it would be malformed; but what was so before stays so.
#[test]
fn longest_sheet_in_parts() {
    let [widest, longest] = widest_and_longest();
    assert_eq!(in_parts(&[longest.as_bytes()]).1, Ok(3000));
    assert_eq!(met(longest.as_bytes()), None);
    for behind in ["0", "\n", "x"] {
        let text = format!("{longest}{behind}");
        assert_eq!(
            met(text.as_bytes()),
            Some((SHEET_MOST_BYTES, Fault::TooLong))
        );
    }
    let (lines, end) = in_parts(&[widest.as_bytes()]);
    assert_eq!((lines.len(), end), (2978, Err(Fault::TooLong)));
    let malformed = Err(Fault::Malformed { place: 0 });
    assert_eq!(in_parts(&[&[b'7'; SHEET_MOST_BYTES + 1]]).1, malformed);
}

/// From every place, with the numbers stored, and with what a clone has taken lost.
#[test]
fn parts_stored_and_gone_on_from() {
    let all = EXAMPLE_STATES.map(line_of).map(Ok);
    for place in 0..=EXAMPLE.len() {
        let (before, rest) = EXAMPLE.split_at(place);
        let mut parts = Parts::default();
        let lines = Vec::from_iter(parts.take(before));
        let mut other = parts.clone();
        assert!(other.take(b"no sheet\n").any(|line| line.is_err()));
        let mut stored = Parts::from(parts.numbers());
        for parts in [&mut parts, &mut stored] {
            let more = parts.take(rest);
            assert_eq!(Vec::from_iter(lines.iter().copied().chain(more)), all);
            assert_eq!(parts.end(), Ok(4));
        }
    }
}

/// What is not asked for is not taken, and is there to be taken.
#[test]
fn part_left_off() {
    let mut parts = Parts::default();
    let mut lines = parts.take(EXAMPLE);
    assert_eq!(lines.rest(), EXAMPLE);
    assert_eq!(lines.next(), Some(Ok(line_of(EXAMPLE_STATES[0]))));
    let rest = lines.rest();
    assert_eq!(rest, &EXAMPLE[17..]);
    assert_eq!(parts.end(), whole(&EXAMPLE[..17]));
    let mut lines = parts.take(rest);
    assert_eq!(lines.by_ref().count(), 3);
    assert_eq!((lines.rest(), lines.next()), (&b""[..], None));
    assert_eq!(parts.end(), Ok(4));
}

/// Every place, whatever it held before: behind a good sheet of the greatest length, and behind nothing.
#[test]
fn places_written_for_a_part() {
    let [_, longest] = widest_and_longest();
    let mut full = Parts::default();
    assert_eq!(full.take(longest.as_bytes()).count(), 3000);
    let answer = [0, 300_000, 1_000_000, 0, 1, 100_474, 100_474, 804, 804];
    let none = [0; LINE_NUMBERS];
    for (kept, part, taken, end) in [
        ([0; PARTS], EXAMPLE, (0, 17, answer), (6, [0, 17])),
        ([0; PARTS], b"", (16, 0, none), (6, [0, 0])),
        ([0; PARTS], b"0\n0\n0\n", (16, 6, none), (0, [0, 0])),
        ([0; PARTS], b"0\nx\n0\n", (6, 6, none), (6, [0, 2])),
        (full.numbers(), b"", (16, 0, none), (0, [3000, 0])),
        (full.numbers(), b"x\n", (7, 2, none), (7, [0, 0])),
    ] {
        let mut parts = kept;
        let (mut count, mut answer, mut reading) = (7, [7; LINE_NUMBERS], [7; 2]);
        let number = boundary::parts_take(&mut parts, part, &mut count, &mut answer);
        assert_eq!((number, count, answer), taken);
        let number = boundary::parts_end(&parts, &mut reading);
        assert_eq!((number, reading), end);
    }
}

/// Numbers that no sheet has left are taken too, and every byte behind them.
#[test]
fn any_numbers_as_parts() {
    let mut kept = Vec::new();
    for number in [1, 3, 6, 7, 16, 1000, 65_536, 65_537, 1 << 32, u64::MAX] {
        kept.push([number; PARTS]);
        for which in 0..PARTS {
            let mut numbers = [0; PARTS];
            numbers[which] = number;
            kept.push(numbers);
        }
    }
    // a state line is wanted in a section that no sheet has
    let mut beyond = [0; PARTS];
    beyond[3..5].copy_from_slice(&[5, 1]);
    let line = Parts::from(beyond).take(b"300000 1000000\n").next();
    let refused = line.map(|line| line.map(|line| (line.fluid, line.reply)));
    assert_eq!(refused, Some(Ok((4, Err(Refusal::NoSuchFluid)))));
    kept.push(beyond);
    for numbers in kept {
        let mut parts = Parts::from(numbers);
        assert_eq!(parts.numbers(), numbers);
        // no more lines than have an end, and at most one fault
        assert!(parts.take(EXAMPLE).count() <= 8, "{numbers:?}");
        let _ = parts.end();
    }
}
