//! Document 01, "Replies" to "The book of starting points", with the finer refusals, the gas constant, the
//! named side, the book in bytes and nitrogen of document 02 (C-12, C-16, C-18, C-19 and C-20): the reply
//! to a state, as the papers write it. Every product has 128 bits, so that none needs a thought.

use crate::cubic::crossings;

pub const HYDROGEN: u64 = 0;
pub const OXYGEN: u64 = 1;
pub const NITROGEN: u64 = 2;

/// In hundred-thousandths. Its critical constants are worked out with it too.
const MOLAR_MASS_OF_HYDROGEN: u128 = 201_594;

/// What the papers say of a fluid, and which of its states the checks ask for.
#[derive(Clone, Copy)]
pub struct Fluid {
    pub number: u64,
    pub name: &'static str,
    /// The lowest millikelvin, which is in range.
    pub coldest: u64,
    /// In hundred-thousandths.
    molar_mass: u128,
    /// At a temperature in millikelvin.
    critical: fn(u64) -> Critical,
    /// The temperature that is the critical one there, which for hydrogen is 43,600 - 2,180,000,000 / 201,594.
    /// Above it SPLIT states were met only where t, rounded down, is still 10,000.
    pub critical_millikelvin: u64,
    pub states: States,
}

/// States of a fluid that the checks ask for, each a temperature and a pressure.
#[derive(Clone, Copy)]
pub struct States {
    /// The papers' own, the refused ones among them.
    pub worked: &'static [[u64; 2]],
    /// Besides those: SPLIT and not, near the critical point, and the densest.
    pub others: &'static [[u64; 2]],
    /// A SPLIT one, and two ONE states of the same gas density.
    pub split: [u64; 2],
    pub as_split: [[u64; 2]; 2],
    /// The hottest SPLIT one with the roots nearest to each other that a wide search met, which for each fluid
    /// are 32,452 and 34,028.
    pub hottest_split: [u64; 2],
}

impl Fluid {
    /// A state of this fluid.
    pub fn at(&self, [millikelvin, pascals]: [u64; 2]) -> [u64; 3] {
        [self.number, millikelvin, pascals]
    }
}

/// All fluids, in the order of their numbers, which is that of a sheet's sections: a further one is a further entry.
/// Nitrogen's figures are those of Table 2 of source document 000.
pub const FLUIDS: [Fluid; 3] = [
    Fluid {
        number: HYDROGEN,
        name: "hydrogen",
        coldest: 14_000,
        molar_mass: MOLAR_MASS_OF_HYDROGEN,
        critical: critical_of_hydrogen,
        critical_millikelvin: 32_786,
        states: States {
            worked: &[[300_000, 1_000_000], [1_000_000, 10_000]],
            others: &[
                [14_000, 10_000],
                [14_000, 50_000_000],
                [20_000, 100_000],
                [30_000, 800_000],
                [32_000, 1_200_000],
                [33_000, 1_300_000],
                [25_000, 50_000_000],
            ],
            split: [25_000, 200_000],
            as_split: [[300_000, 2_763_161], [300_000, 2_763_162]],
            hottest_split: [32_790, 1_226_311],
        },
    },
    Fluid {
        number: OXYGEN,
        name: "oxygen",
        coldest: 56_000,
        molar_mass: 3_199_880,
        critical: |_| Critical {
            millikelvin: 154_576,
            pascals: 5_042_000,
        },
        critical_millikelvin: 154_576,
        states: States {
            worked: &[
                [300_000, 1_000_000],
                [120_000, 500_000],
                [55_999, 500_000],
                [56_000, 9_999],
                [56_000, 10_000],
                [56_000, 50_000_000],
            ],
            others: &[
                [56_000, 20_000],
                [90_188, 101_325],
                [100_000, 250_000],
                [140_000, 2_900_000],
                [154_000, 4_950_000],
                [154_576, 5_042_000],
                [160_000, 6_000_000],
                [1_000_000, 50_000_000],
            ],
            split: [120_000, 500_000],
            as_split: [[300_000, 1_335_718], [300_000, 1_335_719]],
            hottest_split: [154_591, 5_040_840],
        },
    },
    Fluid {
        number: NITROGEN,
        name: "nitrogen",
        coldest: 64_000,
        molar_mass: 2_801_340,
        critical: |_| Critical {
            millikelvin: 126_192,
            pascals: 3_395_800,
        },
        critical_millikelvin: 126_192,
        states: States {
            worked: &[
                [300_000, 1_000_000],
                [90_000, 300_000],
                [63_999, 500_000],
                [64_000, 9_999],
                [64_000, 10_000],
                [64_000, 50_000_000],
            ],
            others: &[
                [77_355, 101_325],
                [115_000, 2_000_000],
                [126_000, 3_370_000],
                [130_000, 4_000_000],
            ],
            split: [90_000, 300_000],
            as_split: [[300_000, 1_086_317], [300_000, 1_086_318]],
            hottest_split: [126_204, 3_395_018],
        },
    },
];

/// The two kinds. A refused state has none, which is 0.
pub const ONE: u64 = 1;
pub const SPLIT: u64 = 2;

/// The two sides.
pub const GAS: u64 = 0;
pub const DENSE: u64 = 1;

/// The ends of the ranges that all fluids share, which are in range: the highest millikelvin, and the
/// pascals.
pub const HOTTEST: u64 = 1_000_000;
pub const LOWEST_PRESSURE: u64 = 10_000;
pub const HIGHEST_PRESSURE: u64 = 50_000_000;

/// In millionths of a J/(kmol K).
const GAS_CONSTANT: u128 = 8_314_462_618;

/// How many slots a book has, how many bytes each of them takes, and how many the book does.
pub const BOOK_SLOTS: usize = 64;
pub const SLOT_BYTES: usize = 3;
pub const BOOK_BYTES: usize = BOOK_SLOTS * SLOT_BYTES;

/// A reply's number, kind, roots and densities: all but the number are zeros where it is refused.
#[derive(Clone, Copy, Debug, Default, PartialEq, Eq)]
pub struct Reply {
    pub number: u64,
    pub kind: u64,
    pub gas_root: u64,
    pub dense_root: u64,
    pub gas_density: u64,
    pub dense_density: u64,
}

impl Reply {
    /// All but the number, in the paper's order.
    pub fn figures(&self) -> [u64; 5] {
        [
            self.kind,
            self.gas_root,
            self.dense_root,
            self.gas_density,
            self.dense_density,
        ]
    }
}

/// A reply for one side: its number, and that side's root and density, zeros where it is refused.
#[derive(Clone, Copy, Debug, Default, PartialEq, Eq)]
pub struct SideReply {
    pub number: u64,
    pub root: u64,
    pub density: u64,
}

impl SideReply {
    /// All but the number.
    pub fn figures(&self) -> [u64; 2] {
        [self.root, self.density]
    }
}

/// The critical temperature and pressure, Tc and Pc.
#[derive(Debug, PartialEq, Eq)]
pub struct Critical {
    pub millikelvin: u64,
    pub pascals: u64,
}

/// What leads from a state to its cubic, and the cubic's a and b.
#[derive(Debug, PartialEq, Eq)]
pub struct Reduced {
    pub t: u64,
    pub p: u64,
    pub s: u64,
    pub a: u64,
    pub b: u64,
}

/// None where no fluid has the number.
fn fluid_of_number(number: u64) -> Option<Fluid> {
    FLUIDS.into_iter().find(|fluid| fluid.number == number)
}

/// Of a number that is a fluid's.
fn known(number: u64) -> Fluid {
    fluid_of_number(number).expect("the number of a fluid")
}

/// The critical constants of a fluid, by its number.
pub fn critical(fluid: u64, millikelvin: u64) -> Critical {
    (known(fluid).critical)(millikelvin)
}

/// Hydrogen's critical constants depend on the temperature; the others' are constants.
fn critical_of_hydrogen(millikelvin: u64) -> Critical {
    let m = MOLAR_MASS_OF_HYDROGEN * u128::from(millikelvin);
    Critical {
        millikelvin: narrow(43_600 * m / (m + 2_180_000_000)),
        pascals: narrow(2_046_765 * m / (m + 4_420_000_000)),
    }
}

/// t, p, s, a and b of a state whose critical constants are these.
pub fn reduced(critical: &Critical, millikelvin: u64, pascals: u64) -> Reduced {
    let t = 10_000 * u128::from(millikelvin) / u128::from(critical.millikelvin);
    let p = 1_000_000 * u128::from(pascals) / u128::from(critical.pascals);
    let s = largest_with_square_up_to(10_000 * t);
    Reduced {
        t: narrow(t),
        p: narrow(p),
        s: narrow(s),
        a: narrow(42_748_000_000 * p / (t * t * s)),
        b: narrow(8664 * p / (100 * t)),
    }
}

/// Found by counting up, which is its definition. The limit is below 2^32 for every state in range, so
/// no square needs more than the 64 bits of a quick count.
fn largest_with_square_up_to(limit: u128) -> u128 {
    let limit = u64::from(u32::try_from(limit).expect("a limit of 32 bits"));
    let mut s = 0;
    while (s + 1) * (s + 1) <= limit {
        s += 1;
    }
    s.into()
}

/// Grams per cubic metre at this root: P x M x N x 1,000,000 over the gas constant x z x T, rounded down.
/// M x N is the molar mass in hundred-thousandths; the gas constant's millionths bring a million more.
pub fn density(fluid: u64, millikelvin: u64, pascals: u64, root: u64) -> u64 {
    let [millikelvin, pascals, root] = [millikelvin, pascals, root].map(u128::from);
    let top = pascals * known(fluid).molar_mass * 1_000_000 * 1_000_000;
    narrow(top / (GAS_CONSTANT * root * millikelvin))
}

/// The cubic of a state, or the number of the first refusal that applies.
pub fn accepted(fluid: u64, millikelvin: u64, pascals: u64) -> Result<Reduced, u64> {
    let Some(Fluid { coldest, .. }) = fluid_of_number(fluid) else {
        return Err(1);
    };
    if millikelvin < coldest {
        return Err(21);
    }
    if millikelvin > HOTTEST {
        return Err(22);
    }
    if pascals < LOWEST_PRESSURE {
        return Err(31);
    }
    if pascals > HIGHEST_PRESSURE {
        return Err(32);
    }
    Ok(reduced(&critical(fluid, millikelvin), millikelvin, pascals))
}

/// The reply to a call without a book.
pub fn reply(fluid: u64, millikelvin: u64, pascals: u64) -> Reply {
    let Reduced { a, b, .. } = match accepted(fluid, millikelvin, pascals) {
        Ok(reduced) => reduced,
        Err(number) => return refused(number),
    };
    let found = crossings(a, b);
    let dense_root = *found.first().expect("a crossing");
    let gas_root = *found.last().expect("a crossing");
    Reply {
        number: 0,
        kind: if gas_root == dense_root { ONE } else { SPLIT },
        gas_root,
        dense_root,
        gas_density: density(fluid, millikelvin, pascals, gas_root),
        dense_density: density(fluid, millikelvin, pascals, dense_root),
    }
}

/// The reply to a call with a book, which also writes there. Refusal 4 comes after the others, and
/// nothing is read from the book.
pub fn reply_with_book(
    fluid: u64,
    millikelvin: u64,
    pascals: u64,
    slot: u64,
    book: &mut [u8],
) -> Reply {
    put_into_book(reply(fluid, millikelvin, pascals), slot, book)
}

/// What a book makes of the reply to the same call without one.
pub fn put_into_book(without: Reply, slot: u64, book: &mut [u8]) -> Reply {
    if without.number != 0 {
        return without;
    }
    if book.len() != BOOK_BYTES || slot >= BOOK_SLOTS as u64 {
        return refused(4);
    }
    let bytes = &mut book[SLOT_BYTES * slot as usize..][..SLOT_BYTES];
    bytes.copy_from_slice(&bytes_of_slot(without.gas_root));
    without
}

/// A slot that holds this number, the lowest byte first.
pub fn bytes_of_slot(number: u64) -> [u8; SLOT_BYTES] {
    let [low, middle, high, rest @ ..] = number.to_le_bytes();
    assert_eq!(rest, [0; 5], "a number of three bytes");
    [low, middle, high]
}

/// What the slots of a book hold, from the first on.
pub fn numbers_of_slots(book: &[u8; BOOK_BYTES]) -> [u32; BOOK_SLOTS] {
    std::array::from_fn(|slot| {
        let first = SLOT_BYTES * slot;
        u32::from_le_bytes([book[first], book[first + 1], book[first + 2], 0])
    })
}

/// The reply to a call that names the side, without a book.
pub fn side_reply(fluid: u64, millikelvin: u64, pascals: u64, side: u64) -> SideReply {
    side_of(reply(fluid, millikelvin, pascals), side)
}

/// The named side of a whole reply. Refusal 12 comes after the state's own, which are passed on.
pub fn side_of(whole: Reply, side: u64) -> SideReply {
    if whole.number != 0 {
        return side_refused(whole.number);
    }
    let (root, density) = match side {
        GAS => (whole.gas_root, whole.gas_density),
        DENSE => (whole.dense_root, whole.dense_density),
        _ => return side_refused(12),
    };
    SideReply {
        number: 0,
        root,
        density,
    }
}

/// The same with a book, which is also written to.
pub fn side_reply_with_book(
    fluid: u64,
    millikelvin: u64,
    pascals: u64,
    side: u64,
    slot: u64,
    book: &mut [u8],
) -> SideReply {
    put_side_into_book(reply(fluid, millikelvin, pascals), side, slot, book)
}

/// What a book makes of a named side of the whole reply to the same state. Refusal 4 comes after 12, and
/// whichever side is named, it is the gas root that is written.
pub fn put_side_into_book(whole: Reply, side: u64, slot: u64, book: &mut [u8]) -> SideReply {
    let without = side_of(whole, side);
    if without.number != 0 {
        return without;
    }
    side_of(put_into_book(whole, slot, book), side)
}

/// The book of document 01 before C-19, 64 numbers of 32 bits: what it makes of the number of the reply to
/// the same call without a book. An answered call writes the gas root into its slot, a refused one nothing.
pub fn put_into_numbers(without: u64, gas_root: u64, slot: u64, numbers: &mut [u32]) -> u64 {
    if without != 0 {
        return without;
    }
    if numbers.len() != 64 || slot > 63 {
        return 4;
    }
    numbers[slot as usize] = u32::try_from(gas_root).expect("a root of 32 bits");
    0
}

fn refused(number: u64) -> Reply {
    Reply {
        number,
        ..Reply::default()
    }
}

fn side_refused(number: u64) -> SideReply {
    SideReply {
        number,
        ..SideReply::default()
    }
}

/// What must fit into 64 bits, and is looked at rather than cut off.
pub(crate) fn narrow(wide: u128) -> u64 {
    u64::try_from(wide).expect("a number of 64 bits")
}

#[cfg(test)]
mod tests {
    use super::*;
    use crate::cases::REFUSED;
    use crate::cubic::{g, N};
    use crate::random::Random;
    use std::fmt::Debug;

    fn one(root: u64, density: u64) -> Reply {
        Reply {
            number: 0,
            kind: ONE,
            gas_root: root,
            dense_root: root,
            gas_density: density,
            dense_density: density,
        }
    }

    /// t, p, s, a and b.
    fn coefficients(fluid: u64, millikelvin: u64, pascals: u64) -> [u64; 5] {
        let Reduced { t, p, s, a, b } =
            reduced(&critical(fluid, millikelvin), millikelvin, pascals);
        [t, p, s, a, b]
    }

    /// Eight times g half a step above z: negative where the root above z is nearer to z + 1.
    fn eight_g_half_above(a: u64, b: u64, z: u64) -> i128 {
        let [n, a, b, w] = [N, a, b, 2 * z + 1].map(i128::from);
        w * w * w - 2 * n * w * w + 4 * (n * a - b * b - n * b) * w - 8 * n * a * b
    }

    // Document 01, "Points worked through".

    #[test]
    fn oxygen_at_300_kelvin() {
        let expected = [19_407, 198_333, 13_930, 1616, 885];
        assert_eq!(coefficients(OXYGEN, 300_000, 1_000_000), expected);
        assert_eq!(reply(OXYGEN, 300_000, 1_000_000), one(99_286, 12_920));
    }

    #[test]
    fn oxygen_at_120_kelvin() {
        let expected = [7763, 99_166, 8810, 7984, 1106];
        assert_eq!(coefficients(OXYGEN, 120_000, 500_000), expected);
        assert_eq!(g(7984, 1106, 1699), -292_242_865);
        assert_eq!(g(7984, 1106, 1700), 63_098_800);
        assert_eq!(g(7984, 1106, 92_696), -84_314_720);
        let expected = Reply {
            number: 0,
            kind: SPLIT,
            gas_root: 92_696,
            dense_root: 1699,
            gas_density: 17_299,
            dense_density: 943_832,
        };
        assert_eq!(reply(OXYGEN, 120_000, 500_000), expected);
    }

    #[test]
    fn hydrogen_at_300_kelvin() {
        let expected = Critical {
            millikelvin: 42_083,
            pascals: 1_907_366,
        };
        assert_eq!(critical(HYDROGEN, 300_000), expected);
        let expected = [71_287, 524_283, 26_699, 165, 637];
        assert_eq!(coefficients(HYDROGEN, 300_000, 1_000_000), expected);
        assert_eq!(reply(HYDROGEN, 300_000, 1_000_000), one(100_474, 804));
    }

    #[test]
    fn hydrogen_at_1000_kelvin() {
        let [.., a, b] = coefficients(HYDROGEN, 1_000_000, 10_000);
        assert_eq!((a, b), (0, 1));
        assert_eq!(reply(HYDROGEN, 1_000_000, 10_000), one(100_001, 2));
    }

    /// Document 02, C-16: the SI's value to ten figures. The SI fixes Avogadro's number, 6.02214076e23, and
    /// Boltzmann's constant, 1.380649e-23, and the gas constant is their product.
    #[test]
    fn gas_constant_of_the_si() {
        let hundred_thousandths_of_millionths = 602_214_076 * 1_380_649;
        assert_eq!(
            (hundred_thousandths_of_millionths + 50_000) / 100_000,
            GAS_CONSTANT
        );
    }

    /// The molar mass in the units above the bar is no whole number of gas constants. At these states the
    /// density of the dense root is reached only by what is left of it.
    #[test]
    fn densities_barely_reached() {
        let states = [
            (HYDROGEN, 24_073, 15_549_695, 79_820),
            (HYDROGEN, 25_329, 397_317, 60_688),
            (OXYGEN, 121_784, 3_611_541, 952_596),
            (OXYGEN, 107_132, 37_618, 1_055_762),
            (NITROGEN, 100_277, 928_044, 667_558),
            (NITROGEN, 74_011, 42_902, 838_218),
        ];
        for (fluid, millikelvin, pascals, grams) in states {
            let Reply {
                dense_root,
                dense_density,
                ..
            } = reply(fluid, millikelvin, pascals);
            assert_eq!(dense_density, grams);
            let whole = known(fluid).molar_mass * 1_000_000_000_000 / GAS_CONSTANT;
            let without = narrow(whole) * pascals / (dense_root * millikelvin);
            assert_eq!(without, grams - 1);
        }
    }

    /// Document 02, C-16, beside document 01's own formulas and the one that is nitrogen's by their rule.
    #[test]
    fn never_above_the_density_with_8314() {
        let before = [
            100_797 * 1_000_000,
            159_994 * 10_000_000,
            140_067 * 10_000_000,
        ];
        let mut random = Random(16);
        for _ in 0..100_000 {
            let fluid = random.number() % FLUIDS.len() as u64;
            let [millikelvin, pascals, root] =
                [HOTTEST, HIGHEST_PRESSURE, 1_100_000].map(|most| random.magnitude(most).max(1));
            let [t, p, z] = [millikelvin, pascals, root].map(u128::from);
            let with_8314 = narrow(before[fluid as usize] * p / (4157 * z * t));
            assert!(density(fluid, millikelvin, pascals, root) <= with_8314);
        }
    }

    #[test]
    fn ends_of_the_ranges() {
        assert_eq!(reply(OXYGEN, 55_999, 500_000), refused(21));
        assert_eq!(reply(OXYGEN, 56_000, 9_999), refused(31));
        assert_eq!(reply(OXYGEN, 56_000, 10_000).number, 0);
        assert_eq!(reply(OXYGEN, 56_000, 50_000_000).number, 0);
        assert_eq!(reply(3, 0, 0), refused(1));
    }

    // Document 02, C-20.

    #[test]
    fn nitrogen_at_300_kelvin() {
        let expected = [23_773, 294_481, 15_418, 1444, 1073];
        assert_eq!(coefficients(NITROGEN, 300_000, 1_000_000), expected);
        assert_eq!(reply(NITROGEN, 300_000, 1_000_000), one(99_654, 11_269));
    }

    #[test]
    fn nitrogen_at_90_kelvin() {
        let expected = [7131, 88_344, 8444, 8795, 1073];
        assert_eq!(coefficients(NITROGEN, 90_000, 300_000), expected);
        assert_eq!(g(8795, 1073, 1518), -186_053_590);
        assert_eq!(g(8795, 1073, 1519), 288_212_608);
        assert_eq!(g(8795, 1073, 91_704), -1_693_692_952);
        assert_eq!(g(8795, 1073, 91_705), 5_965_601_680);
        let expected = Reply {
            number: 0,
            kind: SPLIT,
            gas_root: 91_704,
            dense_root: 1518,
            gas_density: 12_246,
            dense_density: 739_841,
        };
        assert_eq!(reply(NITROGEN, 90_000, 300_000), expected);
    }

    /// Both ends of each range, and one past each.
    #[test]
    fn nitrogen_at_the_ends() {
        let split = Reply {
            number: 0,
            kind: SPLIT,
            gas_root: 99_359,
            dense_root: 59,
            gas_density: 529,
            dense_density: 892_276,
        };
        assert_eq!(reply(NITROGEN, 64_000, 10_000), split);
        let answered = [
            (64_000, 50_000_000, one(282_014, 933_363)),
            (1_000_000, 10_000, one(100_003, 33)),
            (1_000_000, 50_000_000, one(113_744, 148_106)),
        ];
        for (millikelvin, pascals, expected) in answered {
            assert_eq!(reply(NITROGEN, millikelvin, pascals), expected);
        }
        for pascals in [10_000, 50_000_000] {
            assert_eq!(reply(NITROGEN, 63_999, pascals), refused(21));
            assert_eq!(reply(NITROGEN, 1_000_001, pascals), refused(22));
        }
        for millikelvin in [64_000, 1_000_000] {
            assert_eq!(reply(NITROGEN, millikelvin, 9_999), refused(31));
            assert_eq!(reply(NITROGEN, millikelvin, 50_000_001), refused(32));
        }
    }

    /// Its critical constants are the same at every temperature, and there is the cubic of every fluid's
    /// critical point: 0.42748 and 0.08664 themselves.
    #[test]
    fn nitrogen_at_its_critical_point() {
        for millikelvin in [64_000, 126_192, 1_000_000] {
            let expected = Critical {
                millikelvin: 126_192,
                pascals: 3_395_800,
            };
            assert_eq!(critical(NITROGEN, millikelvin), expected);
        }
        let expected = [10_000, 1_000_000, 10_000, 42_748, 8664];
        assert_eq!(coefficients(NITROGEN, 126_192, 3_395_800), expected);
        assert_eq!(coefficients(OXYGEN, 154_576, 5_042_000), expected);
    }

    /// A fluid above 2 is none, be it 0, 1 or 2 to whoever keeps 8 or 32 bits, and each fluid's number is
    /// its place, as a sheet's sections have it.
    #[test]
    fn numbers_of_the_fluids() {
        let numbers = FLUIDS.map(|fluid| fluid.number);
        assert_eq!(numbers, [HYDROGEN, OXYGEN, NITROGEN]);
        assert_eq!(numbers, [0, 1, 2]);
        for past in [3, 4, 1 << 8, 1 << 32] {
            for fluid in [past, past + 1, past + 2] {
                assert_eq!(reply(fluid, 300_000, 1_000_000), refused(1));
            }
        }
        assert_eq!(reply(u64::MAX, 300_000, 1_000_000), refused(1));
    }

    /// The lowest temperature of each fluid, as the papers have it.
    #[test]
    fn coldest_of_the_fluids() {
        let coldest = FLUIDS.map(|fluid| fluid.coldest);
        assert_eq!(coldest, [14_000, 56_000, 64_000]);
    }

    /// What is said of a fluid's critical temperature and of its SPLIT states.
    #[test]
    fn critical_temperatures_and_split_states() {
        for fluid in FLUIDS {
            let own = fluid.critical_millikelvin;
            assert_eq!(critical(fluid.number, own).millikelvin, own);
            assert!(critical(fluid.number, own + 1).millikelvin <= own);
            let at = |[millikelvin, pascals]: [u64; 2]| reply(fluid.number, millikelvin, pascals);
            let split = at(fluid.states.split);
            assert_eq!(split.kind, SPLIT);
            for one in fluid.states.as_split.map(at) {
                assert_eq!((one.kind, one.gas_density), (ONE, split.gas_density));
            }
            let [millikelvin, pascals] = fluid.states.hottest_split;
            let hottest = at([millikelvin, pascals]);
            assert_eq!((hottest.dense_root, hottest.gas_root), (32_452, 34_028));
            // a millikelvin above, t is no longer 10,000
            assert_eq!(at([millikelvin + 1, pascals]).kind, ONE);
        }
    }

    /// One below, at and one above each end of a range, with every such value of the other number and
    /// with a good, a low and a high one; a temperature out of range is told before a pressure.
    #[test]
    fn sides_of_the_ranges() {
        let pressures = [
            (0, 31),
            (9_999, 31),
            (10_000, 0),
            (10_001, 0),
            (1_000_000, 0),
            (49_999_999, 0),
            (50_000_000, 0),
            (50_000_001, 32),
            (u64::MAX, 32),
        ];
        for Fluid {
            number: fluid,
            coldest,
            ..
        } in FLUIDS
        {
            let temperatures = [
                (0, 21),
                (coldest - 1, 21),
                (coldest, 0),
                (coldest + 1, 0),
                (300_000, 0),
                (999_999, 0),
                (1_000_000, 0),
                (1_000_001, 22),
                (u64::MAX, 22),
            ];
            for (millikelvin, by_temperature) in temperatures {
                for (pascals, by_pressure) in pressures {
                    let expected = [by_temperature, by_pressure].into_iter().find(|&n| n != 0);
                    let number = reply(fluid, millikelvin, pascals).number;
                    assert_eq!(number, expected.unwrap_or(0));
                    assert_eq!(reply(3, millikelvin, pascals), refused(1));
                }
            }
        }
    }

    /// The first refusal that applies is the one given, and none writes.
    #[test]
    fn order_of_the_refusals() {
        let mut book = [7; BOOK_BYTES];
        let mut call = |fluid, millikelvin, pascals| {
            reply_with_book(fluid, millikelvin, pascals, 64, &mut book)
        };
        assert_eq!(call(3, 0, 0), refused(1));
        assert_eq!(call(OXYGEN, 0, 0), refused(21));
        assert_eq!(call(OXYGEN, u64::MAX, 0), refused(22));
        assert_eq!(call(OXYGEN, 300_000, 0), refused(31));
        assert_eq!(call(OXYGEN, 300_000, u64::MAX), refused(32));
        assert_eq!(call(OXYGEN, 300_000, 1_000_000), refused(4));
        assert_eq!(book, [7; BOOK_BYTES]);
    }

    // Document 02, C-18.

    /// Neither gas nor dense, though the third and fourth are those to whoever keeps 32 bits.
    const NO_SIDES: [u64; 6] = [2, 3, 1 << 32, (1 << 32) + 1, 1 << 63, u64::MAX];

    fn one_side(root: u64, density: u64) -> SideReply {
        SideReply {
            number: 0,
            root,
            density,
        }
    }

    /// A SPLIT state gives each side its own figures, and no others.
    #[test]
    fn sides_of_a_split_state() {
        let side = |side| side_reply(OXYGEN, 120_000, 500_000, side);
        assert_eq!(side(GAS), one_side(92_696, 17_299));
        assert_eq!(side(DENSE), one_side(1699, 943_832));
    }

    #[test]
    fn sides_of_one_states() {
        for side in [GAS, DENSE] {
            for (fluid, millikelvin, pascals, expected) in [
                (OXYGEN, 300_000, 1_000_000, one_side(99_286, 12_920)),
                (HYDROGEN, 300_000, 1_000_000, one_side(100_474, 804)),
                (HYDROGEN, 1_000_000, 10_000, one_side(100_001, 2)),
                (NITROGEN, 300_000, 1_000_000, one_side(99_654, 11_269)),
            ] {
                assert_eq!(side_reply(fluid, millikelvin, pascals, side), expected);
            }
        }
    }

    /// Both sides together are the whole reply, and they are equal exactly for a ONE state.
    #[test]
    fn sides_are_those_of_the_whole_reply() {
        let mut random = Random(18);
        let mut split = 0;
        for _ in 0..1000 {
            let Fluid {
                number, coldest, ..
            } = FLUIDS[random.number() as usize % FLUIDS.len()];
            let millikelvin = coldest + random.number() % (2 * coldest);
            let pascals = LOWEST_PRESSURE + random.magnitude(2_000_000);
            let whole = reply(number, millikelvin, pascals);
            let [gas, dense] =
                [GAS, DENSE].map(|side| side_reply(number, millikelvin, pascals, side));
            assert_eq!(gas, one_side(whole.gas_root, whole.gas_density));
            assert_eq!(dense, one_side(whole.dense_root, whole.dense_density));
            assert_eq!(gas.root == dense.root, whole.kind == ONE);
            if whole.kind == ONE {
                assert_eq!(gas, dense);
            }
            split += u64::from(whole.kind == SPLIT);
        }
        // the comparison would say little if either kind were rare
        assert!((200..800).contains(&split), "{split}");
    }

    /// 12 comes after each of the state's own refusals and before 4; with a good side the order is that
    /// of the whole form, and nothing is written.
    #[test]
    fn order_of_the_refusals_with_a_side() {
        let mut book = [7; BOOK_BYTES];
        for ([fluid, millikelvin, pascals], number) in REFUSED {
            for side in [GAS, DENSE].into_iter().chain(NO_SIDES) {
                let without = side_reply(fluid, millikelvin, pascals, side);
                assert_eq!(without, side_refused(number));
                for slot in [0, 64] {
                    let with =
                        side_reply_with_book(fluid, millikelvin, pascals, side, slot, &mut book);
                    assert_eq!(with, without);
                }
            }
        }
        assert_eq!(book, [7; BOOK_BYTES]);
    }

    /// For both kinds of state, at the slots and book lengths that are answered and those that are not.
    #[test]
    fn sides_that_are_neither() {
        for (millikelvin, pascals) in [(300_000, 1_000_000), (120_000, 500_000)] {
            for side in NO_SIDES {
                let refused = side_refused(12);
                assert_eq!(side_reply(OXYGEN, millikelvin, pascals, side), refused);
                for (slot, length) in [(0, 192), (63, 192)].into_iter().chain(NO_SLOTS) {
                    let mut book = vec![7; length];
                    let reply =
                        side_reply_with_book(OXYGEN, millikelvin, pascals, side, slot, &mut book);
                    assert_eq!((reply, book), (refused, vec![7; length]));
                }
            }
        }
    }

    /// The gas root is written for both sides, and no other byte is touched; 4 as in the whole form.
    #[test]
    fn slots_of_the_book_with_a_side() {
        for (side, expected) in [
            (GAS, one_side(92_696, 17_299)),
            (DENSE, one_side(1699, 943_832)),
        ] {
            let call = |slot, book: &mut [u8]| {
                side_reply_with_book(OXYGEN, 120_000, 500_000, side, slot, book)
            };
            assert_slots(call, side_refused(4), expected, [0x18, 0x6A, 0x01]);
        }
    }

    // Document 02, C-19.

    /// Slots and lengths of books that are refused by 4.
    const NO_SLOTS: [(u64, usize); 8] = [
        (64, 192),
        (u64::MAX, 192),
        (0, 0),
        (0, 1),
        (0, 64),
        (0, 191),
        (0, 193),
        (0, 256),
    ];

    /// A book of sevens with these bytes in one slot.
    fn sevens_but(slot: u64, bytes: [u8; SLOT_BYTES]) -> [u8; BOOK_BYTES] {
        let mut book = [7; BOOK_BYTES];
        book[3 * slot as usize..][..3].copy_from_slice(&bytes);
        book
    }

    /// That a call is refused where there is no slot, and answered at each slot, which then has these bytes;
    /// no other byte is touched.
    fn assert_slots<Told: Copy + Debug + PartialEq>(
        call: impl Fn(u64, &mut [u8]) -> Told,
        refused: Told,
        answered: Told,
        bytes: [u8; SLOT_BYTES],
    ) {
        for (slot, length) in NO_SLOTS {
            let mut book = vec![7; length];
            assert_eq!(call(slot, &mut book), refused);
            assert_eq!(book, vec![7; length]);
        }
        for slot in 0..64 {
            let mut book = [7; BOOK_BYTES];
            assert_eq!(call(slot, &mut book), answered);
            assert_eq!(book, sevens_but(slot, bytes));
        }
    }

    #[test]
    fn slots_of_the_book() {
        let call = |slot, book: &mut [u8]| reply_with_book(OXYGEN, 300_000, 1_000_000, slot, book);
        assert_slots(call, refused(4), one(99_286, 12_920), [0xD6, 0x83, 0x01]);
    }

    /// No root is above N + b, and b is greatest at the lowest temperature and the highest pressure.
    #[test]
    fn every_root_fits_three_bytes() {
        for fluid in FLUIDS {
            let [.., b] = coefficients(fluid.number, fluid.coldest, HIGHEST_PRESSURE);
            assert!(N + b < 1 << 24);
        }
    }

    /// The ends of three bytes, and each byte alone.
    #[test]
    fn numbers_of_three_bytes() {
        for (number, bytes) in [
            (0, [0, 0, 0]),
            (1, [1, 0, 0]),
            (256, [0, 1, 0]),
            (65_536, [0, 0, 1]),
            (92_696, [0x18, 0x6A, 0x01]),
            (16_777_215, [255, 255, 255]),
        ] {
            assert_eq!(bytes_of_slot(number.into()), bytes);
            for slot in [0, 5, 63] {
                let mut expected = [7 * 65_536 + 7 * 256 + 7; BOOK_SLOTS];
                expected[slot as usize] = number;
                assert_eq!(numbers_of_slots(&sevens_but(slot, bytes)), expected);
            }
        }
    }

    /// The book before C-19 in its own words: an answered call writes, and a refused one does not.
    #[test]
    fn book_of_numbers() {
        let mut numbers = [7; 64];
        assert_eq!(put_into_numbers(21, 92_696, 63, &mut numbers), 21);
        assert_eq!(put_into_numbers(0, 92_696, 64, &mut numbers), 4);
        assert_eq!(put_into_numbers(0, 92_696, 0, &mut numbers[..63]), 4);
        assert_eq!(numbers, [7; 64]);
        assert_eq!(put_into_numbers(0, 92_696, 63, &mut numbers), 0);
        assert_eq!((&numbers[..63], numbers[63]), (&[7; 63][..], 92_696));
    }

    // Document 01, "Errors that look right".

    /// Table 1's critical temperature of hydrogen is not the cubic's.
    #[test]
    fn hydrogen_with_a_fixed_critical_temperature() {
        let wrong = Critical {
            millikelvin: 32_976,
            ..critical(HYDROGEN, 300_000)
        };
        assert_eq!(reduced(&wrong, 300_000, 1_000_000).b, 499);
        let [.., b] = coefficients(HYDROGEN, 300_000, 1_000_000);
        assert_eq!(b, 637);
    }

    /// The nearest whole number is the root at 92696, and not at 100474.
    #[test]
    fn nearest_whole_number() {
        assert!(eight_g_half_above(7984, 1106, 92_696) > 0);
        assert!(eight_g_half_above(165, 637, 100_474) < 0);
        assert_eq!(reply(HYDROGEN, 300_000, 1_000_000).gas_root, 100_474);
    }

    /// g is 0 at the root N + b where a is 0, and 0 is not positive.
    #[test]
    fn root_at_which_g_is_zero() {
        for b in [1, 2, 885, 8664] {
            assert_eq!(g(0, b, N + b), 0);
            assert_eq!(crossings(0, b), [N + b]);
        }
    }
}
