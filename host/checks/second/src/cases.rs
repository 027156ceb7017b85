//! States that the tests of several modules ask for.

use crate::random::Random;
use crate::state::{
    FLUIDS, HIGHEST_PRESSURE, HOTTEST, HYDROGEN, LOWEST_PRESSURE, NITROGEN, OXYGEN,
};

/// Document 01, "Points worked through", and C-20's states, each with its b and its gas root.
pub const WORKED: [([u64; 3], u64, u64); 6] = [
    ([OXYGEN, 300_000, 1_000_000], 885, 99_286),
    ([OXYGEN, 120_000, 500_000], 1106, 92_696),
    ([HYDROGEN, 300_000, 1_000_000], 637, 100_474),
    ([HYDROGEN, 1_000_000, 10_000], 1, 100_001),
    ([NITROGEN, 300_000, 1_000_000], 1073, 99_654),
    ([NITROGEN, 90_000, 300_000], 1073, 91_704),
];

/// States that are refused, each with its number: some have more than one fault, of which the first is told.
pub const REFUSED: [([u64; 3], u64); 14] = [
    ([3, 0, 0], 1),
    ([u64::MAX, 300_000, 1_000_000], 1),
    ([OXYGEN, 55_999, 0], 21),
    ([OXYGEN, 1_000_001, 0], 22),
    ([OXYGEN, 300_000, 9_999], 31),
    ([OXYGEN, 300_000, 50_000_001], 32),
    ([HYDROGEN, 13_999, u64::MAX], 21),
    ([HYDROGEN, u64::MAX, u64::MAX], 22),
    ([HYDROGEN, 14_000, 0], 31),
    ([HYDROGEN, 1_000_000, u64::MAX], 32),
    ([NITROGEN, 63_999, 0], 21),
    ([NITROGEN, 1_000_001, 0], 22),
    ([NITROGEN, 64_000, 9_999], 31),
    ([NITROGEN, 64_000, 50_000_001], 32),
];

/// A spread over all magnitudes of pressure, at temperatures of all magnitudes above each fluid's lowest:
/// many of these are cold and dense.
pub fn spread(count: usize, seed: u64) -> impl Iterator<Item = [u64; 3]> {
    let mut random = Random(seed);
    FLUIDS.into_iter().cycle().take(count).map(move |fluid| {
        let millikelvin = fluid.coldest + random.magnitude(HOTTEST - fluid.coldest);
        let pascals = LOWEST_PRESSURE + random.magnitude(HIGHEST_PRESSURE - LOWEST_PRESSURE);
        [fluid.number, millikelvin, pascals]
    })
}
