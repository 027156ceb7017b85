//! Document 02, C-22: what if the attraction is a little off. The gas root of a state at two scalings of its
//! a, the lower first; b stays as it is.

use crate::cubic::largest_crossing;
use crate::state::{accepted, narrow, Reduced};
use std::collections::HashMap;

/// The ends of the range of a scaling, which are in range, in thousandths.
pub const LEAST: u64 = 500;
pub const MOST: u64 = 1500;

/// The scaling that leaves a as it is.
pub const NONE: u64 = 1000;

/// A reply's number, and the gas root at the lower scaling and at the upper: zeros where it is refused.
#[derive(Clone, Copy, Debug, Default, PartialEq, Eq)]
pub struct BandReply {
    pub number: u64,
    pub lower_root: u64,
    pub upper_root: u64,
}

impl BandReply {
    /// All but the number.
    pub fn figures(&self) -> [u64; 2] {
        [self.lower_root, self.upper_root]
    }
}

/// The reply to a call.
pub fn band_reply(fluid: u64, millikelvin: u64, pascals: u64, lower: u64, upper: u64) -> BandReply {
    Scaled::new(fluid, millikelvin, pascals).band(lower, upper)
}

/// A state, accepted or refused, with the gas roots that are known of it: one is looked for once, however
/// many bands it belongs to.
pub struct Scaled {
    accepted: Result<Reduced, u64>,
    /// By the scaled a.
    gas_roots: HashMap<u64, u64>,
}

impl Scaled {
    pub fn new(fluid: u64, millikelvin: u64, pascals: u64) -> Scaled {
        Scaled {
            accepted: accepted(fluid, millikelvin, pascals),
            gas_roots: HashMap::new(),
        }
    }

    /// Refusal 13 comes after the state's own.
    pub fn band(&mut self, lower: u64, upper: u64) -> BandReply {
        let (a, b) = match self.accepted {
            Ok(Reduced { a, b, .. }) => (a, b),
            Err(number) => return refused(number),
        };
        if lower < LEAST || upper > MOST || lower > upper {
            return refused(13);
        }
        let [lower_root, upper_root] = [lower, upper].map(|thousandths| {
            let a = scaled(a, thousandths);
            let known = self.gas_roots.entry(a);
            *known.or_insert_with(|| largest_crossing(a, b))
        });
        BandReply {
            number: 0,
            lower_root,
            upper_root,
        }
    }
}

/// Rounded down.
fn scaled(a: u64, thousandths: u64) -> u64 {
    narrow(u128::from(a) * u128::from(thousandths) / 1000)
}

fn refused(number: u64) -> BandReply {
    BandReply {
        number,
        ..BandReply::default()
    }
}

#[cfg(test)]
mod tests {
    use super::*;
    use crate::cases::{spread, REFUSED, WORKED};
    use crate::cubic::{crossings, LARGEST_A, LARGEST_B};
    use crate::state::{reply, FLUIDS, HIGHEST_PRESSURE, HYDROGEN, NITROGEN, OXYGEN};

    fn answered(lower_root: u64, upper_root: u64) -> BandReply {
        BandReply {
            number: 0,
            lower_root,
            upper_root,
        }
    }

    /// Oxygen at 120,000 mK and 500,000 Pa, whose a is 7984 and whose b is 1106.
    fn oxygen(lower: u64, upper: u64) -> BandReply {
        band_reply(OXYGEN, 120_000, 500_000, lower, upper)
    }

    #[test]
    fn worked_state() {
        assert_eq!(oxygen(1000, 1000), answered(92_696, 92_696));
        assert_eq!(oxygen(950, 1050), answered(93_155, 92_232));
        assert_eq!(oxygen(500, 1500), answered(97_086, 87_806));
        assert_eq!(oxygen(500, 500), answered(97_086, 97_086));
        assert_eq!(oxygen(1500, 1500), answered(87_806, 87_806));
    }

    /// Each worked state at scaling 1000 has its own gas root.
    #[test]
    fn scaling_that_changes_nothing() {
        for ([fluid, millikelvin, pascals], _, gas_root) in WORKED {
            let band = band_reply(fluid, millikelvin, pascals, NONE, NONE);
            assert_eq!(band, answered(gas_root, gas_root));
        }
    }

    /// 950 thousandths of 7984 are 7584.8, and 1050 are 8383.2: rounded up both have another root, and to
    /// the nearest the first has.
    #[test]
    fn rounded_down() {
        assert_eq!(scaled(7984, 950), 7584);
        assert_eq!(scaled(7984, 1050), 8383);
        for (a, gas_root) in [
            (7584, 93_155),
            (7585, 93_154),
            (8383, 92_232),
            (8384, 92_231),
        ] {
            assert_eq!(largest_crossing(a, 1106), gas_root);
        }
    }

    /// What other programs might answer for the band from 950 to 1050: b scaled too, and the dense root.
    #[test]
    fn neither_another_b_nor_the_dense_root() {
        let [lower, upper] = [(7584, 950), (8383, 1050)].map(|(a, thousandths)| {
            assert_ne!(
                largest_crossing(a, scaled(1106, thousandths)),
                largest_crossing(a, 1106)
            );
            crossings(a, 1106)
        });
        assert_eq!(lower, [1776, 93_155]);
        assert_eq!(upper, [1640, 92_232]);
    }

    /// Out of range at either end or at both, also where a number is in range to whoever loses its upper bits
    /// or its sign; and out of order.
    #[test]
    fn scalings_out_of_order_or_range() {
        let far = [
            0,
            1,
            499,
            1501,
            1502,
            (1 << 11) + 1000,
            (1 << 16) + 1000,
            1 << 32,
            (1 << 32) + 1000,
            1 << 63,
            (1 << 63) + 1000,
            u64::MAX - 1499,
            u64::MAX - 999,
            u64::MAX - 499,
            u64::MAX,
        ];
        for scaling in far {
            for near in [LEAST, NONE, MOST].into_iter().chain(far) {
                assert_eq!(oxygen(scaling, near), refused(13), "{scaling} {near}");
                assert_eq!(oxygen(near, scaling), refused(13), "{near} {scaling}");
            }
        }
        for (lower, upper) in [(501, 500), (1000, 999), (1001, 1000), (1500, 500)] {
            assert_eq!(oxygen(lower, upper), refused(13));
            assert_eq!(oxygen(upper, lower).number, 0);
        }
    }

    /// The state's own refusals come before 13.
    #[test]
    fn order_of_the_refusals() {
        for ([fluid, millikelvin, pascals], number) in REFUSED {
            for (lower, upper) in [(1000, 1000), (499, 1000), (1000, 1501), (1001, 1000)] {
                let reply = band_reply(fluid, millikelvin, pascals, lower, upper);
                assert_eq!(reply, refused(number));
            }
        }
    }

    /// A spread, a state with a jump, and one whose a is 0.
    fn states() -> impl Iterator<Item = [u64; 3]> {
        let some = [[OXYGEN, 120_000, 1_500_000], [HYDROGEN, 1_000_000, 10_000]];
        some.into_iter().chain(spread(30, 22))
    }

    /// The gas root that the scan of the whole grid finds: the state's own at scaling 1000, and that of the
    /// scaled a at others.
    #[test]
    fn roots_of_the_scan() {
        for [fluid, millikelvin, pascals] in states() {
            let mut state = Scaled::new(fluid, millikelvin, pascals);
            let own = reply(fluid, millikelvin, pascals).gas_root;
            assert_eq!(state.band(NONE, NONE), answered(own, own));
            let Reduced { a, b, .. } = accepted(fluid, millikelvin, pascals).expect("accepted");
            for thousandths in [500, 501, 777, 999, 1001, 1234, 1500] {
                let found = crossings(a * thousandths / 1000, b);
                let root = *found.last().expect("a crossing");
                assert_eq!(state.band(thousandths, thousandths), answered(root, root));
            }
        }
    }

    /// More attraction never makes the gas root larger, which no search here relies on: so each scaling of a
    /// band has its root between those of the ends.
    #[test]
    fn roots_fall() {
        for [fluid, millikelvin, pascals] in states() {
            let mut state = Scaled::new(fluid, millikelvin, pascals);
            for thousandths in LEAST..MOST {
                let [lower_root, upper_root] = state.band(thousandths, thousandths + 1).figures();
                assert!(lower_root >= upper_root, "{fluid} {millikelvin} {pascals}");
            }
        }
    }

    /// Where the gas root jumps: at the upper scaling no root but the dense one is left.
    #[test]
    fn jumps() {
        for ([fluid, millikelvin, pascals], lower, roots) in [
            ([HYDROGEN, 25_000, 400_000], 1229, [48_204, 5456]),
            ([OXYGEN, 120_000, 1_500_000], 1273, [48_702, 4434]),
            ([NITROGEN, 100_000, 900_000], 1466, [49_524, 3716]),
        ] {
            let band = band_reply(fluid, millikelvin, pascals, lower, lower + 1);
            assert_eq!((band.number, band.figures()), (0, roots));
        }
    }

    /// The greatest a and b of each fluid's states lie far enough inside the bounds of a scan.
    #[test]
    fn scaled_within_the_bounds_of_a_scan() {
        for fluid in FLUIDS {
            let coldest = accepted(fluid.number, fluid.coldest, HIGHEST_PRESSURE);
            let Reduced { a, b, .. } = coldest.expect("accepted");
            assert!(scaled(a, MOST) <= LARGEST_A && b <= LARGEST_B);
        }
    }
}
