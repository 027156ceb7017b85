//! Document 02, C-14: the gas root found without cleverness. g is worked out at N + b, then at one place
//! below after another, until it is not positive, and every value that is worked out is counted.

use crate::cubic::{g, N};
use crate::state::{accepted, Reduced};

/// A limit with which no walk is cut short: g is not positive at b, so none goes further down.
pub const ENOUGH: u64 = N + 1;

/// A reply's number, the gas root, and how many values of g were worked out: zeros where the state is
/// refused; where the walk is cut short there is no root, and the count is the limit.
#[derive(Clone, Copy, Debug, Default, PartialEq, Eq)]
pub struct WalkReply {
    pub number: u64,
    pub gas_root: u64,
    pub values: u64,
}

impl WalkReply {
    /// All but the number.
    pub fn figures(&self) -> [u64; 2] {
        [self.gas_root, self.values]
    }
}

/// The reply to a call. Refusal 11 comes after the state's own.
pub fn walk_reply(fluid: u64, millikelvin: u64, pascals: u64, limit: u64) -> WalkReply {
    match accepted(fluid, millikelvin, pascals) {
        Ok(Reduced { a, b, .. }) => walk(N + b, limit, |z| g(a, b, z)),
        Err(number) => WalkReply {
            number,
            ..WalkReply::default()
        },
    }
}

/// Down from this place. No more values are worked out than the limit says. The one at 0 is not positive.
fn walk(start: u64, limit: u64, mut value_at: impl FnMut(u64) -> i128) -> WalkReply {
    let mut z = start;
    let mut values = 0;
    while values < limit {
        let value = value_at(z);
        values += 1;
        if value <= 0 {
            return WalkReply {
                number: 0,
                gas_root: z,
                values,
            };
        }
        z -= 1;
    }
    cut_short(limit)
}

/// What a limit makes of the reply to the same call with the largest limit, so that one walk tells the
/// replies with all limits.
pub fn limited(whole: WalkReply, limit: u64) -> WalkReply {
    if whole.number != 0 || whole.values <= limit {
        return whole;
    }
    cut_short(limit)
}

fn cut_short(limit: u64) -> WalkReply {
    WalkReply {
        number: 11,
        gas_root: 0,
        values: limit,
    }
}

#[cfg(test)]
mod tests {
    use super::*;
    use crate::cases::{spread, REFUSED, WORKED};
    use crate::state::{reply, FLUIDS, HYDROGEN, NITROGEN, OXYGEN};

    fn answered(gas_root: u64, values: u64) -> WalkReply {
        WalkReply {
            number: 0,
            gas_root,
            values,
        }
    }

    fn whole([fluid, millikelvin, pascals]: [u64; 3]) -> WalkReply {
        walk_reply(fluid, millikelvin, pascals, u64::MAX)
    }

    /// From the b of each worked state down to its gas root.
    #[test]
    fn worked_points() {
        for ([fluid, millikelvin, pascals], b, gas_root) in WORKED {
            let values = N + b - gas_root + 1;
            let with = |limit| walk_reply(fluid, millikelvin, pascals, limit);
            for limit in [values, values + 1, ENOUGH, 1 << 32, 1 << 63, u64::MAX] {
                assert_eq!(with(limit), answered(gas_root, values));
            }
            for limit in [0, values / 2, values - 1] {
                let expected = WalkReply {
                    number: 11,
                    gas_root: 0,
                    values: limit,
                };
                assert_eq!(with(limit), expected);
            }
        }
    }

    /// The state's own refusals come before 11, whatever the limit, and bring zeros.
    #[test]
    fn order_of_the_refusals() {
        for ([fluid, millikelvin, pascals], number) in REFUSED {
            let refused = WalkReply {
                number,
                gas_root: 0,
                values: 0,
            };
            for limit in [0, 1, ENOUGH, u64::MAX] {
                let reply = walk_reply(fluid, millikelvin, pascals, limit);
                assert_eq!(reply, refused);
                assert_eq!(limited(refused, limit), refused);
            }
        }
    }

    /// Each value that is worked out is counted once, from N + b down without a gap, and none beyond the
    /// limit is worked out.
    #[test]
    fn every_value_is_counted() {
        let down = || (92_696..=101_106).rev();
        for limit in [0, 1, 2, 8410, 8411, 8412, usize::MAX] {
            let mut places = Vec::new();
            let reply = walk(101_106, limit as u64, |z| {
                places.push(z);
                g(7984, 1106, z)
            });
            assert_eq!(reply.values, places.len() as u64);
            assert!(places.into_iter().eq(down().take(limit)));
        }
    }

    /// The worked ones, some that are refused, and a spread.
    fn states() -> impl Iterator<Item = [u64; 3]> {
        let worked = WORKED.into_iter().map(|(state, _, _)| state);
        let refused = REFUSED.into_iter().map(|(state, _)| state);
        worked.chain(refused).chain(spread(1200, 14))
    }

    #[test]
    fn one_walk_tells_of_all_limits() {
        for state in states() {
            let whole = whole(state);
            let needed = whole.values;
            let near = [needed.saturating_sub(1), needed, needed + 1];
            for limit in [0, 1, 2, 1 << 32, 1 << 63, u64::MAX]
                .into_iter()
                .chain(near)
            {
                let [fluid, millikelvin, pascals] = state;
                let walked = walk_reply(fluid, millikelvin, pascals, limit);
                assert_eq!(limited(whole, limit), walked, "{state:?}, limit {limit}");
            }
        }
    }

    /// A walk ends at the gas root that the scan of the grid finds, after N + b - z + 1 values. They are
    /// never more than enough, as no root lies below b.
    #[test]
    fn roots_of_the_scan() {
        let mut long = 0;
        for state in states() {
            let [fluid, millikelvin, pascals] = state;
            let walked = whole(state);
            let scanned = reply(fluid, millikelvin, pascals);
            assert_eq!(
                (walked.number, walked.gas_root),
                (scanned.number, scanned.gas_root)
            );
            if let Ok(Reduced { b, .. }) = accepted(fluid, millikelvin, pascals) {
                assert_eq!(walked.values, N + b - walked.gas_root + 1);
                assert!(walked.values <= ENOUGH && walked.gas_root >= b);
            }
            long += u64::from(walked.values > N / 2);
        }
        // the states would say little of what is enough if long walks were rare among them
        assert!((200..1000).contains(&long), "{long}");
    }

    /// The longest walk of each fluid that a wide search met: at its lowest temperature, and at the lowest
    /// pressure there at which no root but the dense one is left. A pascal below, the gas root is far above.
    #[test]
    fn longest_walks() {
        for (fluid, pascals, values) in [
            (HYDROGEN, 132_597, 99_394),
            (OXYGEN, 249_932, 99_880),
            (NITROGEN, 411_680, 99_608),
        ] {
            let coldest = FLUIDS[fluid as usize].coldest;
            assert_eq!(whole([fluid, coldest, pascals]).values, values);
            assert!(whole([fluid, coldest, pascals - 1]).values < 54_000);
        }
    }
}
