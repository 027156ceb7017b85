//! Document 02, C-23: claims that a root is that of a state's side, as old orders carry them. A claim stands if its
//! state is accepted and the root is that side's, which is found as for any other call: by looking at every place of
//! the grid, and never beside the claimed root.

use crate::state::{reply, side_of, Reply};

/// Fluids, temperatures in millikelvin, pressures in pascals, sides and roots: claim k has number k of each.
pub type Lists<'a> = [&'a [u64]; 5];

/// A reply's number, and the number in the list of the first claim that is refused, from 0: 0 where all stand, and
/// where the lists are of unequal lengths.
#[derive(Clone, Copy, Debug, Default, PartialEq, Eq)]
pub struct ClaimsReply {
    pub number: u64,
    pub claim: u64,
}

/// The reply to a call.
pub fn claims_reply(lists: Lists) -> ClaimsReply {
    claims_reply_by(lists, |[fluid, millikelvin, pascals]| {
        reply(fluid, millikelvin, pascals)
    })
}

/// The same by whole replies to states, from whoever may know them. Refusal 8 comes before all.
pub fn claims_reply_by(lists: Lists, mut whole: impl FnMut([u64; 3]) -> Reply) -> ClaimsReply {
    let [fluids, millikelvin, pascals, sides, roots] = lists;
    let count = fluids.len();
    if lists.iter().any(|list| list.len() != count) {
        return ClaimsReply {
            number: 8,
            claim: 0,
        };
    }
    for k in 0..count {
        let whole = whole([fluids[k], millikelvin[k], pascals[k]]);
        let number = refusal(whole, sides[k], roots[k]);
        if number != 0 {
            return ClaimsReply {
                number,
                claim: k as u64,
            };
        }
    }
    ClaimsReply::default()
}

/// The number by which a claim about this state is refused, or 0 where it stands. Refusal 14 comes after the state's
/// own and 12.
fn refusal(whole: Reply, side: u64, root: u64) -> u64 {
    let named = side_of(whole, side);
    if named.number == 0 && named.root != root {
        return 14;
    }
    named.number
}

#[cfg(test)]
mod tests {
    use super::*;
    use crate::cases::{spread, REFUSED};
    use crate::cubic::{g, N};
    use crate::state::{accepted, Reduced, DENSE, GAS, HYDROGEN, NITROGEN, ONE, OXYGEN, SPLIT};

    /// Document 01's worked states and C-20's, each with its gas root and its dense root.
    const WORKED: [([u64; 3], [u64; 2]); 6] = [
        ([OXYGEN, 300_000, 1_000_000], [99_286, 99_286]),
        ([OXYGEN, 120_000, 500_000], [92_696, 1699]),
        ([HYDROGEN, 300_000, 1_000_000], [100_474, 100_474]),
        ([HYDROGEN, 1_000_000, 10_000], [100_001, 100_001]),
        ([NITROGEN, 300_000, 1_000_000], [99_654, 99_654]),
        ([NITROGEN, 90_000, 300_000], [91_704, 1518]),
    ];

    /// Oxygen where it is SPLIT.
    const STATE: [u64; 3] = [OXYGEN, 120_000, 500_000];

    /// Neither, though the second and the third are gas and dense to whoever keeps 32 bits.
    const NO_SIDES: [u64; 4] = [2, 1 << 32, (1 << 32) + 1, u64::MAX];

    fn claim([fluid, millikelvin, pascals]: [u64; 3], side: u64, root: u64) -> [u64; 5] {
        [fluid, millikelvin, pascals, side, root]
    }

    /// Each list with the first so many of these claims' numbers.
    fn told(claims: &[[u64; 5]], lengths: [usize; 5]) -> (u64, u64) {
        let list = |which: usize| claims.iter().map(move |claim| claim[which]);
        let lists = [0, 1, 2, 3, 4].map(|which| list(which).take(lengths[which]));
        let lists = lists.map(|list| list.collect::<Vec<u64>>());
        let ClaimsReply { number, claim } = claims_reply(lists.each_ref().map(Vec::as_slice));
        (number, claim)
    }

    fn list(claims: &[[u64; 5]]) -> (u64, u64) {
        told(claims, [claims.len(); 5])
    }

    /// The number for a list of one claim.
    fn one(state: [u64; 3], side: u64, root: u64) -> u64 {
        let (number, claim) = list(&[claim(state, side, root)]);
        assert_eq!(claim, 0);
        number
    }

    /// The last place at which g is positive before it is not, which only a state with three real roots has.
    fn middle([fluid, millikelvin, pascals]: [u64; 3]) -> Option<u64> {
        let Reduced { a, b, .. } = accepted(fluid, millikelvin, pascals).expect("accepted");
        (0..N + b).find(|&z| g(a, b, z) > 0 && g(a, b, z + 1) <= 0)
    }

    /// Both sides of each worked state.
    fn standing() -> Vec<[u64; 5]> {
        let both_sides = WORKED.map(|(state, [gas_root, dense_root])| {
            [claim(state, GAS, gas_root), claim(state, DENSE, dense_root)]
        });
        both_sides.concat()
    }

    #[test]
    fn worked_points() {
        for (state, [gas_root, dense_root]) in WORKED {
            assert_eq!(one(state, GAS, gas_root), 0);
            assert_eq!(one(state, DENSE, dense_root), 0);
        }
        assert_eq!(list(&standing()), (0, 0));
    }

    #[test]
    fn off_by_one() {
        for (state, [gas_root, dense_root]) in WORKED {
            for root in [gas_root - 1, gas_root + 1] {
                assert_eq!(one(state, GAS, root), 14);
            }
            for root in [dense_root - 1, dense_root + 1] {
                assert_eq!(one(state, DENSE, root), 14);
            }
        }
    }

    /// Beside both roots of a SPLIT state g changes alike, so that looking there tells neither side from the other.
    #[test]
    fn root_of_the_other_side() {
        for root in [1699, 92_696] {
            assert!(g(7984, 1106, root) <= 0 && g(7984, 1106, root + 1) > 0);
        }
        assert_eq!(one(STATE, GAS, 1699), 14);
        assert_eq!(one(STATE, DENSE, 92_696), 14);
    }

    /// The cubic of a SPLIT state has a third real root, where g ceases to be positive. It is neither side's.
    #[test]
    fn middle_root() {
        for (state, between) in [
            (STATE, 5604),
            ([NITROGEN, 90_000, 300_000], 6777),
            ([HYDROGEN, 25_000, 200_000], 8814),
        ] {
            assert_eq!(middle(state), Some(between));
            for root in [between - 1, between, between + 1] {
                for side in [GAS, DENSE] {
                    assert_eq!(one(state, side, root), 14);
                }
            }
        }
    }

    /// The last two are the roots of the sides to whoever keeps 32 bits.
    #[test]
    fn no_roots() {
        let far = [92_696, 1699].map(|root| (1 << 32) + root);
        let others = [0, 1, N, 1 << 63, u64::MAX];
        for root in others.into_iter().chain(far) {
            for side in [GAS, DENSE] {
                assert_eq!(one(STATE, side, root), 14);
            }
        }
    }

    /// 12 comes before 14, and stays where the root is a side's.
    #[test]
    fn sides_that_are_neither() {
        for side in NO_SIDES {
            for root in [92_696, 1699, 0, u64::MAX] {
                assert_eq!(one(STATE, side, root), 12);
            }
        }
    }

    /// The state's own refusals come before 12 and 14. A refused state has no root, not even 0.
    #[test]
    fn order_of_the_refusals() {
        for (state, number) in REFUSED {
            for side in [GAS, DENSE].into_iter().chain(NO_SIDES) {
                for root in [0, 99_286, u64::MAX] {
                    assert_eq!(one(state, side, root), number);
                }
            }
        }
    }

    /// 8 comes before all: the first claim would stand, or would be refused.
    #[test]
    fn lengths_that_differ() {
        let refused = [[3, 0, 0, 2, 0]; 4];
        for claims in [&standing()[..4], &refused] {
            for which in 0..5 {
                for (length, others) in [(0, 1), (1, 0), (1, 2), (2, 1), (3, 4), (4, 3)] {
                    let mut lengths = [others; 5];
                    lengths[which] = length;
                    assert_eq!(told(claims, lengths), (8, 0), "{lengths:?}");
                }
            }
            assert_eq!(told(claims, [0, 1, 2, 3, 4]), (8, 0));
        }
    }

    #[test]
    fn empty_list() {
        assert_eq!(list(&[]), (0, 0));
    }

    /// The claims that each of these makes of one that stands, with their numbers.
    fn refused([fluid, millikelvin, pascals, side, root]: [u64; 5]) -> [([u64; 5], u64); 7] {
        [
            ([3, millikelvin, pascals, side, root], 1),
            ([fluid, 0, pascals, side, root], 21),
            ([fluid, 1_000_001, pascals, side, root], 22),
            ([fluid, millikelvin, 0, side, root], 31),
            ([fluid, millikelvin, 50_000_001, side, root], 32),
            ([fluid, millikelvin, pascals, 2, root], 12),
            ([fluid, millikelvin, pascals, side, root + 1], 14),
        ]
    }

    /// At every place, alone and with others behind it, whose numbers are smaller or larger.
    #[test]
    fn first_refused_claim() {
        let standing = &standing()[..4];
        for place in 0..standing.len() {
            for (claim, number) in refused(standing[place]) {
                let mut claims = standing.to_vec();
                claims[place] = claim;
                assert_eq!(list(&claims), (number, place as u64));
                for behind in place + 1..claims.len() {
                    for (other, _) in refused(standing[behind]) {
                        claims[behind] = other;
                        assert_eq!(list(&claims), (number, place as u64));
                    }
                }
            }
        }
    }

    /// In a ONE state a claim stands for both sides or for neither; in a SPLIT state at most for one.
    #[test]
    fn both_sides_of_a_state() {
        for state in spread(300, 23) {
            let [fluid, millikelvin, pascals] = state;
            let whole = reply(fluid, millikelvin, pascals);
            let between = middle(state);
            assert_eq!(between.is_some(), whole.kind == SPLIT, "{state:?}");
            let near = [whole.gas_root, whole.dense_root].map(|root| [root - 1, root, root + 1]);
            for root in near.concat().into_iter().chain(between).chain([0, N]) {
                let [gas, dense] = [GAS, DENSE].map(|side| refusal(whole, side, root));
                assert_eq!(gas == 0, root == whole.gas_root);
                assert_eq!(dense == 0, root == whole.dense_root);
                assert_eq!(gas == dense, whole.kind == ONE || gas != 0 && dense != 0);
            }
        }
    }
}
