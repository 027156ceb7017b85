//! Claims beside calls for the side that they name, on all states that are timed.

use crate::contenders::calls;
use crate::proved;
use crate::rounds::{at_once, beside, interleaved, timing, Pass, Timing};
use second::sheet::State;
use std::hint::black_box;
use woolyard::boundary::SIDE_FIGURES;
use woolyard::Side;

/// Of each side.
pub struct Claims {
    pub gas: OfSide,
    pub dense: OfSide,
}

/// Nanoseconds per state: of a call for the side; of a claim that stands, in one list of all; and of one that is
/// refused, in a list of its own; and both claims beside the call, round by round.
pub struct OfSide {
    pub call: Timing,
    pub standing: Timing,
    pub refused: Timing,
    pub standing_beside_call: f64,
    pub refused_beside_call: f64,
}

impl Claims {
    /// Also checks that the claims are what they are taken for.
    pub fn measure(states: &[State]) -> Claims {
        let [gas, dense] = [Side::Gas, Side::Dense].map(|side| Lists::standing(states, side));
        let [gas_above, dense_above] = [&gas, &dense].map(|standing| {
            standing.assert_stand();
            let above = standing.with_roots(|root| root + 1);
            above.assert_refused();
            standing.with_roots(|root| root - 1).assert_refused();
            above
        });
        let call = |side| {
            calls(states, move |state, figures: &mut [u64; SIDE_FIGURES]| {
                proved::side(state, side, figures)
            })
        };
        let [gas_call, gas, gas_above, dense_call, dense, dense_above] = interleaved([
            call(Side::Gas),
            gas.all_at_once(),
            gas_above.one_by_one(),
            call(Side::Dense),
            dense.all_at_once(),
            dense_above.one_by_one(),
        ]);
        Claims {
            gas: OfSide::new(gas_call, gas, gas_above),
            dense: OfSide::new(dense_call, dense, dense_above),
        }
    }
}

impl OfSide {
    fn new(call: Vec<f64>, standing: Vec<f64>, refused: Vec<f64>) -> OfSide {
        OfSide {
            standing_beside_call: beside(&standing, &call),
            refused_beside_call: beside(&refused, &call),
            call: timing(call),
            standing: timing(standing),
            refused: timing(refused),
        }
    }
}

/// Fluids, temperatures, pressures, sides and roots, prepared before any clock runs.
struct Lists([Vec<u64>; 5]);

impl Lists {
    fn standing(states: &[State], side: Side) -> Lists {
        let list = |number: fn(&State) -> u64| states.iter().map(number).collect();
        let root: fn(&State) -> u64 = if side == Side::Gas {
            |state| proved::answer(state).gas_root
        } else {
            |state| proved::answer(state).dense_root
        };
        Lists([
            list(|state| state.fluid),
            list(|state| state.millikelvin),
            list(|state| state.pascals),
            vec![side.number(); states.len()],
            list(root),
        ])
    }

    fn with_roots(&self, changed: fn(&u64) -> u64) -> Lists {
        let mut lists = self.0.clone();
        lists[4] = self.0[4].iter().map(changed).collect();
        Lists(lists)
    }

    fn count(&self) -> usize {
        self.0[0].len()
    }

    fn all(&self) -> [&[u64]; 5] {
        self.0.each_ref().map(Vec::as_slice)
    }

    /// A list of this claim alone.
    #[inline]
    fn one(&self, claim: usize) -> [&[u64]; 5] {
        self.all().map(|list| &list[claim..][..1])
    }

    fn assert_stand(&self) {
        assert_eq!(told(self.all()), (0, 0));
    }

    /// Each alone, and the first of all.
    fn assert_refused(&self) {
        for claim in 0..self.count() {
            assert_eq!(told(self.one(claim)), (14, 0), "{:?}", self.one(claim));
        }
        assert_eq!(told(self.all()), (14, 0));
    }

    fn all_at_once(&self) -> Pass<'_> {
        Box::new(|| {
            at_once(self.count(), || {
                black_box(told(black_box(self.all())));
            })
        })
    }

    fn one_by_one(&self) -> Pass<'_> {
        Box::new(|| {
            at_once(self.count(), || {
                for claim in 0..self.count() {
                    black_box(told(self.one(black_box(claim))));
                }
            })
        })
    }
}

/// The reply's number and the refused claim's.
#[inline]
fn told(lists: [&[u64]; 5]) -> (u64, u64) {
    let mut claim = 0;
    let number = proved::claims(lists, &mut claim);
    (number, claim)
}
