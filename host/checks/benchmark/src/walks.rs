//! The slow way to the gas root beside the quick one, on the states that are scanned too.

use crate::contenders::calls;
use crate::floors::coefficients;
use crate::proved;
use crate::rounds::{interleaved, timing, Timing};
use second::cubic::N;
use second::sheet::State;
use woolyard::boundary::WALK_FIGURES;
use woolyard::WALK_ENOUGH;

/// Nanoseconds per state of the walk and of the quick call, round by round, and how many values of g the
/// walks work out: in all, in the shortest and in the longest.
pub struct Walks {
    pub walk: Timing,
    pub quick: Timing,
    pub states: usize,
    pub values: u64,
    pub fewest: u64,
    pub most: u64,
}

impl Walks {
    /// Also checks that each walk ends at the gas root of the quick call, and counts as the paper does.
    pub fn measure(states: &[State]) -> Walks {
        let values: Vec<u64> = states.iter().map(checked).collect();
        let [walk, quick] = interleaved([
            calls(states, |state, walked| {
                proved::walk(state, WALK_ENOUGH, walked)
            }),
            calls(states, proved::state),
        ])
        .map(timing);
        Walks {
            walk,
            quick,
            states: states.len(),
            values: values.iter().sum(),
            fewest: values.iter().copied().min().unwrap_or(0),
            most: values.iter().copied().max().unwrap_or(0),
        }
    }

    pub fn values_per_state(&self) -> f64 {
        self.values as f64 / self.states as f64
    }

    /// Nanoseconds per value of g, the rest of the call among them.
    pub fn per_value(&self) -> f64 {
        self.walk.median / self.values_per_state()
    }
}

/// How many values of g a state's walk works out.
fn checked(state: &State) -> u64 {
    let mut walked = [0; WALK_FIGURES];
    let number = proved::walk(state, WALK_ENOUGH, &mut walked);
    let root = proved::answer(state).gas_root;
    let count = N + coefficients(state).b - root + 1;
    assert_eq!((number, walked), (0, [root, count]), "{state:?}");
    count
}
