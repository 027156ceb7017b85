//! In which states GSL's gas root, rounded down to the grid, is another whole number than the proved
//! gas root.

use crate::{peer, proved};
use second::cubic::N;
use second::sheet::State;
use second::state::{critical, reduced, Reduced};
use woolyard::boundary::FIGURES;

/// A state with the proved gas root, and GSL's in the same hundred-thousandths.
pub struct Difference {
    pub state: State,
    pub proved: u64,
    pub in_doubles: f64,
}

impl Difference {
    pub fn floor(&self) -> u64 {
        self.in_doubles.floor() as u64
    }
}

/// GSL is given the doubles of the paper's own whole-number a and b, so that nothing differs but the
/// solver.
pub fn of_solver(states: &[State]) -> Vec<Difference> {
    differences(states, |state| {
        let Reduced { a, b, .. } = coefficients(state);
        let [a, b] = [a, b].map(|coefficient| coefficient as f64 / N as f64);
        peer::gas_root(a, b)
    })
}

/// The peer as it is: its a and b aren't rounded down to whole numbers either.
pub fn of_peer(states: &[State]) -> Vec<Difference> {
    differences(states, |state| {
        let mut figures = [0.0; FIGURES];
        peer::state(state, &mut figures);
        let [_kind, gas_root, ..] = figures;
        gas_root
    })
}

/// In how many of these a is 0: there the root is the whole number N + b itself, and any double below
/// it has another floor.
pub fn with_a_zero(differences: &[Difference]) -> usize {
    let a_is_zero = |difference: &&Difference| coefficients(&difference.state).a == 0;
    differences.iter().filter(a_is_zero).count()
}

fn differences(states: &[State], gas_root: impl Fn(&State) -> f64) -> Vec<Difference> {
    let difference = |&state: &State| Difference {
        state,
        proved: proved::answer(&state).gas_root,
        in_doubles: gas_root(&state) * N as f64,
    };
    let all = states.iter().map(difference);
    all.filter(|found| found.floor() != found.proved).collect()
}

/// The paper's t, p, s, a and b of a state.
pub fn coefficients(state: &State) -> Reduced {
    let critical = critical(state.fluid, state.millikelvin);
    reduced(&critical, state.millikelvin, state.pascals)
}
