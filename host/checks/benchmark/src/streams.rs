//! The proved call beside the job in doubles on the states of one fluid, as a sheet's section has them, and on all mixed.

use crate::contenders::calls;
use crate::rounds::{interleaved_groups, Compared};
use crate::states::of_fluid;
use crate::{peer, proved};
use second::sheet::State;
use second::state::FLUIDS;
use std::array;

/// One of each fluid, and behind them the mixed one.
const STREAMS: usize = FLUIDS.len() + 1;

/// The proved call beside the job in doubles, all of them in the same rounds.
pub struct Streams {
    pub of_fluids: [Compared; FLUIDS.len()],
    pub mixed: Compared,
}

impl Streams {
    pub fn measure(states: &[State]) -> Streams {
        let streams: [Vec<State>; STREAMS] = array::from_fn(|place| match FLUIDS.get(place) {
            Some(fluid) => of_fluid(states, fluid).collect(),
            None => states.to_vec(),
        });
        let contenders = streams
            .each_ref()
            .map(|states| [calls(states, proved::state), calls(states, peer::state)]);
        let rounds = interleaved_groups(contenders);
        let [of_fluids @ .., mixed] = rounds.map(|[call, peer]| Compared::new(call, peer));
        Streams { of_fluids, mixed }
    }
}
