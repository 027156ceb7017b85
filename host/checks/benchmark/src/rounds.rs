//! The clock: rounds in which all contenders come one after another, so that whatever else the machine
//! does falls on all of them alike.

use second::sheet::State;
use std::hint::black_box;
use std::time::Instant;

/// How many rounds run before any is counted, and how many are: an odd number, so that one of them is
/// the median.
pub const WARM_UP_ROUNDS: usize = 10;
pub const ROUNDS: usize = 1001;

/// One pass of a contender over all states: nanoseconds per state.
pub type Pass<'a> = Box<dyn FnMut() -> f64 + 'a>;

/// Nanoseconds per state, of the middle round and of the quickest.
#[derive(Clone, Copy)]
pub struct Timing {
    pub median: f64,
    pub quickest: f64,
}

/// The rounds of each contender, in their order: nanoseconds per state.
pub fn interleaved<const CONTENDERS: usize>(
    contenders: [Pass; CONTENDERS],
) -> [Vec<f64>; CONTENDERS] {
    let [passes] = interleaved_groups([contenders]);
    passes
}

/// The same of several groups, in rounds of them all.
pub fn interleaved_groups<const CONTENDERS: usize, const GROUPS: usize>(
    mut groups: [[Pass; CONTENDERS]; GROUPS],
) -> [[Vec<f64>; CONTENDERS]; GROUPS] {
    let mut passes = [const { [const { Vec::new() }; CONTENDERS] }; GROUPS];
    for round in 0..WARM_UP_ROUNDS + ROUNDS {
        let contenders = groups.as_flattened_mut().iter_mut();
        for (contender, passes) in contenders.zip(passes.as_flattened_mut()) {
            let nanoseconds = contender();
            if round >= WARM_UP_ROUNDS {
                passes.push(nanoseconds);
            }
        }
    }
    passes
}

pub fn timing(mut passes: Vec<f64>) -> Timing {
    passes.sort_by(f64::total_cmp);
    Timing {
        median: passes[passes.len() / 2],
        quickest: passes[0],
    }
}

/// The median of the ratios, round by round: what a short while does to both contenders falls out of it.
pub fn beside(rounds: &[f64], other: &[f64]) -> f64 {
    let ratios = rounds.iter().zip(other).map(|(this, other)| this / other);
    timing(ratios.collect()).median
}

/// The median of what a round takes more than the other contender's.
pub fn more_than(rounds: &[f64], other: &[f64]) -> f64 {
    let more = rounds.iter().zip(other).map(|(this, other)| this - other);
    timing(more.collect()).median
}

/// Nanoseconds of a contender and of another that it is timed beside, and the ratio of the two, round by round.
pub struct Compared {
    pub timed: Timing,
    pub other: Timing,
    pub ratio: f64,
}

impl Compared {
    pub fn new(timed: Vec<f64>, other: Vec<f64>) -> Compared {
        Compared {
            ratio: beside(&timed, &other),
            timed: timing(timed),
            other: timing(other),
        }
    }
}

/// In rounds of the two alone.
pub fn compared(timed: Pass, other: Pass) -> Compared {
    let [other, timed] = interleaved([other, timed]);
    Compared::new(timed, other)
}

/// Nanoseconds per state of one call each. The compiler may not look through the state.
#[inline]
pub fn pass(states: &[State], mut call: impl FnMut(&State)) -> f64 {
    at_once(states.len(), || {
        for state in states {
            call(black_box(state));
        }
    })
}

/// Nanoseconds of each of so many things that are done together.
#[inline]
pub fn at_once(count: usize, all: impl FnOnce()) -> f64 {
    let begin = Instant::now();
    all();
    begin.elapsed().as_nanos() as f64 / count as f64
}
