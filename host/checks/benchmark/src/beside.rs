//! Builds of the library beside each other, each a shared object: how much a change of the code costs.
//!
//! One run of the benchmark differs from the next by more than most changes do. Here all builds answer
//! the same states in one process, in an order drawn anew for each round, so that neither what else the
//! machine does nor a place in the order favours one of them. A state that one of them refuses is asked of
//! none: a build from before a fluid came refuses it at once, and would look quicker for that.

use crate::rounds::{more_than, pass, timing, Timing, ROUNDS, WARM_UP_ROUNDS};
use second::random::Random;
use second::sheet::State;
use std::ffi::{c_char, c_int, c_void, CStr, CString};
use std::hint::black_box;
use std::path::Path;
use woolyard::boundary::FIGURES;

/// woolyard_state, as woolyard.h has it.
type Call = unsafe extern "C" fn(u64, u64, u64, *mut u64) -> u64;

const NAME: &CStr = c"woolyard_state";

extern "C" {
    fn dlopen(file: *const c_char, mode: c_int) -> *mut c_void;
    fn dlsym(library: *mut c_void, name: *const c_char) -> *mut c_void;
}

/// Every symbol is bound at once, and to its own library.
const NOW: c_int = 2;

/// Prints each build's rounds, and the median of what it takes more in a round than the first build.
pub fn measure(builds: &[String], states: &[State], random: &mut Random) {
    let calls: Vec<Call> = builds.iter().map(|build| loaded(build)).collect();
    let answered = answered_by_all(&calls, states);
    assert!(!answered.is_empty(), "no state that every build answers");
    let mut order: Vec<usize> = (0..calls.len()).collect();
    let mut rounds = vec![Vec::new(); calls.len()];
    for round in 0..WARM_UP_ROUNDS + ROUNDS {
        shuffle(&mut order, random);
        for &build in &order {
            let nanoseconds = answer_all(calls[build], &answered);
            if round >= WARM_UP_ROUNDS {
                rounds[build].push(nanoseconds);
            }
        }
    }
    println!(
        "{} of {} states, which every build answers; nanoseconds per state: the median round, the quickest,",
        answered.len(),
        states.len()
    );
    println!("and the median of what a round takes more than the first build's");
    for (build, of_build) in builds.iter().zip(&rounds) {
        let more = more_than(of_build, &rounds[0]);
        let Timing { median, quickest } = timing(of_build.clone());
        println!("{build}: {median:.1}, {quickest:.1}, {more:+.2}");
    }
}

fn loaded(build: &str) -> Call {
    let path = Path::new(build).canonicalize();
    let path = path.unwrap_or_else(|error| panic!("{build}: {error}"));
    let path = CString::new(path.into_os_string().into_encoded_bytes()).expect("no byte 0");
    // SAFETY: both strings end in a byte 0, and the library has nothing that runs when it is loaded.
    let call = unsafe {
        let library = dlopen(path.as_ptr(), NOW);
        assert!(!library.is_null(), "{build} is no shared object");
        dlsym(library, NAME.as_ptr())
    };
    assert!(!call.is_null(), "{build} has no {NAME:?}");
    // SAFETY: woolyard.h gives the function of this name this type.
    unsafe { std::mem::transmute::<*mut c_void, Call>(call) }
}

fn answered_by_all(calls: &[Call], states: &[State]) -> Vec<State> {
    let mut figures = [0; FIGURES];
    let mut answers = |state: &State| {
        calls
            .iter()
            .all(|&call| ask(call, state, &mut figures) == 0)
    };
    let states = states.iter().copied();
    states.filter(|state| answers(state)).collect()
}

fn answer_all(call: Call, states: &[State]) -> f64 {
    let mut figures = [0; FIGURES];
    pass(states, |state| {
        let number = ask(call, state, &mut figures);
        black_box((number, &figures));
    })
}

/// The reply's number; the figures are written.
#[inline]
fn ask(call: Call, state: &State, figures: &mut [u64; FIGURES]) -> u64 {
    let State {
        fluid,
        millikelvin,
        pascals,
    } = *state;
    // SAFETY: the function writes that many figures and nothing else.
    unsafe { call(fluid, millikelvin, pascals, figures.as_mut_ptr()) }
}

/// Fisher and Yates's.
fn shuffle(order: &mut [usize], random: &mut Random) {
    for place in (1..order.len()).rev() {
        order.swap(place, random.number() as usize % (place + 1));
    }
}
