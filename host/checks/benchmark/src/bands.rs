//! Bands beside a call without densities, on all states that are timed.

use crate::contenders::calls;
use crate::proved;
use crate::rounds::{interleaved, timing, Timing};
use second::band::band_reply;
use second::sheet::State;
use second::state::LOWEST_PRESSURE;
use woolyard::boundary::{BAND_ROOTS, SIDE_FIGURES};
use woolyard::{SCALING_LEAST, SCALING_MOST, SCALING_NONE};

/// The scalings of the bands that are timed: 5 % either way, the widest, and a itself twice.
const NARROW: [u64; 2] = [950, 1050];
const WIDEST: [u64; 2] = [SCALING_LEAST, SCALING_MOST];
const UNCHANGED: [u64; 2] = [SCALING_NONE, SCALING_NONE];

/// A refusal after the roots that does find them takes more than so many times as long as one before them.
const FOUND: f64 = 3.0;

/// Nanoseconds per state, round by round: of each band; of a call without densities, which is one that is
/// refused after its roots are found; and of one that is refused before.
pub struct Bands {
    pub narrow: Timing,
    pub widest: Timing,
    pub unchanged: Timing,
    pub without_densities: Timing,
    pub refused_at_once: Timing,
}

impl Bands {
    /// Also checks each band, those of the scanned states by the second implementation, and that both refusals
    /// are what they are taken for.
    pub fn measure(states: &[State], scanned: &[State]) -> Bands {
        let refused = states.iter().map(|&state| State {
            pascals: LOWEST_PRESSURE - 1,
            ..state
        });
        let refused: Vec<State> = refused.collect();
        states.iter().for_each(assert_around_own);
        scanned.iter().for_each(assert_second);
        states.iter().for_each(|state| assert_refused(state, 12));
        refused.iter().for_each(|state| assert_refused(state, 31));
        let band = |scalings| {
            calls(states, move |state, roots| {
                proved::band(state, scalings, roots)
            })
        };
        let rounds = interleaved([
            band(NARROW),
            band(WIDEST),
            band(UNCHANGED),
            calls(states, proved::without_densities),
            calls(&refused, proved::without_densities),
        ]);
        let [narrow, widest, unchanged, without_densities, refused_at_once] = rounds.map(timing);
        let bands = Bands {
            narrow,
            widest,
            unchanged,
            without_densities,
            refused_at_once,
        };
        assert!(bands.beside_refused() > FOUND, "side 2 finds no roots");
        bands
    }

    /// How many times as long as a refusal before the roots a call without densities takes.
    pub fn beside_refused(&self) -> f64 {
        self.without_densities.median / self.refused_at_once.median
    }
}

/// At scaling 1000 the roots are the state's own gas root, and that lies between the roots of the other bands.
fn assert_around_own(state: &State) {
    let own = proved::answer(state).gas_root;
    assert_eq!(band(state, UNCHANGED), (0, [own, own]), "{state:?}");
    for scalings in [NARROW, WIDEST] {
        let (number, [lower_root, upper_root]) = band(state, scalings);
        let between = lower_root >= own && own >= upper_root;
        assert!(number == 0 && between, "{state:?}, {scalings:?}");
    }
}

fn assert_second(state: &State) {
    for scalings in [NARROW, WIDEST, UNCHANGED] {
        let [lower, upper] = scalings;
        let second = band_reply(state.fluid, state.millikelvin, state.pascals, lower, upper);
        let expected = (second.number, second.figures());
        assert_eq!(band(state, scalings), expected, "{state:?}, {scalings:?}");
    }
}

fn band(state: &State, scalings: [u64; 2]) -> (u64, [u64; BAND_ROOTS]) {
    let mut roots = [0; BAND_ROOTS];
    let number = proved::band(state, scalings, &mut roots);
    (number, roots)
}

fn assert_refused(state: &State, expected: u64) {
    let number = proved::without_densities(state, &mut [0; SIDE_FIGURES]);
    assert_eq!(number, expected, "{state:?}");
}
