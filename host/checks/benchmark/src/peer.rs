//! The peer, peer.c: the same job in doubles with the cubic solver of the GNU Scientific Library.

use second::sheet::State;
use std::ffi::{c_char, CStr};
use woolyard::boundary::FIGURES;

extern "C" {
    fn peer_state(fluid: u64, millikelvin: u64, pascals: u64, figures: *mut [f64; FIGURES]) -> u64;
    fn peer_gas_root(a: f64, b: f64) -> f64;

    static gsl_version: *const c_char;
}

/// The reply's number; the figures are written, the roots as compressibilities.
#[inline]
pub fn state(state: &State, figures: &mut [f64; FIGURES]) -> u64 {
    // SAFETY: it writes five doubles, and nothing else.
    unsafe { peer_state(state.fluid, state.millikelvin, state.pascals, figures) }
}

/// The largest real root of the cubic with these A* and B*, as a compressibility.
pub fn gas_root(a: f64, b: f64) -> f64 {
    // SAFETY: it takes any doubles and writes nothing.
    unsafe { peer_gas_root(a, b) }
}

/// The version of the library that is linked.
pub fn version() -> &'static str {
    // SAFETY: the library declares it as a constant text of its own.
    let text = unsafe { CStr::from_ptr(gsl_version) };
    text.to_str().expect("a version in plain letters")
}
