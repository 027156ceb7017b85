//! The two programs `sheet` on one full sheet: the proved one, and the second implementation's.

use std::ffi::{c_int, c_long};
use std::fs::File;
use std::process::Command;

/// From the repository's root.
const PROVED: &str = "crates/sheet/out/sheet";
const SECOND: &str = "target/host/release/sheet";
const FULL_SHEET: &str = "host/checks/sheets/full.in";

/// How often each runs. The second implementation looks at every place of the grid and takes long; the
/// proved one takes so little that a kernel which samples by ticks needs many runs to see it. An equal
/// part of its runs follows each of the other's.
pub const SECOND_RUNS: u32 = 5;
pub const PROVED_RUNS: u32 = 200;

/// Milliseconds of user time per run.
pub struct UserTimes {
    pub proved: f64,
    pub second: f64,
}

/// Both print the same, byte for byte, in every run.
pub fn user_times() -> UserTimes {
    let (expected, _) = run(SECOND);
    let mut times = UserTimes {
        proved: 0.0,
        second: 0.0,
    };
    for _ in 0..SECOND_RUNS {
        times.second += checked(SECOND, &expected) / f64::from(SECOND_RUNS);
        for _ in 0..PROVED_RUNS / SECOND_RUNS {
            times.proved += checked(PROVED, &expected) / f64::from(PROVED_RUNS);
        }
    }
    times
}

fn checked(program: &str, expected: &[u8]) -> f64 {
    let (printed, milliseconds) = run(program);
    assert!(
        printed == expected,
        "{program} prints another text than {SECOND}"
    );
    milliseconds
}

/// What the program prints, and its milliseconds of user time.
fn run(program: &str) -> (Vec<u8>, f64) {
    let sheet = File::open(FULL_SHEET).unwrap_or_else(|error| panic!("{FULL_SHEET}: {error}"));
    let before = children_milliseconds();
    let output = Command::new(program)
        .stdin(sheet)
        .output()
        .unwrap_or_else(|error| panic!("{program}: {error}"));
    let after = children_milliseconds();
    assert!(output.status.success(), "{program}: {}", output.status);
    (output.stdout, after - before)
}

/// `struct timeval`.
#[repr(C)]
#[derive(Default)]
struct TimeValue {
    seconds: c_long,
    microseconds: c_long,
}

/// `struct rusage`: the user time, the system time and fourteen counters.
#[repr(C)]
#[derive(Default)]
struct ResourceUsage {
    user: TimeValue,
    system: TimeValue,
    counters: [c_long; 14],
}

extern "C" {
    fn getrusage(who: c_int, usage: *mut ResourceUsage) -> c_int;
}

/// `RUSAGE_CHILDREN`: all programs that this one started and that have ended.
const CHILDREN: c_int = -1;

fn children_milliseconds() -> f64 {
    let mut usage = ResourceUsage::default();
    // SAFETY: the kernel writes one `struct rusage`, laid out as above on x86-64 Linux.
    let reply = unsafe { getrusage(CHILDREN, &mut usage) };
    assert_eq!(reply, 0, "getrusage");
    usage.user.seconds as f64 * 1e3 + usage.user.microseconds as f64 / 1e3
}
