//! Temperatures for a comparison of the heat capacity, each the 64-bit pattern of a double, the same
//! ones in every run.

use crate::heat::NOT_NUMBERS;
use crate::random::Random;

/// Where a row of Table 4 ends, or all of it.
const ENDS: [f64; 5] = [14.0, 40.0, 150.0, 500.0, 1000.0];

/// The sign of a double.
const SIGN: u64 = 1 << 63;

/// How many doubles away from an end is still near it: a sixteenth of a kelvin at 14, four kelvins
/// at 1000.
const NEAR: u64 = (1 << 45) - 1;

/// The patterns of the temperatures.
#[derive(Default)]
pub struct List {
    pub patterns: Vec<u64>,
}

impl List {
    fn pattern(&mut self, pattern: u64) {
        self.patterns.push(pattern);
    }

    fn kelvin(&mut self, kelvin: f64) {
        self.pattern(kelvin.to_bits());
    }
}

/// The list of the program `heat_points`.
pub fn list() -> Vec<u64> {
    let mut list = List::default();
    let mut random = Random(0x5EED);
    worked_points(&mut list);
    ends(&mut list);
    outside(&mut list);
    whole_kelvins(&mut list);
    spread(&mut list, &mut random, [100, 400, 400, 400]);
    near_the_ends(&mut list, &mut random, 20);
    any_pattern(&mut list, &mut random, 400);
    list.patterns
}

/// Document 01's two points.
fn worked_points(list: &mut List) {
    list.kelvin(40.0);
    list.kelvin(40.0_f64.next_up());
}

/// Every end with the two doubles on each side of it. All are above 0, where the patterns stand in
/// the order of the doubles.
fn ends(list: &mut List) {
    for end in ENDS.map(f64::to_bits) {
        for pattern in end - 2..=end + 2 {
            list.pattern(pattern);
        }
    }
}

/// NaNs, quiet and signalling, the infinities, the zeros, the smallest and largest doubles of each
/// form, and the ends with a minus sign.
fn outside(list: &mut List) {
    for pattern in NOT_NUMBERS {
        list.pattern(pattern);
        list.pattern(pattern | SIGN);
    }
    for pattern in [
        f64::INFINITY.to_bits(),
        0,
        1,
        f64::MIN_POSITIVE.to_bits() - 1,
        f64::MIN_POSITIVE.to_bits(),
        f64::MAX.to_bits(),
    ] {
        list.pattern(pattern);
        list.pattern(pattern | SIGN);
    }
    for end in ENDS {
        list.kelvin(-end);
    }
}

/// Every whole kelvin of the range and one past each end of it.
fn whole_kelvins(list: &mut List) {
    for kelvin in 13..=1001 {
        list.kelvin(f64::from(kelvin));
    }
}

/// Doubles with every bit of the fraction in use, so many in each row. The first answers one number
/// everywhere, so that a few are enough.
pub fn spread(list: &mut List, random: &mut Random, counts: [usize; 4]) {
    for (row, count) in counts.into_iter().enumerate() {
        let [low, high] = [ENDS[row], ENDS[row + 1]].map(f64::to_bits);
        for _ in 0..count {
            list.pattern(low + random.number() % (high - low));
        }
    }
}

/// Both sides of each end, the nearest doubles as often as the farthest.
pub fn near_the_ends(list: &mut List, random: &mut Random, count: usize) {
    for end in ENDS.map(f64::to_bits) {
        for _ in 0..count {
            list.pattern(end - random.magnitude(NEAR));
            list.pattern(end + random.magnitude(NEAR));
        }
    }
}

/// Patterns of every kind, nearly all of them far outside the range.
pub fn any_pattern(list: &mut List, random: &mut Random, count: usize) {
    for _ in 0..count {
        list.pattern(random.number());
    }
}
