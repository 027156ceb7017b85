//! Document 01, "From a state to the cubic": every crossing, by looking at every place of the grid.

/// The grid.
pub const N: u64 = 100_000;

/// The bounds of a and b up to which a scan keeps to 64 bits. No state in range passes them.
pub const LARGEST_A: u64 = 20_000_000;
pub const LARGEST_B: u64 = 1_000_000;

/// g as the paper writes it.
pub fn g(a: u64, b: u64, z: u64) -> i128 {
    let [n, a, b, z] = [N, a, b, z].map(i128::from);
    z * z * z - n * z * z + (n * a - b * b - n * b) * z - n * a * b
}

/// All crossings, smallest first. Every place from 0 to N + b is looked at. None lies above, since g
/// is also z (z + b) (z - N - b) + N a (z - b), which is positive there.
pub fn crossings(a: u64, b: u64) -> Vec<u64> {
    let mut found = Vec::new();
    let mut values = Values::at(a, b, 0);
    for z in 0..N + b + 1 {
        let here = values.here;
        values.step();
        if here <= 0 && values.here > 0 {
            found.push(z);
        }
    }
    found
}

/// The last of them: from N + b down, the first place at which g is not positive. At b it is not, so there
/// is one.
pub fn largest_crossing(a: u64, b: u64) -> u64 {
    let mut z = N + b;
    let mut values = Values::at(a, b, z);
    while values.here > 0 {
        values.step_back();
        z -= 1;
    }
    z
}

/// g at one place after the other. A cubic's third difference is the same everywhere, here 6, so each
/// value follows from the one beside it by additions.
///
/// Up to LARGEST_A, LARGEST_B and the place N + b + 2 the four terms of g are at most 1.4e18, 1.3e17,
/// 2.3e18 and 2.0e18 in size, and the differences far smaller: no number passes the 9.2e18 of an i64.
struct Values {
    here: i64,
    first_difference: i64,
    second_difference: i64,
}

impl Values {
    /// Always inlined, as the compiler makes the scan slower by a quarter where this is a call.
    #[inline(always)]
    fn at(a: u64, b: u64, place: u64) -> Values {
        assert!(a <= LARGEST_A && b <= LARGEST_B, "a = {a}, b = {b}");
        let [here, next, after_next] = [place, place + 1, place + 2]
            .map(|z| i64::try_from(g(a, b, z)).expect("a number of 64 bits"));
        Values {
            here,
            first_difference: next - here,
            second_difference: after_next - 2 * next + here,
        }
    }

    /// To the next place.
    fn step(&mut self) {
        self.here += self.first_difference;
        self.first_difference += self.second_difference;
        self.second_difference += 6;
    }

    /// To the place before.
    fn step_back(&mut self) {
        self.second_difference -= 6;
        self.first_difference -= self.second_difference;
        self.here -= self.first_difference;
    }
}

#[cfg(test)]
mod tests {
    use super::*;
    use crate::random::Random;
    use crate::state::{critical, reduced, Reduced, FLUIDS, HIGHEST_PRESSURE};

    /// Document 01, "Points worked through".
    #[test]
    fn worked_points() {
        assert_eq!(g(7984, 1106, 1699), -292_242_865);
        assert_eq!(g(7984, 1106, 1700), 63_098_800);
        assert_eq!(g(7984, 1106, 92_696), -84_314_720);
        assert_eq!(crossings(7984, 1106), [1699, 92_696]);
        assert_eq!(crossings(1616, 885), [99_286]);
        assert_eq!(crossings(165, 637), [100_474]);
        assert_eq!(crossings(0, 1), [100_001]);
    }

    /// The worked states, the corners of the bounds, the greatest a and b of each fluid's states, and
    /// others of all magnitudes.
    fn points() -> Vec<(u64, u64)> {
        let mut points = vec![(7984, 1106), (1616, 885), (165, 637), (0, 1)];
        for a in [0, 1, LARGEST_A - 1, LARGEST_A] {
            points.extend([0, 1, LARGEST_B - 1, LARGEST_B].map(|b| (a, b)));
        }
        points.extend(FLUIDS.map(|fluid| {
            let critical = critical(fluid.number, fluid.coldest);
            let Reduced { a, b, .. } = reduced(&critical, fluid.coldest, HIGHEST_PRESSURE);
            (a, b)
        }));
        let mut random = Random(0x5EED);
        points.extend((0..30).map(|_| (random.magnitude(LARGEST_A), random.magnitude(LARGEST_B))));
        points
    }

    /// The running values are g's at every place that a scan looks at, the one after the last too.
    #[test]
    fn running_values() {
        for (a, b) in points() {
            let mut values = Values::at(a, b, 0);
            for z in 0..=N + b + 1 {
                assert_eq!(i128::from(values.here), g(a, b, z), "{a} {b} {z}");
                values.step();
            }
        }
    }

    /// Down from where the largest crossing is looked for, too.
    #[test]
    fn running_values_back() {
        for (a, b) in points() {
            let mut values = Values::at(a, b, N + b);
            for z in (0..=N + b).rev() {
                assert_eq!(i128::from(values.here), g(a, b, z), "{a} {b} {z}");
                values.step_back();
            }
        }
    }

    #[test]
    fn largest_is_the_last() {
        for (a, b) in points() {
            let all = crossings(a, b);
            assert_eq!(all.last(), Some(&largest_crossing(a, b)), "{a} {b}");
        }
    }

    /// Where a scan stops, shown a second way: g is positive at as many places again.
    #[test]
    fn positive_above() {
        for (a, b) in points() {
            let after = N + b + 1;
            assert!((after..2 * after).all(|z| g(a, b, z) > 0), "{a} {b}");
        }
    }
}
