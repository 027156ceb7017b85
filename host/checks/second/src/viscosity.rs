//! Document 02, C-24: the excess viscosity factor of equation 2.12-2 in source document 001, worked out in
//! exact fractions, so that every rounding is one that the paper asks for.

use crate::fraction::Fraction;

/// The coefficients of the quartic as printed, that of the fourth power first.
pub const QUARTIC: &str = "0.093324 -0.40758 0.58533 0.23364 1.0230";

/// The ends of the range in thousandths, which are in range.
pub const THINNEST: u64 = 100;
pub const DENSEST: u64 = 3000;

/// The factor in millionths, or the number of the refusal.
pub fn excess_factor(thousandths: u64) -> Result<u64, u64> {
    if !(THINNEST..=DENSEST).contains(&thousandths) {
        return Err(15);
    }
    let factor = factor_of(quartic(Fraction::new(thousandths.into(), 1000)));
    Ok(u64::try_from(millionths(factor)).expect("a factor above 0"))
}

/// From the exact value of the quartic, with the paper's three roundings.
fn factor_of(quartic: Fraction) -> Fraction {
    let y = rounded_down(quartic);
    let square = rounded_down(y * y);
    let fourth_power = rounded_down(square * square);
    fourth_power - Fraction::new(1, 1)
}

/// With nothing rounded.
fn quartic(density: Fraction) -> Fraction {
    Fraction::polynomial(QUARTIC.split(' '), density)
}

fn rounded_down(exact: Fraction) -> Fraction {
    Fraction::new(millionths(exact), 1_000_000)
}

/// How many whole millionths it has.
fn millionths(exact: Fraction) -> i128 {
    exact.parts(1_000_000)
}

#[cfg(test)]
mod tests {
    use super::*;

    fn density(thousandths: u64) -> Fraction {
        Fraction::new(thousandths.into(), 1000)
    }

    fn factor(thousandths: u64) -> u64 {
        excess_factor(thousandths).expect("a density in range")
    }

    /// At the critical density the quartic is the sum of its coefficients. Its square is 2.333910065796,
    /// and that of 2.333910 is 5.4471358881.
    #[test]
    fn at_the_critical_density() {
        assert_eq!(quartic(density(1000)), Fraction::printed("1.527714"));
        assert_eq!(factor(1000), 4_447_135);
    }

    #[test]
    fn ends_of_the_range() {
        assert_eq!(factor(100), 223_950);
        assert_eq!(factor(3000), 157_192_927);
        for thousandths in [0, 99, 3001, (1 << 32) + 1000, u64::MAX] {
            assert_eq!(excess_factor(thousandths), Err(15));
        }
    }

    /// C-24: "at reduced density 0 the printed formula gives an excess that isn't zero".
    #[test]
    fn at_a_density_of_zero() {
        assert_eq!(quartic(density(0)), Fraction::printed("1.0230"));
        assert_eq!(millionths(factor_of(quartic(density(0)))), 95_222);
    }

    /// A thousandth more of density is more of the factor, in the whole range.
    #[test]
    fn grows() {
        let steps = (THINNEST..DENSEST).map(|x| factor(x + 1) - factor(x));
        assert_eq!(steps.min(), Some(1578));
    }

    /// At how many densities of the range this way gives another factor.
    fn others(way: fn(Fraction) -> Fraction) -> usize {
        (THINNEST..=DENSEST)
            .filter(|&x| millionths(way(density(x))) != factor(x).into())
            .count()
    }

    fn to_the_nearest(x: Fraction) -> Fraction {
        factor_of(quartic(x) + Fraction::printed("0.0000005"))
    }

    fn cubic_term_added(x: Fraction) -> Fraction {
        let term = Fraction::printed("0.40758") * x * x * x;
        factor_of(quartic(x) + term + term)
    }

    fn nought_too_many(x: Fraction) -> Fraction {
        let linear = Fraction::printed("0.023364") - Fraction::printed("0.23364");
        factor_of(quartic(x) + linear * x)
    }

    fn squared_once(x: Fraction) -> Fraction {
        let y = rounded_down(quartic(x));
        y * y - Fraction::new(1, 1)
    }

    fn one_not_taken_away(x: Fraction) -> Fraction {
        factor_of(quartic(x)) + Fraction::new(1, 1)
    }

    /// Six digits more than the paper's in the quartic and its square, so that the last rounding alone shows.
    fn rounded_at_the_end(x: Fraction) -> Fraction {
        let million = Fraction::new(1_000_000, 1);
        let down = |exact: Fraction| rounded_down(exact * million) * Fraction::new(1, 1_000_000);
        let y = down(quartic(x));
        let square = down(y * y);
        square * square - Fraction::new(1, 1)
    }

    /// A comparison over the range tells the paper's way from each of these.
    #[test]
    fn other_ways_have_other_factors() {
        let all = (THINNEST..=DENSEST).count();
        assert_eq!(others(|x| factor_of(quartic(x))), 0);
        assert_eq!(others(to_the_nearest), 1416);
        assert_eq!(others(rounded_at_the_end), 2891);
        assert_eq!(others(cubic_term_added), all);
        assert_eq!(others(nought_too_many), all);
        assert_eq!(others(squared_once), all);
        assert_eq!(others(one_not_taken_away), all);
    }
}
