//! Exact fractions, for what the papers work out from printed decimals: nothing is rounded but where they say so.

use std::ops::{Add, Mul, Sub};

/// In its lowest terms, with a divisor above 0.
#[derive(Clone, Copy, Debug, PartialEq, Eq)]
pub struct Fraction {
    dividend: i128,
    divisor: i128,
}

impl Fraction {
    pub fn new(dividend: i128, divisor: i128) -> Fraction {
        assert!(divisor > 0);
        let common = common_divisor(dividend.abs(), divisor);
        Fraction {
            dividend: dividend / common,
            divisor: divisor / common,
        }
    }

    /// A printed decimal: `10.3121`, `0` or `-0.86913643e-3`.
    pub fn printed(decimal: &str) -> Fraction {
        let (digits, power) = decimal.split_once("e-").unwrap_or((decimal, "0"));
        let (whole, behind) = digits.split_once('.').unwrap_or((digits, ""));
        let all = format!("{whole}{behind}").parse().expect("a decimal");
        let power = behind.len() as u32 + power.parse::<u32>().expect("a power of ten");
        Fraction::new(all, 10_i128.checked_pow(power).expect(FITS))
    }

    /// The polynomial with these coefficients, that of the highest power first, by nested products.
    pub fn polynomial<'printed>(
        coefficients: impl Iterator<Item = &'printed str>,
        argument: Fraction,
    ) -> Fraction {
        let nothing = Fraction::new(0, 1);
        coefficients
            .map(Fraction::printed)
            .fold(nothing, |sum, coefficient| sum * argument + coefficient)
    }

    /// How many whole parts it has of which so many make one: rounded down, also below 0.
    pub fn parts(self, of_one: i128) -> i128 {
        product(self.dividend, of_one).div_euclid(self.divisor)
    }

    /// What its dividend is over this multiple of its divisor.
    fn dividend_over(self, multiple: i128) -> i128 {
        product(self.dividend, multiple / self.divisor)
    }
}

impl Add for Fraction {
    type Output = Fraction;

    /// Over the least divisor that serves both, so that no number is larger than it must be.
    fn add(self, other: Fraction) -> Fraction {
        let divisor = common_multiple(self.divisor, other.divisor);
        let [own, others] = [self, other].map(|fraction| fraction.dividend_over(divisor));
        Fraction::new(own.checked_add(others).expect(FITS), divisor)
    }
}

impl Sub for Fraction {
    type Output = Fraction;

    fn sub(self, other: Fraction) -> Fraction {
        self + Fraction::new(-other.dividend, other.divisor)
    }
}

impl Mul for Fraction {
    type Output = Fraction;

    fn mul(self, other: Fraction) -> Fraction {
        let dividend = product(self.dividend, other.dividend);
        Fraction::new(dividend, product(self.divisor, other.divisor))
    }
}

/// What every sum and product is looked at for, since a release build would cut a larger one off.
const FITS: &str = "a number of 128 bits";

fn product(one: i128, other: i128) -> i128 {
    one.checked_mul(other).expect(FITS)
}

/// The least one.
fn common_multiple(one: i128, other: i128) -> i128 {
    product(one, other / common_divisor(one, other))
}

/// The greatest one, by Euclid's way.
fn common_divisor(one: i128, other: i128) -> i128 {
    if other == 0 {
        return one;
    }
    common_divisor(other, one % other)
}

#[cfg(test)]
mod tests {
    use super::*;

    #[test]
    fn printed_decimals() {
        assert_eq!(Fraction::printed("0"), Fraction::new(0, 1));
        assert_eq!(Fraction::printed("10.3121"), Fraction::new(103_121, 10_000));
        assert_eq!(Fraction::printed("-0.50"), Fraction::new(-1, 2));
        let with_a_power = Fraction::printed("-0.86913643e-3");
        assert_eq!(with_a_power, Fraction::printed("-0.00086913643"));
        assert_eq!(with_a_power, Fraction::new(-86_913_643, 100_000_000_000));
    }

    #[test]
    fn sums_and_products() {
        let [half, third] = [Fraction::new(1, 2), Fraction::new(1, 3)];
        assert_eq!(half + third, Fraction::new(5, 6));
        assert_eq!(third - half, Fraction::new(-1, 6));
        assert_eq!(half * third, Fraction::new(1, 6));
    }

    /// Two times x squared, less x, and a half, at a third.
    #[test]
    fn polynomials() {
        let coefficients = ["2", "-1", "0.5"].into_iter();
        let value = Fraction::polynomial(coefficients, Fraction::new(1, 3));
        assert_eq!(value, Fraction::new(7, 18));
    }

    /// Down is towards the lower number, which is not towards 0.
    #[test]
    fn rounded_down() {
        assert_eq!(Fraction::new(2, 3).parts(1000), 666);
        assert_eq!(Fraction::new(-2, 3).parts(1000), -667);
        assert_eq!(Fraction::new(3, 1).parts(1), 3);
    }

    #[test]
    #[should_panic(expected = "a number of 128 bits")]
    fn too_large() {
        let large = Fraction::new(i128::MAX, 1);
        let _ = large * large;
    }
}
