//! Document 01, "Hydrogen's ideal heat capacity": Table 4, in the order of operations that the paper
//! fixes.

/// A1 to A5 of each range, as printed. They stay text here, since Rust's parser answers the double
/// nearest to a decimal, which is what the paper asks for, and the table of C-17 has them exactly.
pub const TABLE_4: [&str; 4] = [
    "10.3121 0 0 0 0",
    "14.759936 -0.21977388 0.32100769e-2 -0.120615002e-4 0.57121808e-8",
    "6.6557899 0.15621077 -0.86913643e-3 0.18972274e-5 -0.14418461e-8",
    "14.4714861 -0.7176787e-3 0.18638538e-5 -0.5306547e-9 0.46649305e-13",
];

/// Patterns of doubles that are no number, signalling ones and quiet ones, the sign left out.
pub const NOT_NUMBERS: [u64; 6] = [
    0x7ff0_0000_0000_0001,
    0x7ff4_0000_0000_0000,
    0x7ff7_ffff_ffff_ffff,
    0x7ff8_0000_0000_0000,
    0x7ff8_0000_0000_0001,
    0x7fff_ffff_ffff_ffff,
];

/// The heat capacity in kJ/(kg K), or the number of the refusal. A NaN is in no range, so asking
/// whether the range holds it refuses it; asking whether it lies below or above would let it pass.
pub fn heat_capacity(kelvin: f64) -> Result<f64, u64> {
    if !(14.0..=1000.0).contains(&kelvin) {
        return Err(5);
    }
    Ok(in_fixed_order(coefficients(row(kelvin)), kelvin))
}

/// The row of Table 4, counted from 0. Each range holds its upper end.
pub(crate) fn row(kelvin: f64) -> usize {
    if kelvin <= 40.0 {
        0
    } else if kelvin <= 150.0 {
        1
    } else if kelvin <= 500.0 {
        2
    } else {
        3
    }
}

/// A1 to A5 of a row.
pub fn coefficients(row: usize) -> [f64; 5] {
    let numbers: Vec<f64> = TABLE_4[row]
        .split(' ')
        .map(|word| word.parse().expect("a decimal"))
        .collect();
    numbers.try_into().expect("five coefficients in a row")
}

/// Two statements for each coefficient, since the product is rounded before the sum is.
fn in_fixed_order([a1, a2, a3, a4, a5]: [f64; 5], kelvin: f64) -> f64 {
    let mut heat = a5;
    for coefficient in [a4, a3, a2, a1] {
        heat *= kelvin;
        heat += coefficient;
    }
    heat
}

#[cfg(test)]
mod tests {
    use super::*;

    const SIGN: u64 = 1 << 63;

    // The rows written out, apart from the table and the loop.

    type Row = fn(f64) -> f64;

    fn first_row(_kelvin: f64) -> f64 {
        10.3121
    }

    fn second_row(t: f64) -> f64 {
        (((0.57121808e-8 * t + -0.120615002e-4) * t + 0.32100769e-2) * t + -0.21977388) * t
            + 14.759936
    }

    fn third_row(t: f64) -> f64 {
        (((-0.14418461e-8 * t + 0.18972274e-5) * t + -0.86913643e-3) * t + 0.15621077) * t
            + 6.6557899
    }

    fn fourth_row(t: f64) -> f64 {
        (((0.46649305e-13 * t + -0.5306547e-9) * t + 0.18638538e-5) * t + -0.7176787e-3) * t
            + 14.4714861
    }

    // Other ways to evaluate a row, none of them the paper's.

    fn fused([a1, a2, a3, a4, a5]: [f64; 5], t: f64) -> f64 {
        [a4, a3, a2, a1]
            .iter()
            .fold(a5, |heat, &coefficient| heat.mul_add(t, coefficient))
    }

    fn adding_first([a1, a2, a3, a4, a5]: [f64; 5], t: f64) -> f64 {
        [a4, a3, a2, a1]
            .iter()
            .fold(a5, |heat, &coefficient| (heat + coefficient) * t)
    }

    fn by_powers([a1, a2, a3, a4, a5]: [f64; 5], t: f64) -> f64 {
        a1 + a2 * t + a3 * t * t + a4 * t * t * t + a5 * t * t * t * t
    }

    fn bits(kelvin: f64) -> Result<u64, u64> {
        heat_capacity(kelvin).map(f64::to_bits)
    }

    fn whole_kelvins() -> impl Iterator<Item = f64> {
        (14..=1000).map(f64::from)
    }

    /// At how many whole kelvins this way gives another double.
    fn others(way: fn([f64; 5], f64) -> f64) -> usize {
        whole_kelvins()
            .filter(|&kelvin| {
                let other = way(coefficients(row(kelvin)), kelvin);
                bits(kelvin) != Ok(other.to_bits())
            })
            .count()
    }

    /// Document 01, "Points worked through".
    #[test]
    fn worked_points() {
        assert_eq!(bits(40.0), Ok(10.3121_f64.to_bits()));
        let above = 40.0_f64.next_up();
        assert_eq!(bits(above), Ok(second_row(above).to_bits()));
    }

    /// Each range holds its upper end, the double above uses the next row, and the jump between the
    /// rows is large enough to be seen.
    #[test]
    fn ends_of_the_rows() {
        let ends: [(f64, Row, Row); 3] = [
            (40.0, first_row, second_row),
            (150.0, second_row, third_row),
            (500.0, third_row, fourth_row),
        ];
        for (end, below, above) in ends {
            for kelvin in [end.next_down(), end] {
                assert_eq!(bits(kelvin), Ok(below(kelvin).to_bits()));
                assert_ne!(bits(kelvin), Ok(above(kelvin).to_bits()));
            }
            let kelvin = end.next_up();
            assert_eq!(bits(kelvin), Ok(above(kelvin).to_bits()));
            assert_ne!(bits(kelvin), Ok(below(kelvin).to_bits()));
        }
    }

    #[test]
    fn ends_of_the_range() {
        assert_eq!(bits(14.0), Ok(first_row(14.0).to_bits()));
        assert_eq!(bits(1000.0), Ok(fourth_row(1000.0).to_bits()));
        assert_eq!(bits(14.0_f64.next_down()), Err(5));
        assert_eq!(bits(1000.0_f64.next_up()), Err(5));
    }

    /// Document 01, "Errors that look right": a NaN slips past two comparisons.
    #[test]
    fn not_a_number() {
        for pattern in NOT_NUMBERS {
            for pattern in [pattern, pattern | SIGN] {
                let kelvin = f64::from_bits(pattern);
                assert!(kelvin.is_nan());
                assert_eq!(bits(kelvin), Err(5));
            }
        }
    }

    #[test]
    fn far_outside_the_range() {
        for size in [
            0.0,
            f64::from_bits(1),
            f64::MIN_POSITIVE.next_down(),
            f64::MIN_POSITIVE,
            f64::MAX,
            f64::INFINITY,
        ] {
            assert_eq!(bits(size), Err(5));
            assert_eq!(bits(-size), Err(5));
        }
        for kelvin in [-14.0, -40.0, -150.0, -500.0, -1000.0] {
            assert_eq!(bits(kelvin), Err(5));
        }
    }

    /// The order of the operations moves the last digits and nothing more.
    #[test]
    fn another_order_is_near() {
        for kelvin in whole_kelvins() {
            let heat = heat_capacity(kelvin).expect("a temperature in range");
            let other = by_powers(coefficients(row(kelvin)), kelvin);
            assert!((heat - other).abs() <= 1e-12 * heat, "{kelvin}");
        }
    }

    /// A comparison of bits tells the paper's order from each of these.
    #[test]
    fn another_order_has_other_bits() {
        assert_eq!(others(in_fixed_order), 0);
        assert!(others(fused) > 0);
        assert!(others(adding_first) > 0);
        assert!(others(by_powers) > 0);
    }

    /// Document 01: the first column is five halves of hydrogen's gas constant per kilogram to three
    /// figures. 8314 and 2.01594 are its gas constant and molar mass.
    #[test]
    fn first_column_is_five_halves_of_the_gas_constant() {
        let five_halves = 2.5 * 8.314 / 2.01594;
        assert_eq!(
            format!("{five_halves:.1}"),
            format!("{:.1}", first_row(14.0))
        );
    }

    /// Document 01: "The small jumps at 40, 150 and 500 stay." They also tell which of two exponents
    /// is the right one: TM-564 prints A5 of the second row with -8 in Table 4, and with -6 where
    /// Table 17 has the same coefficients.
    #[test]
    fn jumps_are_small() {
        let jump = |below: Row, above: Row, end: f64| (above(end) - below(end)).abs();
        assert!(jump(first_row, second_row, 40.0) < 0.1);
        assert!(jump(second_row, third_row, 150.0) < 0.1);
        assert!(jump(third_row, fourth_row, 500.0) < 0.1);
        let with_minus_6 = |t: f64| second_row(t) + (0.57121808e-6 - 0.57121808e-8) * t.powi(4);
        assert!((third_row(150.0) - with_minus_6(150.0)).abs() > 100.0);
    }
}
