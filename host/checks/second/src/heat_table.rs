//! Document 02, C-17: hydrogen's ideal heat capacity from a table of whole J/(kg K). An entry is the polynomial of
//! Table 4 at a whole kelvin, worked out in exact fractions and rounded down; between two of them it is the straight
//! line, rounded down too.

use crate::fraction::Fraction;
use crate::heat::{row, TABLE_4};
use crate::state::{FLUIDS, HOTTEST, HYDROGEN};
use std::ops::RangeInclusive;
use std::sync::LazyLock;

/// The lowest millikelvin, which is in range, as the highest is: "21 and 22 as for hydrogen".
pub const COLDEST: u64 = FLUIDS[HYDROGEN as usize].coldest;

/// The table. It is worked out once, since the comparison asks for every millikelvin.
static ENTRIES: LazyLock<Vec<u64>> = LazyLock::new(|| {
    // a double holds each of these kelvins as it is
    let entries = whole_kelvins().map(|kelvin| entry(row(kelvin as f64), kelvin));
    entries.collect()
});

/// In J/(kg K), or the number of the refusal.
pub fn tabled_heat_capacity(millikelvin: u64) -> Result<u64, u64> {
    if millikelvin < COLDEST {
        return Err(21);
    }
    if millikelvin > HOTTEST {
        return Err(22);
    }
    let (kelvin, past) = (millikelvin / 1000, millikelvin % 1000);
    // the last kelvin has no neighbour above, and is a whole one
    if past == 0 {
        return Ok(entry_at(kelvin));
    }
    let thousandths = entry_at(kelvin) * (1000 - past) + entry_at(kelvin + 1) * past;
    Ok(thousandths / 1000)
}

/// Those of the table.
pub fn whole_kelvins() -> RangeInclusive<u64> {
    COLDEST / 1000..=HOTTEST / 1000
}

fn entry_at(kelvin: u64) -> u64 {
    ENTRIES[(kelvin - whole_kelvins().start()) as usize]
}

/// By a row of Table 4.
fn entry(row: usize, kelvin: u64) -> u64 {
    let heat = polynomial(row, Fraction::new(kelvin.into(), 1));
    u64::try_from(heat.parts(1000)).expect("a heat capacity above 0")
}

/// In kJ/(kg K). The table has the coefficient of the highest power last.
fn polynomial(row: usize, kelvin: Fraction) -> Fraction {
    Fraction::polynomial(TABLE_4[row].split(' ').rev(), kelvin)
}

#[cfg(test)]
mod tests {
    use super::*;
    use crate::heat::heat_capacity;

    fn heat(millikelvin: u64) -> u64 {
        tabled_heat_capacity(millikelvin).expect("a temperature in range")
    }

    /// Each row holds its upper end, which the next one has otherwise; but for 500 K, where the two differ by
    /// less than what is rounded off.
    #[test]
    fn ends_of_the_rows() {
        for (end, entry_of_end, by_the_next_row, entry_above) in [
            (40, 10_312, 10_347, 10_330),
            (150, 16_204, 16_205, 16_208),
            (500, 14_515, 14_515, 14_515),
        ] {
            let next_row = row(end as f64) + 1;
            assert_eq!(heat(1000 * end), entry_of_end);
            assert_eq!(entry(next_row, end), by_the_next_row);
            assert_eq!(heat(1000 * (end + 1)), entry_above);
            assert_eq!(entry(next_row, end + 1), entry_above);
        }
    }

    /// At 14 K the polynomial is 10.3121, and at 1000 K 15.133655805.
    #[test]
    fn ends_of_the_range() {
        assert_eq!(heat(14_000), 10_312);
        assert_eq!(heat(999_999), 15_132);
        assert_eq!(heat(1_000_000), 15_133);
        for millikelvin in [0, 1, 13_999] {
            assert_eq!(tabled_heat_capacity(millikelvin), Err(21));
        }
        for millikelvin in [1_000_001, (1 << 32) + 300_000, 1 << 63, u64::MAX] {
            assert_eq!(tabled_heat_capacity(millikelvin), Err(22));
        }
    }

    /// The sum and the sum of kelvin times entry are those of the table that host/checks/heat_table.py prints.
    #[test]
    fn entries() {
        assert_eq!(ENTRIES.len(), 987);
        assert_eq!(ENTRIES.iter().sum::<u64>(), 14_389_564);
        let weighted = whole_kelvins().map(|kelvin| kelvin * entry_at(kelvin));
        assert_eq!(weighted.sum::<u64>(), 7_414_276_005);
        for kelvin in whole_kelvins() {
            assert_eq!(heat(1000 * kelvin), entry_at(kelvin));
        }
    }

    /// From 40 to 41 K the table rises from 10312 to 10330, and from there to 42 K it falls to 10316: down is
    /// towards 0 in both. It falls on a quarter of all kelvins.
    #[test]
    fn where_the_table_rises_and_falls() {
        for (millikelvin, expected) in [
            (40_001, 10_312),
            (40_500, 10_321),
            (40_999, 10_329),
            (41_000, 10_330),
            (41_001, 10_329),
            (41_500, 10_323),
            (41_999, 10_316),
            (42_000, 10_316),
        ] {
            assert_eq!(heat(millikelvin), expected, "{millikelvin}");
        }
        let falls = ENTRIES.windows(2).filter(|pair| pair[1] < pair[0]).count();
        let stays = ENTRIES.windows(2).filter(|pair| pair[1] == pair[0]).count();
        assert_eq!((falls, stays), (247, 57));
    }

    /// The two entries beside a temperature, and how far it is past the first.
    fn neighbours(millikelvin: u64) -> (i64, i64, i64) {
        let kelvin = millikelvin / 1000;
        let above = (kelvin + 1).min(*whole_kelvins().end());
        let [left, right] = [kelvin, above].map(|kelvin| entry_at(kelvin) as i64);
        (left, right, (millikelvin % 1000) as i64)
    }

    /// C-17: "it lies between those two entries, ends included".
    #[test]
    fn between_the_neighbours() {
        for millikelvin in COLDEST..=HOTTEST {
            let (left, right, _) = neighbours(millikelvin);
            let between = left.min(right)..=left.max(right);
            let heat = heat(millikelvin) as i64;
            assert!(between.contains(&heat), "{millikelvin}");
        }
    }

    /// At how many temperatures of the range this way from one entry to the next gives another answer.
    fn others(way: impl Fn((i64, i64, i64)) -> i64) -> usize {
        (COLDEST..=HOTTEST)
            .filter(|&millikelvin| way(neighbours(millikelvin)) != heat(millikelvin) as i64)
            .count()
    }

    /// A comparison over the range tells the paper's way from each of these.
    #[test]
    fn other_ways_have_other_answers() {
        let line = |(left, right, past)| 1000 * left + (right - left) * past;
        assert_eq!(others(|beside| line(beside).div_euclid(1000)), 0);
        assert_eq!(others(|beside| (line(beside) + 500) / 1000), 464_284);
        assert_eq!(others(|beside| (line(beside) + 999) / 1000), 926_879);
        let towards_the_first = |(left, right, past)| left + (right - left) * past / 1000;
        assert_eq!(others(towards_the_first), 246_232);
        let swapped = |(left, right, past)| line((right, left, past)) / 1000;
        assert_eq!(others(swapped), 502_403);
        assert_eq!(others(|(left, ..)| left), 452_161);
    }

    /// Nor is it the polynomial itself, which leaves the first row at once above 40 K, nor the line between
    /// entries that are not rounded.
    #[test]
    fn the_line_is_between_rounded_entries() {
        assert_eq!(polynomial(1, Fraction::new(81, 2)).parts(1000), 10_338);
        assert_eq!(heat(40_500), 10_321);
        let [left, right] = [999, 1000].map(|kelvin| polynomial(3, Fraction::new(kelvin, 1)));
        let unrounded = left + (right - left) * Fraction::printed("0.999");
        assert_eq!(unrounded.parts(1000), 15_133);
        assert_eq!(heat(999_999), 15_132);
    }

    #[test]
    fn rounded_down() {
        let nearest = |kelvin: u64| (1000.0 * double(kelvin)).round() as u64;
        let others = whole_kelvins().filter(|&kelvin| nearest(kelvin) != entry_at(kelvin));
        assert_eq!(others.count(), 459);
    }

    fn double(kelvin: u64) -> f64 {
        heat_capacity(kelvin as f64).expect("a temperature in range")
    }

    /// What the table leaves off the double form, in J/(kg K), is what was rounded off: the doubles' own error
    /// is far smaller, and no entry is so near to a whole number that it could matter.
    #[test]
    fn beside_the_double_form() {
        let left_off = |kelvin: u64| 1000.0 * double(kelvin) - entry_at(kelvin) as f64;
        let by_size = |one: &u64, other: &u64| left_off(*one).total_cmp(&left_off(*other));
        let least = whole_kelvins().min_by(by_size).expect("a kelvin");
        let most = whole_kelvins().max_by(by_size).expect("a kelvin");
        assert_eq!((least, most), (80, 804));
        assert_eq!(format!("{:.6}", left_off(least)), "0.000583");
        assert_eq!(format!("{:.6}", left_off(most)), "0.998880");
    }
}
