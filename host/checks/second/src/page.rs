//! What the program `report` prints: one page about a whole sheet (document 02, C-21), a row for each figure and a column
//! for each fluid.

use crate::report::{report, Report, Section};
use crate::sheet::{self, SECTIONS};
use crate::state::FLUIDS;
use std::fmt::Display;

/// What stands before the names of the fluids.
const HEADING: &str = "gas densities in g/m3";

/// Of one section.
type Figure = fn(&Section) -> u64;

/// The words of each figure, in their order.
const ROWS: [(&str, Figure); 11] = [
    ("ONE", |section| section.one),
    ("SPLIT", |section| section.split),
    ("NO 21, too cold", |section| section.refused[0]),
    ("NO 22, too hot", |section| section.refused[1]),
    ("NO 31, pressure too low", |section| section.refused[2]),
    ("NO 32, pressure too high", |section| section.refused[3]),
    ("sum of gas densities", |section| section.sum),
    ("smallest gas density", |section| section.smallest.density),
    ("first on line", |section| section.smallest.line),
    ("largest gas density", |section| section.largest.density),
    ("first on line", |section| section.largest.line),
];

/// All that the program prints when this is its input: for a refused sheet what `sheet` does.
pub fn print(sheet: &[u8]) -> String {
    match report(sheet) {
        Ok(report) => page(&report),
        Err(_) => sheet::print(sheet),
    }
}

fn page(report: &Report) -> String {
    let heading = row(HEADING, FLUIDS.map(|fluid| fluid.name));
    let rows = ROWS.map(|(words, figure)| row(words, report.each_ref().map(figure)));
    [heading, rows.concat()].concat()
}

fn row<Cell: Display>(words: &str, cells: [Cell; SECTIONS]) -> String {
    let cells = cells.map(|cell| format!("{cell:>21}"));
    format!("{words:<24}{}\n", cells.concat())
}

#[cfg(test)]
mod tests {
    use super::*;
    use crate::sheet::EXAMPLE;

    #[test]
    fn page_of_the_example() {
        let expected = "\
gas densities in g/m3                hydrogen               oxygen             nitrogen
ONE                                         1                    1                    0
SPLIT                                       0                    1                    0
NO 21, too cold                             0                    1                    0
NO 22, too hot                              0                    0                    0
NO 31, pressure too low                     0                    0                    0
NO 32, pressure too high                    0                    0                    0
sum of gas densities                      804                30219                    0
smallest gas density                      804                12920                    0
first on line                               2                    4                    0
largest gas density                       804                17299                    0
first on line                               2                    5                    0
";
        assert_eq!(print(EXAMPLE), expected);
    }

    /// Twelve lines of 88 bytes each, whatever the figures are, the largest that a number can be among them.
    #[test]
    fn lines_of_a_page() {
        let mut full = Section {
            one: u64::MAX,
            sum: u64::MAX,
            ..Section::default()
        };
        full.largest.line = u64::MAX;
        for report in [Report::default(), [full; SECTIONS]] {
            let page = page(&report);
            assert_eq!(page.lines().count(), 12);
            assert!(page.split_inclusive('\n').all(|line| line.len() == 88));
            assert!(page.lines().all(|line| line.is_ascii()));
        }
    }

    /// The words as they are listed, and each figure beside its own.
    #[test]
    fn figures_beside_their_words() {
        let mut report = Report::default();
        let [.., nitrogen] = &mut report;
        nitrogen.one = 1;
        nitrogen.split = 2;
        nitrogen.refused = [3, 4, 5, 6];
        nitrogen.sum = 7;
        [nitrogen.smallest.density, nitrogen.smallest.line] = [8, 9];
        [nitrogen.largest.density, nitrogen.largest.line] = [10, 11];
        for (line, (words, figure)) in page(&report).lines().skip(1).zip(ROWS.iter().zip(1..)) {
            assert_eq!(line[..24].trim_end(), words.0);
            assert_eq!(
                line[24..].split_whitespace().collect::<Vec<_>>(),
                ["0", "0", &figure.to_string()]
            );
        }
    }

    #[test]
    fn refused_sheets() {
        assert_eq!(print(b""), "SHEET 6 0\n");
        assert_eq!(print(b"0\n0\n"), "SHEET 6 4\n");
        assert_eq!(print(b"0\n1\n120000 50000x\n0\n"), "SHEET 6 4\n");
        assert_eq!(print(&[b'0'; 65_537]), "SHEET 7 0\n");
    }
}
