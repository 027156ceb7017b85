//! Document 02, C-21: one page about a whole sheet. The states are listed with their lines; when the sheet is over, the
//! replies to those of a section are counted, added up and looked through, anew for each figure.

use crate::arrival::{Arrival, Fault};
use crate::sheet::{self, Refusal, State, LINE_END, SECTIONS};
use crate::state::{reply, Reply, FLUIDS, ONE, SPLIT};

/// The refusals of a state whose fluid is one.
const REFUSALS: [u64; 4] = [21, 22, 31, 32];

/// How many figures a section has, and how many all of them have.
pub const SECTION_FIGURES: usize = 11;
pub const FIGURES: usize = SECTIONS * SECTION_FIGURES;

/// What the states of each section come to, in the order of the sections.
pub type Report = [Section; SECTIONS];

#[derive(Clone, Copy, Debug, Default, PartialEq, Eq)]
pub struct Section {
    pub one: u64,
    pub split: u64,
    /// By each of the refusals.
    pub refused: [u64; REFUSALS.len()],
    /// Of the gas densities of the answered states.
    pub sum: u64,
    pub smallest: Reached,
    pub largest: Reached,
}

/// A gas density, and the line of a state that has it; zeros where no state was answered.
#[derive(Clone, Copy, Debug, Default, PartialEq, Eq)]
pub struct Reached {
    pub density: u64,
    pub line: u64,
}

impl Section {
    /// In the header's order.
    pub fn figures(&self) -> [u64; SECTION_FIGURES] {
        let [too_cold, too_hot, pressure_too_low, pressure_too_high] = self.refused;
        [
            self.one,
            self.split,
            too_cold,
            too_hot,
            pressure_too_low,
            pressure_too_high,
            self.sum,
            self.smallest.density,
            self.smallest.line,
            self.largest.density,
            self.largest.line,
        ]
    }
}

/// A state as written, and its line, counted from 1 through the whole sheet.
type Numbered = (u64, State);

/// The report of a whole sheet.
pub fn report(sheet: &[u8]) -> Result<Report, Fault> {
    report_by(sheet, |[fluid, millikelvin, pascals]| {
        reply(fluid, millikelvin, pascals)
    })
}

/// The same for whoever has the replies already.
pub fn report_by(sheet: &[u8], reply: impl FnMut([u64; 3]) -> Reply) -> Result<Report, Fault> {
    let states =
        sheet::read(sheet).map_err(|Refusal { number, place, .. }| Fault { number, place })?;
    Ok(sections(&numbered(sheet, states), reply))
}

/// The states of a good sheet, whose state lines are those with a space.
fn numbered(sheet: &[u8], states: Vec<State>) -> Vec<Numbered> {
    let lines = sheet.split(|&byte| byte == LINE_END);
    let numbers = (1..).zip(lines).filter(|(_, line)| line.contains(&b' '));
    numbers.map(|(number, _)| number).zip(states).collect()
}

fn sections(states: &[Numbered], mut reply: impl FnMut([u64; 3]) -> Reply) -> Report {
    FLUIDS.map(|fluid| {
        let of_fluid = states
            .iter()
            .filter(|(_, state)| state.fluid == fluid.number);
        let replies: Vec<(u64, Reply)> = of_fluid
            .map(|&(line, state)| (line, reply([state.fluid, state.millikelvin, state.pascals])))
            .collect();
        section(&replies)
    })
}

/// Of the replies with their lines.
fn section(replies: &[(u64, Reply)]) -> Section {
    let of_kind = |kind| count(replies, |reply| reply.kind == kind);
    let by_number = |number| count(replies, |reply| reply.number == number);
    let answered: Vec<Reached> = replies
        .iter()
        .filter(|(_, reply)| reply.number == 0)
        .map(|&(line, reply)| Reached {
            density: reply.gas_density,
            line,
        })
        .collect();
    let densities = || answered.iter().map(|answered| answered.density);
    Section {
        one: of_kind(ONE),
        split: of_kind(SPLIT),
        refused: REFUSALS.map(by_number),
        sum: densities().sum(),
        smallest: first_that_reaches(&answered, densities().min()),
        largest: first_that_reaches(&answered, densities().max()),
    }
}

fn count(replies: &[(u64, Reply)], counts: impl Fn(&Reply) -> bool) -> u64 {
    replies.iter().filter(|(_, reply)| counts(reply)).count() as u64
}

fn first_that_reaches(answered: &[Reached], density: Option<u64>) -> Reached {
    let mut reaching = answered.iter().filter(|one| Some(one.density) == density);
    reaching.next().copied().unwrap_or_default()
}

/// What came of a sheet so far that arrives in parts, with its states.
#[derive(Clone, Debug, Default, PartialEq, Eq)]
pub struct Reporting {
    arrival: Arrival,
    /// How many lines ended.
    lines: u64,
    states: Vec<Numbered>,
}

impl Reporting {
    /// Takes the whole part: the number of the fault that was met, or 16 for none.
    pub fn take(&mut self, part: &[u8]) -> u64 {
        let mut rest = part;
        loop {
            let (taken, told) = self.arrival.take(rest);
            let ends = rest[..taken].iter().filter(|&&byte| byte == LINE_END);
            self.lines += ends.count() as u64;
            rest = &rest[taken..];
            match told {
                Ok(state) => self.states.push((self.lines, state)),
                Err(number) => return number,
            }
        }
    }

    /// The report, if the sheet is over here.
    pub fn end(&self) -> Result<Report, Fault> {
        self.end_by(|[fluid, millikelvin, pascals]| reply(fluid, millikelvin, pascals))
    }

    /// As for `report_by`.
    pub fn end_by(&self, reply: impl FnMut([u64; 3]) -> Reply) -> Result<Report, Fault> {
        self.arrival.end()?;
        Ok(sections(&self.states, reply))
    }
}

#[cfg(test)]
mod tests {
    use super::*;
    use crate::arrival::USED_UP;
    use crate::random::Random;
    use crate::sheet::{state_lines, EXAMPLE, LONGEST};
    use crate::sheet_list::{full_sheet, list};
    use crate::state::{HIGHEST_PRESSURE, HOTTEST, HYDROGEN, LOWEST_PRESSURE, NITROGEN, OXYGEN};
    use crate::writer::section as written;

    const NOTHING: [u64; SECTION_FIGURES] = [0; SECTION_FIGURES];

    /// Every outcome in every section, with lines counted by hand: oxygen's and nitrogen's states are the worked ones,
    /// hydrogen's SPLIT one has the roots 87988 and 3197.
    const ALL_OUTCOMES: &[u8] = b"7
13999 1000000
300000 1000000
1000001 1000000
25000 200000
300000 9999
300000 50000001
1000000 10000
6
120000 500000
300000 1000000
55999 0
1000001 9999999999
56000 9999
56000 50000001
6
64000 9999
64000 50000001
63999 0
1000001 0
90000 300000
300000 1000000
";

    fn figures(sheet: &[u8]) -> Result<[[u64; SECTION_FIGURES]; SECTIONS], Fault> {
        report(sheet).map(|report| report.map(|section| section.figures()))
    }

    /// The figures of a section that this is, where the others are empty, so its first state is on the line behind
    /// its count.
    fn of_section(fluid: u64, states: &[[u64; 2]]) -> [u64; SECTION_FIGURES] {
        let mut sections = [(); SECTIONS].map(|()| written(&[]));
        sections[fluid as usize] = written(states);
        let all = figures(sections.concat().as_bytes()).expect("a good sheet");
        for (which, figures) in all.iter().enumerate() {
            assert!(which == fluid as usize || *figures == NOTHING);
        }
        all[fluid as usize]
    }

    #[test]
    fn example() {
        let expected = [
            [1, 0, 0, 0, 0, 0, 804, 804, 2, 804, 2],
            [1, 1, 1, 0, 0, 0, 12_920 + 17_299, 12_920, 4, 17_299, 5],
            NOTHING,
        ];
        assert_eq!(figures(EXAMPLE), Ok(expected));
    }

    #[test]
    fn all_outcomes() {
        let expected = [
            [2, 1, 1, 1, 1, 1, 804 + 2204 + 2, 2, 8, 2204, 5],
            [1, 1, 1, 1, 1, 1, 17_299 + 12_920, 12_920, 11, 17_299, 10],
            [1, 1, 1, 1, 1, 1, 12_246 + 11_269, 11_269, 22, 12_246, 21],
        ];
        assert_eq!(figures(ALL_OUTCOMES), Ok(expected));
    }

    /// The six counts are the section's own.
    #[test]
    fn counts_add_up() {
        let mut good = 0;
        for sheet in list() {
            let Ok(sections) = figures(&sheet) else {
                assert_eq!(state_lines(&sheet), 0);
                continue;
            };
            let counts = sections.iter().flat_map(|section| &section[..6]);
            assert_eq!(counts.sum::<u64>(), state_lines(&sheet) as u64);
            good += 1;
        }
        assert!(good > 200, "{good}");
    }

    /// No state at all, and none that is answered: a refused state has no density that could be the smallest.
    #[test]
    fn nothing_answered() {
        assert_eq!(figures(b"0\n0\n0\n"), Ok([NOTHING; 3]));
        let refused = [[63_999, 10_000], [0, 0], [1_000_001, 0], [64_000, 9999]];
        let expected = [0, 0, 2, 1, 1, 0, 0, 0, 0, 0, 0];
        assert_eq!(of_section(NITROGEN, &refused), expected);
        let before = [0, 0, 0, 1, 0, 0, 0, 0, 0, 0, 0];
        assert_eq!(of_section(NITROGEN, &refused[2..3]), before);
    }

    /// The one answered state is the smallest and the largest, whatever stands about it.
    #[test]
    fn one_answered() {
        let [refused, answered] = [[55_999, 0], [120_000, 500_000]];
        let split = |cold, line| [0, 1, cold, 0, 0, 0, 17_299, 17_299, line, 17_299, line];
        assert_eq!(of_section(OXYGEN, &[answered]), split(0, 3));
        assert_eq!(of_section(OXYGEN, &[refused, answered]), split(1, 4));
        assert_eq!(of_section(OXYGEN, &[answered, refused]), split(1, 3));
    }

    /// Of states that reach the same the first counts: the same state again, other ones of the same density, and ones of
    /// the other kind.
    #[test]
    fn first_of_several() {
        let [split, one, low] = [
            [120_000, 500_000],
            [300_000, 1_335_718],
            [300_000, 1_000_000],
        ];
        let both = |line| [17_299, line];
        for (states, smallest, largest) in [
            (&[split, split, split][..], both(3), both(3)),
            (&[split, one], both(3), both(3)),
            (&[one, split], both(3), both(3)),
            (&[low, split, low, one, low], [12_920, 3], both(4)),
            (&[one, low, split, low, one], [12_920, 4], both(3)),
        ] {
            let [.., density, line, largest_density, largest_line] = of_section(OXYGEN, states);
            assert_eq!([density, line], smallest, "{states:?}");
            assert_eq!([largest_density, largest_line], largest, "{states:?}");
        }
        let hot = [[HOTTEST, 12_000], [HOTTEST, 10_000], [HOTTEST - 1, 10_000]];
        let expected = [3, 0, 0, 0, 0, 0, 6, 2, 2, 2, 2];
        assert_eq!(of_section(HYDROGEN, &hot), expected);
    }

    /// The gas side alone counts: this state's dense density is 739,841.
    #[test]
    fn gas_side_of_a_split_state() {
        let expected = [0, 1, 0, 0, 0, 0, 12_246, 12_246, 4, 12_246, 4];
        assert_eq!(of_section(NITROGEN, &[[90_000, 300_000]]), expected);
    }

    /// As many states as a section can have, each the coldest at the highest pressure, and the last of them then the
    /// hottest at the lowest one, where the density is not 0 either.
    #[test]
    fn ends_of_the_ranges() {
        for (fluid, thin, dense) in [
            (HYDROGEN, 2, 84_975),
            (OXYGEN, 38, 1_340_834),
            (NITROGEN, 33, 933_363),
        ] {
            let coldest = reply(fluid, FLUIDS[fluid as usize].coldest, HIGHEST_PRESSURE);
            let hottest = reply(fluid, HOTTEST, LOWEST_PRESSURE);
            let mut replies: Vec<(u64, Reply)> = (7..).zip([coldest; 1000]).collect();
            let expected = [1000, 0, 0, 0, 0, 0, 1000 * dense, dense, 7, dense, 7];
            assert_eq!(section(&replies).figures(), expected);
            replies[999].1 = hottest;
            let sum = 999 * dense + thin;
            let expected = [1000, 0, 0, 0, 0, 0, sum, thin, 1006, dense, 7];
            assert_eq!(section(&replies).figures(), expected);
        }
    }

    #[test]
    fn refused_sheets() {
        let malformed = |place| Err(Fault { number: 6, place });
        assert_eq!(figures(b""), malformed(0));
        assert_eq!(figures(b"1\n300000 1000000\n0\n"), malformed(19));
        assert_eq!(figures(b"1\n300000 1000000\n0\n0\n\n"), malformed(21));
        let too_long = Err(Fault {
            number: 7,
            place: 0,
        });
        assert_eq!(figures(&full_sheet(LONGEST + 1)), too_long);
    }

    /// What is said of the parts, each of which must be used up.
    fn in_parts<'a>(parts: impl IntoIterator<Item = &'a [u8]>) -> (u64, Result<Report, Fault>) {
        let mut reporting = Reporting::default();
        let mut number = USED_UP;
        for part in parts {
            number = reporting.take(part);
        }
        (number, reporting.end())
    }

    /// In two parts of every length, and in single bytes with empty parts between.
    #[test]
    fn cut_everywhere() {
        for sheet in [EXAMPLE, ALL_OUTCOMES, b"0\n0\n0\n"] {
            let expected = (USED_UP, report(sheet));
            assert!(expected.1.is_ok());
            for place in 0..=sheet.len() {
                assert_eq!(in_parts([&sheet[..place], &sheet[place..]]), expected);
            }
            let single = sheet.chunks(1).flat_map(|byte| [byte, &[]]);
            assert_eq!(in_parts(single), expected);
        }
    }

    /// Every beginning of a good sheet, and every sheet of the list, is told of as the whole sheet is.
    #[test]
    fn in_parts_as_whole() {
        let mut random = Random(21);
        let beginnings = (0..ALL_OUTCOMES.len()).map(|length| ALL_OUTCOMES[..length].to_vec());
        for sheet in list().into_iter().chain(beginnings) {
            let (_, end) = in_parts(sheet.chunks(1 + random.number() as usize % 9));
            assert_eq!(end, report(&sheet), "{}", sheet.escape_ascii());
        }
    }

    /// A fault is told from its byte on, and nothing mends it.
    #[test]
    fn faults_in_parts() {
        let parts: [&[u8]; 5] = [b"0\n0\n1\n7 ", b"8", b"\n", b"", b"0"];
        let mut reporting = Reporting::default();
        let numbers = parts.map(|part| reporting.take(part));
        assert_eq!(numbers, [16, 16, 16, 16, 6]);
        assert_eq!(reporting.take(b"\n0\n0\n0\n"), 6);
        let fault = Fault {
            number: 6,
            place: 10,
        };
        assert_eq!(reporting.end(), Err(fault));
        let long = full_sheet(LONGEST + 1);
        let (whole, last) = long.split_at(LONGEST);
        assert_eq!(in_parts([whole]).0, USED_UP);
        assert_eq!(in_parts([whole, last]), (7, report(&long)));
    }

    /// The end may be asked for anywhere: it changes nothing.
    #[test]
    fn gone_on_from_a_copy() {
        let mut reporting = Reporting::default();
        reporting.take(&EXAMPLE[..20]);
        let mut copy = reporting.clone();
        let missing = Fault {
            number: 6,
            place: 19,
        };
        assert_eq!(reporting.end(), Err(missing));
        assert_eq!(copy.take(&EXAMPLE[20..]), USED_UP);
        assert_eq!(copy.end(), report(EXAMPLE));
        assert_eq!(reporting.end(), Err(missing));
    }
}
