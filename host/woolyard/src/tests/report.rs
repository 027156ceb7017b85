//! Reports on sheets.

use super::*;
use boundary::{REPORT, REPORTING};
use std::cmp::Reverse;

/// Of a section without states.
const NOTHING: SectionReport = SectionReport {
    one: 0,
    split: 0,
    temperature_too_low: 0,
    temperature_too_high: 0,
    pressure_too_low: 0,
    pressure_too_high: 0,
    sum: 0,
    smallest: None,
    largest: None,
};

fn reached(density: u64, line: u64) -> Option<Reached> {
    Some(Reached { density, line })
}

/// Each refusal once or more often, and both kinds, some of them with one density in several lines.
const MIXED: &[u8] = b"3
13999 0
300000 1000000
1000001 0
8
300000 1000000
120000 500000
300000 1000000
120000 500000
56000 9999
56000 0
56000 50000001
55999 50000001
2
63999 0
64000 9999
";

fn report_of_mixed() -> Report {
    Report {
        parahydrogen: SectionReport {
            one: 1,
            temperature_too_low: 1,
            temperature_too_high: 1,
            sum: 804,
            smallest: reached(804, 3),
            largest: reached(804, 3),
            ..NOTHING
        },
        oxygen: SectionReport {
            one: 2,
            split: 2,
            temperature_too_low: 1,
            pressure_too_low: 2,
            pressure_too_high: 1,
            sum: 2 * (12_920 + 17_299),
            smallest: reached(12_920, 6),
            largest: reached(17_299, 7),
            ..NOTHING
        },
        nitrogen: SectionReport {
            temperature_too_low: 1,
            pressure_too_low: 1,
            ..NOTHING
        },
    }
}

#[test]
fn report_of_the_example() {
    let expected = Report {
        parahydrogen: SectionReport {
            one: 1,
            sum: 804,
            smallest: reached(804, 2),
            largest: reached(804, 2),
            ..NOTHING
        },
        oxygen: SectionReport {
            one: 1,
            split: 1,
            temperature_too_low: 1,
            sum: 12_920 + 17_299,
            smallest: reached(12_920, 4),
            largest: reached(17_299, 5),
            ..NOTHING
        },
        nitrogen: NOTHING,
    };
    assert_eq!(report(EXAMPLE), Ok(expected));
    let sections = Fluid::ALL.map(|fluid| *expected.section(fluid));
    let Report {
        parahydrogen,
        oxygen,
        nitrogen,
    } = expected;
    assert_eq!(sections, [parahydrogen, oxygen, nitrogen]);
}

#[test]
fn report_of_every_reply() {
    let report = report(MIXED).expect("a report");
    assert_eq!(report, report_of_mixed());
    let counts = |fluid| {
        let section = report.section(fluid);
        (section.refused(), section.states())
    };
    assert_eq!(Fluid::ALL.map(counts), [(2, 3), (4, 8), (2, 2)]);
}

/// The first line that reaches it, wherever in its section that stands and whatever is beside it.
#[test]
fn lines_that_reach_a_density() {
    let [low, high, refused] = ["300000 1000000\n", "120000 500000\n", "55999 500000\n"];
    for (lines, smallest, largest) in [
        ([low, low, high, high], 3, 5),
        ([high, high, low, low], 5, 3),
        ([refused, low, high, low], 4, 5),
        ([refused, high, low, high], 5, 4),
        ([low, high, low, refused], 3, 4),
        ([low, refused, low, refused], 3, 3),
        ([refused, refused, refused, high], 6, 6),
    ] {
        let text = format!("0\n4\n{}0\n", lines.concat());
        let oxygen = report(text.as_bytes()).expect("a report").oxygen;
        let line = |reached: Option<Reached>| reached.map(|reached| reached.line);
        let told = [oxygen.smallest, oxygen.largest].map(line);
        assert_eq!(told, [Some(smallest), Some(largest)], "{text}");
    }
}

/// A section's figures are its own: only one has a state, behind the counts of those before it.
#[test]
fn sections_of_a_report() {
    for (fluid, density) in Fluid::ALL.into_iter().zip([804, 12_920, 11_269]) {
        let rows = [state_of(fluid, 300_000, 1_000_000)];
        let sheet = write_sheet(&rows).expect("a sheet");
        let report = report(&sheet).expect("a report");
        let line = fluid.number() + 2;
        for other in Fluid::ALL {
            let one = SectionReport {
                one: 1,
                sum: density,
                smallest: reached(density, line),
                largest: reached(density, line),
                ..NOTHING
            };
            let expected = if other == fluid { one } else { NOTHING };
            assert_eq!(*report.section(other), expected);
        }
    }
}

/// A line's number and the reply to its state.
type NumberedReply = (u64, Result<Answer, Refusal>);

/// What these replies come to, each figure by itself.
fn section_of(replies: &[NumberedReply]) -> SectionReport {
    let kinds = |kind| {
        let answers = replies.iter().filter_map(|(_, reply)| reply.ok());
        answers.filter(|answer| answer.kind == kind).count() as u64
    };
    let refused = |refusal| {
        let refusals = replies.iter().filter_map(|(_, reply)| reply.err());
        refusals.filter(|other| *other == refusal).count() as u64
    };
    let answered = replies.iter().filter_map(|&(line, reply)| {
        let density = reply.ok()?.gas_density;
        Some(Reached { density, line })
    });
    let densities = answered.clone().map(|reached| reached.density);
    let smallest = answered.clone();
    SectionReport {
        one: kinds(Kind::One),
        split: kinds(Kind::Split),
        temperature_too_low: refused(Refusal::TemperatureTooLow),
        temperature_too_high: refused(Refusal::TemperatureTooHigh),
        pressure_too_low: refused(Refusal::PressureTooLow),
        pressure_too_high: refused(Refusal::PressureTooHigh),
        sum: densities.sum(),
        smallest: smallest.min_by_key(|reached| (reached.density, reached.line)),
        largest: answered.max_by_key(|reached| (reached.density, Reverse(reached.line))),
    }
}

/// What the replies to the states of a sheet come to. Before state k of it stand k others, and the counts of its section and
/// of those before that.
fn by_replies(text: &[u8]) -> Report {
    let states = Vec::from_iter((0..).map_while(|k| sheet_line(text, k).ok()));
    let section = |fluid: Fluid| {
        let own = (0..).zip(&states).filter(|(_, state)| state.fluid == fluid);
        let replies = own.map(|(k, state)| {
            let reply = super::state(fluid, state.millikelvin, state.pascals);
            (k + fluid.number() + 2, reply)
        });
        section_of(&Vec::from_iter(replies))
    };
    Report {
        parahydrogen: section(Fluid::Parahydrogen),
        oxygen: section(Fluid::Oxygen),
        nitrogen: section(Fluid::Nitrogen),
    }
}

/// As many states of each fluid as a section may have: over temperatures and pressures that are in range and not, whose
/// densities come several times, and all at the coldest and the highest, where the sum is the largest.
#[test]
fn reports_of_full_sections() {
    let states = |millikelvin: fn(u64) -> u64, pascals: fn(u64) -> u64| {
        let rows = Fluid::ALL.into_iter().flat_map(|fluid| {
            (0..SECTION_MOST_STATES as u64)
                .map(move |k| state_of(fluid, millikelvin(k), pascals(k)))
        });
        write_sheet(&Vec::from_iter(rows)).expect("a sheet")
    };
    let spread = states(
        |k| 10_000 + 5000 * (k * 7 % 210),
        |k| 9_000 + 500_000 * (k * 11 % 103),
    );
    let densest = states(|_| 64_000, |_| 50_000_000);
    for sheet in [&spread, &densest, EXAMPLE, MIXED, b"0\n0\n0\n"] {
        assert_eq!(report(sheet), Ok(by_replies(sheet)));
    }
    let oxygen = report(&spread).expect("a report").oxygen;
    assert!(oxygen.one > 0 && oxygen.split > 0 && oxygen.refused() > 0);
    let answer = super::state(Fluid::Nitrogen, 64_000, 50_000_000).expect("an answer");
    let nitrogen = report(&densest).expect("a report").nitrogen;
    let first = reached(answer.gas_density, 2004);
    assert_eq!((nitrogen.smallest, nitrogen.largest), (first, first));
    assert_eq!(nitrogen.sum, 1000 * answer.gas_density);
}

/// What is said at the end of a sheet in these parts.
fn report_in_parts(list: &[&[u8]]) -> Result<Report, Fault> {
    let mut reporting = Reporting::default();
    for part in list {
        let _ = reporting.take(part);
    }
    reporting.end()
}

/// The fault that `sheet` tells of a sheet, or what its states come to.
fn expected(text: &[u8]) -> Result<Report, Fault> {
    whole(text).map(|_| by_replies(text))
}

/// Whole, and in three parts cut at every two places, which leaves some of them empty.
#[test]
fn reports_cut_anywhere() {
    let faulty = FAULTY.map(|(text, ..)| text);
    for text in [&faulty[..], &UNFINISHED, &[EXAMPLE, MIXED, b"0\n0\n0\n"]].concat() {
        let expected = expected(text);
        assert_eq!(report(text), expected, "{}", text.escape_ascii());
        for second in 0..=text.len() {
            let (before, last) = text.split_at(second);
            for first in 0..=second {
                let (first, middle) = before.split_at(first);
                assert_eq!(report_in_parts(&[first, middle, last]), expected);
            }
        }
    }
}

/// At every place what is said of the sheet so far, whole and in parts.
#[test]
fn report_byte_by_byte() {
    let mut reporting = Reporting::default();
    for (place, byte) in MIXED.iter().enumerate() {
        let so_far = &MIXED[..place];
        assert_eq!(reporting.end(), expected(so_far));
        assert_eq!(report(so_far), expected(so_far));
        assert_eq!(reporting.take(&[*byte]), Ok(()));
    }
    assert_eq!(reporting.end(), Ok(report_of_mixed()));
}

/// The byte at which a fault is met. Behind it every part brings the fault, and so the end.
fn report_met(text: &[u8]) -> Option<(usize, Fault)> {
    let mut reporting = Reporting::default();
    let place = text
        .iter()
        .position(|byte| reporting.take(&[*byte]).is_err())?;
    let fault = reporting.end().expect_err("a fault");
    for part in [&text[place + 1..], EXAMPLE, &[7; SHEET_MOST_BYTES], b""] {
        assert_eq!(reporting.take(part), Err(fault));
        assert_eq!(reporting.end(), Err(fault));
    }
    Some((place, fault))
}

/// At the byte at which the same sheet in parts meets it.
#[test]
fn where_a_report_meets_a_fault() {
    let faulty = FAULTY.map(|(text, ..)| text);
    for text in [&faulty[..], &UNFINISHED, &[EXAMPLE, MIXED, &[b'7'; 22]]].concat() {
        assert_eq!(report_met(text), met(text), "{}", text.escape_ascii());
    }
}

/// Of as many bytes as a sheet may have, and one more; 7 comes before 6 of the whole, but in parts what was met before stays.
#[test]
fn longest_sheet_reported() {
    let [widest, longest] = widest_and_longest();
    let expected = by_replies(longest.as_bytes());
    let refused = (
        expected.parahydrogen.temperature_too_low,
        expected.parahydrogen.temperature_too_high,
    );
    assert_eq!(refused, (27, 973));
    assert_eq!(report(longest.as_bytes()), Ok(expected));
    assert_eq!(report_in_parts(&[longest.as_bytes()]), Ok(expected));
    for behind in ["0", "\n", "x"] {
        let text = format!("{longest}{behind}");
        let fault = Fault::TooLong;
        assert_eq!(report(text.as_bytes()), Err(fault));
        assert_eq!(report_met(text.as_bytes()), Some((SHEET_MOST_BYTES, fault)));
    }
    assert_eq!(report(widest.as_bytes()), Err(Fault::TooLong));
    assert_eq!(report_in_parts(&[widest.as_bytes()]), Err(Fault::TooLong));
    let sevens = [b'7'; SHEET_MOST_BYTES + 1];
    assert_eq!(report(&sevens), Err(Fault::TooLong));
    let malformed = Err(Fault::Malformed { place: 0 });
    assert_eq!(report_in_parts(&[&sevens]), malformed);
}

/// From every place, with the numbers stored, and with what a clone has taken lost.
#[test]
fn reporting_stored_and_gone_on_from() {
    for place in 0..=MIXED.len() {
        let (before, rest) = MIXED.split_at(place);
        let mut reporting = Reporting::default();
        assert_eq!(reporting.take(before), Ok(()));
        let mut other = reporting.clone();
        assert!(other.take(b"no sheet\n").is_err());
        let mut stored = Reporting::from(reporting.numbers());
        for reporting in [&mut reporting, &mut stored] {
            assert_eq!(reporting.take(rest), Ok(()));
            assert_eq!(reporting.end(), Ok(report_of_mixed()));
        }
    }
}

/// Every place, whatever it held before; of a refused sheet zeros, also where states were answered before the fault.
#[test]
fn places_written_for_a_report() {
    let mut example = [0; REPORT];
    example[..11].copy_from_slice(&[1, 0, 0, 0, 0, 0, 804, 804, 2, 804, 2]);
    example[11..22].copy_from_slice(&[1, 1, 1, 0, 0, 0, 30_219, 12_920, 4, 17_299, 5]);
    let none = [0; REPORT];
    let [_, longest] = widest_and_longest();
    let too_long = format!("{longest}0");
    for (text, taken, told) in [
        (EXAMPLE, 16, (0, example, 0)),
        (b"0\n0\n0\n", 16, (0, none, 0)),
        (b"", 16, (6, none, 0)),
        (&EXAMPLE[..30], 16, (6, none, 19)),
        (b"1\n300000 1000000\nx\n", 6, (6, none, 17)),
        (too_long.as_bytes(), 7, (7, none, 0)),
    ] {
        let (mut report, mut place) = ([7; REPORT], 7);
        let number = boundary::report(text, &mut report, &mut place);
        assert_eq!((number, report, place), told);
        let mut reporting = [0; REPORTING];
        assert_eq!(boundary::report_take(&mut reporting, text), taken);
        let (mut report, mut place) = ([7; REPORT], 7);
        let number = boundary::report_end(&reporting, &mut report, &mut place);
        assert_eq!((number, report, place), told);
    }
}

/// Numbers that no sheet has left are taken too, and whatever is said of them is no more than numbers.
#[test]
fn any_numbers_as_reporting() {
    for number in [1, 3, 6, 7, 16, 1000, 65_536, 65_537, 1 << 32, u64::MAX] {
        let mut kept = vec![[number; REPORTING]];
        for which in 0..REPORTING {
            let mut one = [0; REPORTING];
            one[which] = number;
            let mut but_one = [number; REPORTING];
            but_one[which] = 0;
            kept.extend([one, but_one]);
        }
        for numbers in kept {
            let mut reporting = Reporting::from(numbers);
            assert_eq!(reporting.numbers(), numbers);
            for part in [&b""[..], MIXED, b"0\n0\n0\n"] {
                let _ = reporting.take(part);
                if let Ok(report) = reporting.end() {
                    let counts = Fluid::ALL.map(|fluid| report.section(fluid));
                    assert!(counts.iter().all(|own| own.states() >= own.refused()));
                }
            }
        }
    }
}
