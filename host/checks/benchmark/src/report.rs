//! What was measured: the tables of docs/BENCHMARK.md, and the bars.

use crate::bands::Bands;
use crate::claims::Claims;
use crate::contenders::Timings;
use crate::floors::{with_a_zero, Difference};
use crate::neighbours::Neighbours;
use crate::next_lines::NextLines;
use crate::parts::{InParts, OfSheet, SIZES};
use crate::processor::Processor;
use crate::programs::{UserTimes, PROVED_RUNS, SECOND_RUNS};
use crate::rounds::{Compared, Timing};
use crate::sheet_reports::{OnSheet, SheetReports, PART_SIZES};
use crate::streams::Streams;
use crate::walks::Walks;
use crate::writing::Writing;
use second::state::FLUIDS;
use std::fmt::{Formatter, Result};

/// Everything of one run. The first four say how many states something was done on.
pub struct Report {
    pub timed: usize,
    pub split: usize,
    pub scanned: usize,
    pub counted: usize,
    pub processor: Processor,
    pub timings: Timings,
    pub streams: Streams,
    pub neighbours: Neighbours,
    pub walks: Walks,
    pub bands: Bands,
    pub claims: Claims,
    pub writing: Writing,
    pub next_lines: NextLines,
    pub in_parts: InParts,
    pub sheet_reports: SheetReports,
    pub scan: f64,
    pub programs: UserTimes,
    pub solver: Vec<Difference>,
    pub peer: Vec<Difference>,
}

/// The most that a proved call may take beside the job in doubles, by the kind of processor.
pub const MOST_WHERE_QUICK: f64 = 1.1;
pub const MOST_WHERE_SLOW: f64 = 1.25;

/// A measured ratio, and the most it may be.
pub struct Bar {
    of: &'static str,
    ratio: f64,
    most: f64,
}

impl Bar {
    pub fn met(&self) -> bool {
        self.ratio <= self.most
    }
}

impl Report {
    pub fn all_bars_met(&self) -> bool {
        self.bars().iter().all(Bar::met)
    }

    pub fn bars(&self) -> [Bar; 12] {
        let bar = |of, above: f64, below: f64, most| Bar {
            of,
            ratio: above / below,
            most,
        };
        let (beside_doubles, most) = if self.processor.is_quick() {
            ("proved call / GSL, on a quick processor", MOST_WHERE_QUICK)
        } else {
            ("proved call / GSL, on a slow processor", MOST_WHERE_SLOW)
        };
        let times = &self.timings;
        let [call, zeros] = [times.call.median, times.zeros.median];
        let bands = &self.bands;
        let without_densities = bands.without_densities.median;
        let UserTimes { proved, second } = self.programs;
        [
            bar(beside_doubles, call, times.peer.median, most),
            bar(
                "gas side alone / proved call",
                times.gas_beside_call,
                1.0,
                1.0,
            ),
            bar(
                "dense side alone / proved call",
                times.dense_beside_call,
                1.0,
                1.0,
            ),
            bar("own gas root / zeros", times.own_start.median, zeros, 0.8),
            bar(
                "stranger's gas root / zeros",
                times.strangers_start.median,
                zeros,
                1.1,
            ),
            bar(
                "band from 950 to 1050 / call without densities",
                bands.narrow.median,
                without_densities,
                2.0,
            ),
            bar(
                "band from 500 to 1500 / call without densities",
                bands.widest.median,
                without_densities,
                2.0,
            ),
            bar(
                "writing a sheet / reading it",
                self.writing.write_beside_read,
                1.0,
                3.0,
            ),
            bar(
                "walking over a sheet / reading it",
                self.next_lines.accepted.beside_reading.ratio,
                1.0,
                3.0,
            ),
            bar(
                "taking a sheet in a part of 65,536 bytes / reading it",
                self.in_parts.refused.one_part().ratio,
                1.0,
                1.3,
            ),
            bar(
                "report on a sheet / reading it and answering its states",
                self.sheet_reports.accepted.beside_answering.ratio,
                1.0,
                1.2,
            ),
            bar(
                "program `sheet` / second implementation's",
                proved,
                second,
                2.0,
            ),
        ]
    }

    pub fn write_times(&self, out: &mut Formatter) -> Result {
        let times = &self.timings;
        let rows = [
            ("proved call, `woolyard_state`", times.call),
            (
                "proved call for the gas side alone, `woolyard_side`",
                times.gas_side,
            ),
            (
                "proved call for the dense side alone, `woolyard_side`",
                times.dense_side,
            ),
            (
                "proved call with a book, its own gas root in the slot",
                times.own_start,
            ),
            (
                "proved call with a book, a stranger's gas root in the slot",
                times.strangers_start,
            ),
            ("proved call with a book, zeros", times.zeros),
            (
                "the same job in doubles, with GSL's `gsl_poly_solve_cubic`",
                times.peer,
            ),
        ];
        writeln!(out, "| what | median round | quickest round |")?;
        writeln!(out, "|---|---:|---:|")?;
        for (what, Timing { median, quickest }) in rows {
            writeln!(out, "| {what} | {median:.1} | {quickest:.1} |")?;
        }
        let scan = grouped(self.scan.round() as usize);
        writeln!(out, "| the plain scan, in one pass | {scan} | |")
    }

    pub fn write_streams(&self, out: &mut Formatter) -> Result {
        let Streams { of_fluids, mixed } = &self.streams;
        let fluids = FLUIDS.iter().zip(of_fluids);
        let alone = fluids.map(|(fluid, compared)| (format!("{} alone", fluid.name), compared));
        let mixed = ("all fluids mixed".to_string(), mixed);
        write_beside_doubles(out, alone.chain([mixed]))
    }

    pub fn write_neighbours(&self, out: &mut Formatter) -> Result {
        let fluids = FLUIDS.iter().zip(&self.neighbours.of_fluids);
        let rows = fluids.flat_map(|(fluid, calls)| {
            [
                (
                    format!("{}, without a book", fluid.name),
                    &calls.without_book,
                ),
                (format!("{}, with a book", fluid.name), &calls.with_book),
            ]
        });
        write_beside_doubles(out, rows)
    }

    pub fn write_walks(&self, out: &mut Formatter) -> Result {
        let walks = &self.walks;
        let [walk, quick] = [walks.walk.median, walks.quick.median];
        writeln!(out, "| what | nanoseconds per state | beside the walk |")?;
        writeln!(out, "|---|---:|---:|")?;
        for (what, nanoseconds) in [
            ("the walk, `woolyard_walk`", walk),
            ("the quick engine, `woolyard_state`", quick),
            ("the plain scan, in one pass", self.scan),
        ] {
            let ratio = nanoseconds / walk;
            let nanoseconds = grouped(nanoseconds.round() as usize);
            writeln!(out, "| {what} | {nanoseconds} | {ratio:.3} |")?;
        }
        Ok(())
    }

    pub fn write_bands(&self, out: &mut Formatter) -> Result {
        let bands = &self.bands;
        writeln!(
            out,
            "| what | median round | quickest round | beside a call without densities |"
        )?;
        writeln!(out, "|---|---:|---:|---:|")?;
        for (what, Timing { median, quickest }) in [
            ("band from 950 to 1050, `woolyard_band`", bands.narrow),
            ("band from 500 to 1500", bands.widest),
            ("band from 1000 to 1000", bands.unchanged),
            (
                "call without densities, `woolyard_side` for side 2",
                bands.without_densities,
            ),
            (
                "the same for a pressure that is too low",
                bands.refused_at_once,
            ),
        ] {
            let ratio = median / bands.without_densities.median;
            writeln!(out, "| {what} | {median:.1} | {quickest:.1} | {ratio:.3} |")?;
        }
        Ok(())
    }

    pub fn write_claims(&self, out: &mut Formatter) -> Result {
        let claims = &self.claims;
        writeln!(
            out,
            "| what | median round | quickest round | a second | beside the call for the side |"
        )?;
        writeln!(out, "|---|---:|---:|---:|---:|")?;
        for (name, of_side) in [("gas", &claims.gas), ("dense", &claims.dense)] {
            for (what, timing, ratio) in [
                ("call for the SIDE side, `woolyard_side`", of_side.call, 1.0),
                (
                    "claim for the SIDE side that stands, one list of all, `woolyard_claims`",
                    of_side.standing,
                    of_side.standing_beside_call,
                ),
                (
                    "claim for the SIDE side of a root one too large, a list each",
                    of_side.refused,
                    of_side.refused_beside_call,
                ),
            ] {
                let what = what.replace("SIDE", name);
                let Timing { median, quickest } = timing;
                let a_second = grouped((1e9 / median).round() as usize);
                writeln!(
                    out,
                    "| {what} | {median:.1} | {quickest:.1} | {a_second} | {ratio:.3} |"
                )?;
            }
        }
        Ok(())
    }

    pub fn write_writing(&self, out: &mut Formatter) -> Result {
        let writing = &self.writing;
        writeln!(
            out,
            "| what | median round | quickest round | beside reading it |"
        )?;
        writeln!(out, "|---|---:|---:|---:|")?;
        for (what, timing, ratio) in [
            (
                "writing the sheet, `woolyard_write_sheet`",
                writing.write,
                writing.write_beside_read,
            ),
            ("reading it, `woolyard_sheet`", writing.read, 1.0),
        ] {
            let [median, quickest] = [timing.median, timing.quickest].map(|time| time / 1e3);
            writeln!(out, "| {what} | {median:.1} | {quickest:.1} | {ratio:.3} |")?;
        }
        Ok(())
    }

    pub fn write_next_lines(&self, out: &mut Formatter) -> Result {
        let NextLines { accepted, wide, .. } = &self.next_lines;
        writeln!(
            out,
            "| what | median round | quickest round | reading it meanwhile | beside reading it |"
        )?;
        writeln!(out, "|---|---:|---:|---:|---:|")?;
        for (what, walked) in [
            (
                "walking over accepted states, `woolyard_sheet_next`",
                accepted,
            ),
            ("walking over ten-digit numbers", wide),
        ] {
            let Compared {
                timed,
                other,
                ratio,
            } = walked.beside_reading;
            let times = [timed.median, timed.quickest, other.median];
            let [median, quickest, reading] = times.map(|time| time / 1e3);
            writeln!(
                out,
                "| {what} | {median:.1} | {quickest:.1} | {reading:.1} | {ratio:.3} |"
            )?;
        }
        Ok(())
    }

    pub fn write_programs(&self, out: &mut Formatter) -> Result {
        let UserTimes { proved, second } = self.programs;
        writeln!(out, "| program | milliseconds of user time | runs |")?;
        writeln!(out, "|---|---:|---:|")?;
        writeln!(out, "| proved | {proved:.2} | {PROVED_RUNS} |")?;
        let second = grouped(second.round() as usize);
        writeln!(out, "| second implementation | {second} | {SECOND_RUNS} |")
    }

    pub fn write_bars(&self, out: &mut Formatter) -> Result {
        writeln!(out, "| ratio | measured | at most | |")?;
        writeln!(out, "|---|---:|---:|---|")?;
        for bar in self.bars() {
            let verdict = if bar.met() { "met" } else { "MISSED" };
            let Bar { of, ratio, most } = bar;
            // As many digits as the bar has, and one behind the point at least.
            writeln!(out, "| {of} | {ratio:.4} | {most:?} | {verdict} |")?;
        }
        Ok(())
    }

    pub fn write_floors(&self, out: &mut Formatter) -> Result {
        let kinds = [
            ("the paper's whole numbers a and b", &self.solver),
            ("a and b in doubles, as it is timed", &self.peer),
        ];
        writeln!(
            out,
            "| what GSL is given | another whole number | share | of these with a = 0 |"
        )?;
        writeln!(out, "|---|---:|---:|---:|")?;
        for (given, differences) in kinds {
            let share = percent(differences.len(), self.counted);
            let count = grouped(differences.len());
            let a_zero = grouped(with_a_zero(differences));
            writeln!(out, "| {given} | {count} | {share} | {a_zero} |")?;
        }
        writeln!(out, "\nThe first state of each row:\n")?;
        for (given, differences) in kinds {
            if let Some(first) = differences.first() {
                write_difference(out, given, first)?;
            }
        }
        Ok(())
    }
}

/// Proved calls, each beside the job in doubles on the same states.
fn write_beside_doubles<'a>(
    out: &mut Formatter,
    rows: impl Iterator<Item = (String, &'a Compared)>,
) -> Result {
    writeln!(
        out,
        "| proved call | median round | quickest round | job in doubles, median round | its quickest round | beside that job |"
    )?;
    writeln!(out, "|---|---:|---:|---:|---:|---:|")?;
    for (what, compared) in rows {
        let Compared {
            timed,
            other,
            ratio,
        } = compared;
        let times = [timed, other]
            .map(|Timing { median, quickest }| format!("{median:.1} | {quickest:.1}"));
        writeln!(out, "| {what} | {} | {ratio:.3} |", times.join(" | "))?;
    }
    Ok(())
}

/// A sheet in parts, beside what is done with the whole. That has a row as it was beside one part, and for each size its
/// median round there.
pub fn write_parts(out: &mut Formatter, whole: &str, sheet: &OfSheet) -> Result {
    writeln!(
        out,
        "| what | median round | quickest round | bytes a second | the whole meanwhile | beside the whole |"
    )?;
    writeln!(out, "|---|---:|---:|---:|---:|---:|")?;
    let mut write_row = |what: &str, timing: Timing, whole: Timing, ratio: f64| {
        let a_second = grouped((1e9 * sheet.bytes as f64 / timing.median).round() as usize);
        let times = [timing.median, timing.quickest, whole.median];
        let [median, quickest, whole] = times.map(|time| time / 1e3);
        writeln!(
            out,
            "| {what} | {median:.1} | {quickest:.1} | {a_second} | {whole:.1} | {ratio:.3} |"
        )
    };
    let alone = sheet.one_part().other;
    write_row(whole, alone, alone, 1.0)?;
    for (size, beside) in SIZES.into_iter().zip(&sheet.sizes) {
        let what = match size {
            1 => "in parts of 1 byte, `woolyard_parts_take`".to_string(),
            _ => format!("in parts of {} bytes", grouped(size)),
        };
        write_row(&what, beside.timed, beside.other, beside.ratio)?;
    }
    Ok(())
}

/// Reports on a sheet, each beside something else, with the median round of that.
pub fn write_reports(out: &mut Formatter, sheet: &OnSheet) -> Result {
    writeln!(
        out,
        "| what | median round | quickest round | timed beside | that meanwhile | beside that |"
    )?;
    writeln!(out, "|---|---:|---:|---|---:|---:|")?;
    let mut write_row = |what: &str, other: &str, compared: &Compared| {
        let (timed, ratio) = (compared.timed, compared.ratio);
        let times = [timed.median, timed.quickest, compared.other.median];
        let [median, quickest, meanwhile] = times.map(|time| time / 1e3);
        writeln!(
            out,
            "| {what} | {median:.1} | {quickest:.1} | {other} | {meanwhile:.1} | {ratio:.3} |"
        )
    };
    let answering = "`woolyard_sheet`, and `woolyard_state` for each state";
    write_row(
        "the whole, `woolyard_report`",
        answering,
        &sheet.beside_answering,
    )?;
    write_row(
        "the whole",
        "`woolyard_state` for each state",
        &sheet.beside_asking,
    )?;
    write_row(
        "the whole",
        "`woolyard_parts_take`, in one part",
        &sheet.beside_one_part,
    )?;
    for (size, compared) in PART_SIZES.into_iter().zip(&sheet.in_parts) {
        let what = format!(
            "in parts of {} bytes, `woolyard_report_take`",
            grouped(size)
        );
        write_row(&what, answering, compared)?;
    }
    Ok(())
}

fn write_difference(out: &mut Formatter, given: &str, difference: &Difference) -> Result {
    let state = difference.state;
    let fluid = FLUIDS[state.fluid as usize].name;
    let [millikelvin, pascals, proved, floor] = [
        state.millikelvin,
        state.pascals,
        difference.proved,
        difference.floor(),
    ]
    .map(|number| grouped(number as usize));
    let in_doubles = difference.in_doubles;
    writeln!(
        out,
        "\
- {given}: {fluid} at {millikelvin} mK and {pascals} Pa.
  Proved {proved}; GSL {in_doubles}, and so {floor}."
    )
}

/// With a comma before every three digits.
pub fn grouped(number: usize) -> String {
    match number {
        0..1000 => number.to_string(),
        _ => format!("{},{:03}", grouped(number / 1000), number % 1000),
    }
}

pub fn percent(part: usize, whole: usize) -> String {
    format!("{:.2} %", 100.0 * part as f64 / whole as f64)
}
