//! How long the proved library takes, beside the same job in doubles and the plain scan.
//!
//! Run from the repository's root by `host/checks/benchmark/run`. It prints what it measured, writes the
//! same to docs/BENCHMARK.md, and ends with status 1 where a bar is missed. With words, it times the
//! shared objects of these names beside each other and writes no file.

mod bands;
mod beside;
mod claims;
mod contenders;
mod document;
mod floors;
mod neighbours;
mod next_lines;
mod parts;
mod peer;
mod processor;
mod programs;
mod proved;
mod report;
mod rounds;
mod sheet_reports;
mod states;
mod streams;
mod walks;
mod writing;

use bands::Bands;
use claims::Claims;
use contenders::{Starts, Timings};
use neighbours::Neighbours;
use next_lines::NextLines;
use parts::InParts;
use processor::Processor;
use report::Report;
use second::random::Random;
use sheet_reports::SheetReports;
use std::process::ExitCode;
use streams::Streams;
use walks::Walks;
use writing::Writing;

/// How many states the calls are timed on, how many of these are scanned too, and over how many
/// others the floors are counted.
const TIMED_STATES: usize = 20_000;
const SCANNED_STATES: usize = 200;
const COUNTED_STATES: usize = 200_000;

const WRITTEN: &str = "docs/BENCHMARK.md";

fn main() -> ExitCode {
    let mut random = Random(0x5EED);
    let timed = states::spread(TIMED_STATES, &mut random);
    let builds: Vec<String> = std::env::args().skip(1).collect();
    if !builds.is_empty() {
        beside::measure(&builds, &timed, &mut random);
        return ExitCode::SUCCESS;
    }
    let counted = states::spread(COUNTED_STATES, &mut random);
    let every = TIMED_STATES / SCANNED_STATES;
    let scanned: Vec<_> = timed.iter().step_by(every).copied().collect();
    let starts = Starts::new(&timed, &mut random);
    let report = Report {
        timed: timed.len(),
        split: contenders::split(&timed),
        scanned: scanned.len(),
        counted: counted.len(),
        processor: Processor::measure(),
        timings: Timings::measure(&timed, &starts),
        streams: Streams::measure(&timed),
        neighbours: Neighbours::measure(),
        walks: Walks::measure(&scanned),
        bands: Bands::measure(&timed, &scanned),
        claims: Claims::measure(&timed),
        writing: Writing::measure(),
        next_lines: NextLines::measure(&timed),
        in_parts: InParts::measure(&timed),
        sheet_reports: SheetReports::measure(&timed),
        scan: contenders::scan(&scanned),
        programs: programs::user_times(),
        solver: floors::of_solver(&counted),
        peer: floors::of_peer(&counted),
    };
    let text = report.to_string();
    print!("{text}");
    std::fs::write(WRITTEN, text).unwrap_or_else(|error| panic!("{WRITTEN}: {error}"));
    ExitCode::from(u8::from(!report.all_bars_met()))
}
