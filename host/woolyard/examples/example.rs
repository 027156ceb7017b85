//! The wrappers in use: what host/c/example.c does, in Rust.

use woolyard::{
    Answer, Claim, Fault, FaultySheet, Fluid, Kind, Parts, Refusal, Report, Reporting,
    SectionReport, Side, State,
};

/// Of the answers of a part no more are printed.
const MOST_ANSWERS: usize = 3;

/// What is wrong with a sheet. A later version of the library may have more to say of one than this program knows.
fn in_words(fault: Fault) -> String {
    match fault {
        Fault::Malformed { place } => format!("byte {place} begins the faulty line"),
        Fault::TooLong => "too long".to_string(),
        other => format!("reply {}", other.refusal().number()),
    }
}

fn print_sheet(sheet: &[u8]) {
    match woolyard::sheet(sheet) {
        Ok(count) => println!("sheet: {count} state lines"),
        Err(FaultySheet::Malformed { place, line }) => {
            let fault = in_words(Fault::Malformed { place });
            println!("sheet: {fault} \"{}\"", line.escape_ascii());
        }
        Err(faulty) => println!("sheet: {}", in_words(faulty.fault())),
    }
    // the walk ends with a fault that is told already
    for line in woolyard::states(sheet).flatten() {
        let [fluid, millikelvin, pascals] = [line.fluid.number(), line.millikelvin, line.pascals];
        println!("  fluid {fluid}, {millikelvin} mK, {pascals} Pa");
    }
}

fn print_answers(sheet: &[u8]) {
    for line in woolyard::states(sheet) {
        match line {
            Ok(line) => print_answer(woolyard::state(line.fluid, line.millikelvin, line.pascals)),
            Err(faulty) => println!("  {}", in_words(faulty.fault())),
        }
    }
}

/// As the program `sheet` prints it.
fn print_answer(reply: Result<Answer, Refusal>) {
    match reply {
        Err(refusal) => println!("  NO {}", refusal.number()),
        Ok(Answer {
            kind,
            gas_root,
            dense_root,
            gas_density,
            dense_density,
        }) => match kind {
            Kind::One => println!("  ONE {gas_root} {gas_density}"),
            Kind::Split => {
                println!("  SPLIT {gas_root} {gas_density} {dense_root} {dense_density}")
            }
            other => println!("  {other:?} {gas_root} {gas_density}"),
        },
    }
}

/// The first answers, each as its line ends; and behind each part the fault, or what is said of the sheet if it is over there.
fn print_parts(list: &[&str]) {
    println!("sheet in parts");
    let mut parts = Parts::default();
    for part in list {
        println!("part of {} bytes", part.len());
        let mut answers = 0;
        let mut when = "if it is over";
        for line in parts.take(part.as_bytes()) {
            match line {
                Ok(line) => {
                    answers += 1;
                    if answers <= MOST_ANSWERS {
                        print_answer(line.reply);
                    }
                }
                Err(_) => when = "refused",
            }
        }
        if answers > MOST_ANSWERS {
            println!("  and {} more answers", answers - MOST_ANSWERS);
        }
        match parts.end() {
            Ok(count) => println!("  {when}: {count} state lines"),
            Err(fault) => println!("  {when}: {}", in_words(fault)),
        }
    }
}

/// The fluids' sections, or the fault.
fn print_report(of: &str, report: Result<Report, Fault>) {
    match report {
        Ok(report) => {
            println!("{of}: reply 0");
            for fluid in [Fluid::Parahydrogen, Fluid::Oxygen, Fluid::Nitrogen] {
                print!("  fluid {}: ", fluid.number());
                print_section(report.section(fluid));
            }
        }
        Err(fault) => println!("{of}: {}", in_words(fault)),
    }
}

/// How many states were ONE, SPLIT or refused by each number, and what the gas densities come to.
fn print_section(section: &SectionReport) {
    print!(
        "{} ONE, {} SPLIT, {} NO 21, {} NO 22, {} NO 31, {} NO 32, ",
        section.one,
        section.split,
        section.temperature_too_low,
        section.temperature_too_high,
        section.pressure_too_low,
        section.pressure_too_high
    );
    match (section.smallest, section.largest) {
        (Some(smallest), Some(largest)) => println!(
            "densities {} g/m3 in all, from {} in line {} to {} in line {}",
            section.sum, smallest.density, smallest.line, largest.density, largest.line
        ),
        _ => println!("no densities"),
    }
}

/// In parts of this size, the last of which may be shorter: behind each the fault, or what is said of the sheet if it is
/// over there.
fn print_report_in_parts(sheet: &[u8], size: usize) {
    println!("report on a sheet in parts");
    let mut reporting = Reporting::default();
    for part in sheet.chunks(size) {
        println!("part of {} bytes", part.len());
        let of = match reporting.take(part) {
            Ok(()) => "  if it is over",
            Err(_) => "  refused",
        };
        print_report(of, reporting.end());
    }
}

/// A sheet of one byte too many: full sections of the widest lines, cut off.
fn too_long() -> String {
    let lines = "9999999999 9999999999\n".repeat(woolyard::SECTION_MOST_STATES);
    let mut sheet = format!("{}\n{lines}", woolyard::SECTION_MOST_STATES).repeat(3);
    sheet.truncate(woolyard::SHEET_MOST_BYTES + 1);
    sheet
}

fn main() -> Result<(), Refusal> {
    let answer = woolyard::state(Fluid::Oxygen, 120_000, 500_000)?;
    let kind = match answer.kind {
        Kind::One => "ONE",
        Kind::Split => "SPLIT",
        _ => "of another kind",
    };
    println!("oxygen at 120000 mK and 500000 Pa: reply 0, {kind}");
    println!(
        "  gas root {}, {} g/m3",
        answer.gas_root, answer.gas_density
    );
    println!(
        "  dense root {}, {} g/m3",
        answer.dense_root, answer.dense_density
    );

    let dense = woolyard::side(Fluid::Oxygen, 120_000, 500_000, Side::Dense)?;
    println!(
        "its dense side alone: reply 0, root {}, {} g/m3",
        dense.root, dense.density
    );
    // a number from elsewhere is made a side first, and one that is neither goes no further
    if let Err(refusal) = Side::try_from(2) {
        println!("its side 2: reply {}", refusal.number());
    }

    let mut book = [0; woolyard::BOOK_BYTES];
    woolyard::state_with_book(Fluid::Oxygen, 120_000, 500_000, 5, &mut book)?;
    let slot = u32::from_le_bytes([book[15], book[16], book[17], 0]);
    println!("with a book: reply 0, and slot 5 holds {slot}");

    let nitrogen = woolyard::side(Fluid::Nitrogen, 300_000, 1_000_000, Side::Gas)?;
    println!(
        "nitrogen at 300000 mK and 1000000 Pa: reply 0, root {}, {} g/m3",
        nitrogen.root, nitrogen.density
    );

    let walk = woolyard::walk(Fluid::Oxygen, 120_000, 500_000, woolyard::WALK_ENOUGH)?;
    println!(
        "oxygen at 120000 mK and 500000 Pa, walked: reply 0, gas root {} after {} values",
        walk.gas_root, walk.values
    );
    if let Err(refusal) = woolyard::walk(Fluid::Oxygen, 120_000, 500_000, 8410) {
        println!("with a limit of 8410: reply {}", refusal.number());
    }

    let band = woolyard::band(Fluid::Oxygen, 120_000, 500_000, 950, 1050)?;
    println!(
        "with 0.950 to 1.050 of its attraction: reply 0, gas roots {} to {}",
        band.lower_root, band.upper_root
    );
    if let Err(refusal) = woolyard::band(Fluid::Oxygen, 120_000, 500_000, 1050, 950) {
        println!("with 1.050 to 0.950 of it: reply {}", refusal.number());
    }

    let oxygen = |side: Side, root| Claim {
        fluid: Fluid::Oxygen.number(),
        millikelvin: 120_000,
        pascals: 500_000,
        side: side.number(),
        root,
    };
    let gas = oxygen(Side::Gas, 92_696);
    if woolyard::claims(&[gas, oxygen(Side::Dense, 1699)]).is_ok() {
        println!("its roots claimed, 92696 for gas and 1699 for dense: reply 0");
    }
    if let Err(refused) = woolyard::claims(&[gas, oxygen(Side::Dense, 92_696)]) {
        println!(
            "with 92696 claimed for both: reply {}, claim {}",
            refused.refusal.number(),
            refused.claim
        );
    }

    if let Err(refusal) = woolyard::state(Fluid::Oxygen, 55_999, 500_000) {
        println!("oxygen at 55999 mK: reply {}", refusal.number());
    }

    println!("hydrogen at 300 K: {:.6} kJ/(kg K)", woolyard::heat(300.0)?);
    let heat = woolyard::heat_table(300_000)?;
    println!("hydrogen at 300000 mK, from the table: {heat} J/(kg K)");
    let heat = woolyard::heat_table(41_500)?;
    println!("hydrogen at 41500 mK, between two entries: {heat} J/(kg K)");

    let factor = woolyard::viscosity(1500)?;
    println!("at 1.500 of the critical density: excess viscosity factor {factor} millionths");
    if let Err(refusal) = woolyard::viscosity(99) {
        println!("at 0.099 of it: reply {}", refusal.number());
    }

    print_sheet(b"1\n300000 1000000\n2\n120000 500000\n55999 500000\n1\n90000 300000\n");
    let faulty = b"0\n1\n120000\n0\n";
    print_sheet(faulty);
    let too_long = too_long();
    print_sheet(too_long.as_bytes());

    let row = |fluid, millikelvin, pascals| State {
        fluid,
        millikelvin,
        pascals,
    };
    let rows = [
        row(Fluid::Oxygen, 300_000, 1_000_000),
        row(Fluid::Parahydrogen, 300_000, 1_000_000),
        row(Fluid::Oxygen, 120_000, 500_000),
        row(Fluid::Oxygen, 55_999, 500_000),
    ];
    let mut sheet = woolyard::write_sheet(&rows)?;
    println!(
        "sheet written from four rows: reply 0, {} bytes",
        sheet.len()
    );
    print_answers(&sheet);
    let room = sheet.len() - 1;
    if let Err(refusal) = woolyard::write_sheet_into(&rows, &mut sheet[..room]) {
        println!("with room for one byte less: reply {}", refusal.number());
    }

    print_parts(&["1\n300000 1000000\n2\n1200", "00 500000\n55999 500000\n0\n"]);
    print_parts(&["0\n1\n120000 ", " 500000\n", "0\n"]);
    print_parts(&[&too_long]);

    let reported =
        b"1\n300000 1000000\n3\n300000 1000000\n120000 500000\n55999 500000\n1\n90000 9999\n";
    print_report("report on a sheet", woolyard::report(reported));
    print_report_in_parts(reported, 40);
    print_report("report on a sheet", woolyard::report(faulty));
    print_report_in_parts(faulty, 8);
    print_report("report on a sheet", woolyard::report(too_long.as_bytes()));
    print_report_in_parts(too_long.as_bytes(), 40_000);
    Ok(())
}
