//! Makes the inputs and the expected outputs of document 01's program `sheet`, the same ones each time:
//!
//!     sheet_cases FOLDER
//!
//! Of a short sheet it writes a line to short.txt, with bars between: the case's name, the sheet and what
//! is printed of it, both as the shell's `printf %b` reads them. Of a long one it writes the sheet to
//! NAME.in, and to NAME.out what is printed of it.

use second::random::Random;
use second::sheet::{print, EXAMPLE, LONGEST};
use second::sheet_list::{full_sheet, WIDEST};
use second::state::{Fluid, FLUIDS, HIGHEST_PRESSURE, HOTTEST, LOWEST_PRESSURE};
use second::writer::section;
use std::path::Path;
use std::{fs, io};

/// Each case a name and its sheet.
const SHORT: &[(&str, &[u8])] = &[
    // good ones
    ("example", EXAMPLE),
    ("no_states", b"0\n0\n0\n"),
    ("hydrogen_alone", b"1\n300000 1000000\n0\n0\n"),
    ("oxygen_alone", b"0\n1\n120000 500000\n0\n"),
    ("nitrogen_alone", b"0\n0\n2\n300000 1000000\n90000 300000\n"),
    // near the critical point all four figures of a SPLIT line are long
    ("split_long_figures", b"0\n1\n150000 4200000\n0\n"),
    ("split_long_figures_nitrogen", b"0\n0\n1\n122000 2800000\n"),
    ("zeros", b"1\n0 0\n1\n0 0\n1\n0 0\n"),
    (
        "out_of_range",
        b"1\n13999 9999\n1\n56000 9999\n1\n63999 9999\n",
    ),
    ("ten_digits_temperature", b"1\n9999999999 1000000\n0\n0\n"),
    ("ten_digits_pressure", b"0\n0\n1\n300000 9999999999\n"),
    // in range for whoever keeps 32 bits: 300,000 and 1,000,000 more than 2 to the 32nd
    ("past_32_bits_temperature", b"1\n4295267296 1000000\n0\n0\n"),
    ("past_32_bits_pressure", b"0\n0\n1\n300000 4295967296\n"),
    // lines that are missing, or without their end
    ("empty", b""),
    ("missing_second_count", b"0\n"),
    ("missing_second_count_after_state", b"1\n300000 1000000\n"),
    ("missing_third_count", b"0\n0\n"),
    ("missing_third_count_after_state", b"0\n1\n120000 500000\n"),
    ("missing_hydrogen_state", b"2\n300000 1000000\n"),
    ("missing_oxygen_state", b"0\n1\n"),
    ("missing_nitrogen_state", b"0\n0\n1\n"),
    ("missing_state_before_count", b"2\n300000 1000000\n0\n0\n"),
    (
        "missing_state_before_third_count",
        b"0\n2\n120000 500000\n0\n",
    ),
    ("no_end_first_count", b"0"),
    ("no_end_second_count", b"0\n0"),
    ("no_end_third_count", b"0\n0\n0"),
    ("no_end_hydrogen_state", b"1\n300000 1000000"),
    (
        "no_end_last_state",
        b"0\n0\n2\n300000 1000000\n90000 300000",
    ),
    // bytes after the end
    ("after_end_byte_10", b"0\n0\n0\n\n"),
    ("after_end_letter", b"0\n0\n0\nx"),
    ("after_end_space", b"0\n0\n0\n "),
    ("after_end_byte_0", b"0\n0\n0\n\x00"),
    ("after_end_state", b"0\n0\n1\n90000 300000\n90000 300000\n"),
    ("after_end_fourth_section", b"0\n0\n0\n1\n300000 1000000\n"),
    (
        "after_end_empty_fourth_section",
        b"0\n0\n1\n90000 300000\n0\n",
    ),
    // count lines
    ("count_two_numbers", b"1 1\n300000 1000000\n0\n0\n"),
    ("count_letter", b"0\nx\n0\n"),
    ("count_letter_third", b"0\n0\nx\n"),
    ("count_letter_after_digit", b"0x\n0\n0\n"),
    ("count_empty_line", b"\n0\n0\n"),
    ("count_empty_line_second", b"0\n\n0\n"),
    ("count_empty_line_third", b"0\n0\n\n"),
    ("count_leading_space", b" 0\n0\n0\n"),
    ("count_trailing_space", b"0\n0\n0 \n"),
    ("count_plus", b"+0\n0\n0\n"),
    ("count_minus", b"0\n0\n-0\n"),
    ("count_two_zeros", b"00\n0\n0\n"),
    ("count_leading_zero", b"0\n01\n120000 500000\n0\n"),
    ("count_ten_digits", b"0\n0\n9999999999\n"),
    ("count_eleven_digits", b"10000000000\n0\n0\n"),
    ("count_carriage_return", b"0\r\n0\r\n0\r\n"),
    ("count_byte_0", b"0\x00\n0\n0\n"),
    ("count_byte_255", b"0\n\xFF\n0\n"),
    // no states for whoever keeps 16, 32 or 64 bits
    ("count_past_16_bits", b"65536\n0\n0\n"),
    ("count_past_32_bits", b"0\n0\n4294967296\n"),
    ("count_past_64_bits", b"18446744073709551616\n0\n0\n"),
    // state lines
    (
        "state_letter_temperature",
        b"2\n5 6\n30x000 1000000\n0\n0\n",
    ),
    ("state_letter_pressure", b"0\n1\n120000 50000x\n0\n"),
    ("state_empty_line", b"1\n\n0\n0\n"),
    ("state_space_alone", b"0\n0\n1\n \n"),
    ("state_one_number", b"0\n1\n120000\n0\n"),
    ("state_one_number_and_space", b"1\n300000 \n0\n0\n"),
    ("state_space_and_one_number", b"1\n 1000000\n0\n0\n"),
    ("state_three_numbers", b"0\n0\n1\n120000 500000 0\n"),
    ("state_leading_space", b"1\n 300000 1000000\n0\n0\n"),
    ("state_trailing_space", b"0\n2\n5 6\n120000 500000 \n0\n"),
    ("state_two_spaces", b"1\n300000  1000000\n0\n0\n"),
    ("state_tab", b"0\n0\n1\n120000\t500000\n"),
    ("state_carriage_return", b"1\n300000 1000000\r\n0\n0\n"),
    ("state_plus_temperature", b"1\n+300000 1000000\n0\n0\n"),
    ("state_plus_pressure", b"0\n1\n120000 +500000\n0\n"),
    ("state_minus_temperature", b"0\n0\n1\n-120000 500000\n"),
    ("state_minus_pressure", b"1\n300000 -1000000\n0\n0\n"),
    ("state_point", b"1\n300000.0 1000000\n0\n0\n"),
    ("state_two_zeros_temperature", b"1\n00 1000000\n0\n0\n"),
    ("state_two_zeros_pressure", b"0\n1\n120000 00\n0\n"),
    (
        "state_leading_zero_temperature",
        b"0\n0\n1\n0120000 500000\n",
    ),
    ("state_leading_zero_pressure", b"1\n300000 01000000\n0\n0\n"),
    (
        "eleven_digits_temperature",
        b"1\n10000000000 1000000\n0\n0\n",
    ),
    ("eleven_digits_pressure", b"0\n1\n120000 99999999999\n0\n"),
    // 300,000 for whoever keeps 64 bits
    ("past_64_bits", b"1\n18446744073709851616 1000000\n0\n0\n"),
    // the neighbours of the digits
    ("state_byte_47", b"0\n0\n1\n12/000 500000\n"),
    ("state_byte_58", b"0\n1\n120000 5:0000\n0\n"),
    ("state_byte_0", b"1\n300000\x001000000\n0\n0\n"),
    ("state_byte_0_last", b"0\n0\n1\n120000 500000\x00\n"),
    ("state_byte_255", b"0\n1\n120000\xFF500000\n0\n"),
    ("state_byte_255_first", b"1\n\xFF300000 1000000\n0\n0\n"),
];

fn main() -> io::Result<()> {
    let Some(folder) = std::env::args().nth(1) else {
        eprintln!("usage: sheet_cases FOLDER");
        std::process::exit(2);
    };
    let folder = Path::new(&folder);
    fs::create_dir_all(folder)?;
    let mut short = String::new();
    for (name, sheet) in SHORT {
        let printed = print(sheet);
        short += &format!(
            "{name}|{}|{}\n",
            escaped(sheet),
            escaped(printed.as_bytes())
        );
    }
    fs::write(folder.join("short.txt"), short)?;
    for (name, sheet) in long() {
        fs::write(folder.join(format!("{name}.in")), &sheet)?;
        fs::write(folder.join(format!("{name}.out")), print(&sheet))?;
    }
    Ok(())
}

/// Letters, digits and other visible bytes as they are, byte 10 as `\n`, the rest by their numbers.
fn escaped(text: &[u8]) -> String {
    text.iter().map(|&byte| escaped_byte(byte)).collect()
}

fn escaped_byte(byte: u8) -> String {
    match byte {
        b'\n' => "\\n".to_string(),
        b'\\' => "\\\\".to_string(),
        b' '..=b'~' => char::from(byte).to_string(),
        _ => format!("\\x{byte:02x}"),
    }
}

/// The cases with a long line or many of them.
fn long() -> Vec<(&'static str, Vec<u8>)> {
    vec![
        ("full", full()),
        ("sides", sides()),
        ("longest", full_sheet(LONGEST)),
        ("too_long", full_sheet(LONGEST + 1)),
        ("widest", full_sheet(WIDEST)),
        ("after_end_longest_line", filled(b"0\n0\n0\n", LONGEST)),
        ("after_end_long_line", filled(EXAMPLE, 1000)),
        ("count_1000_missing_state", zeros("0\n0\n1000\n", 999, "")),
        ("count_1001", zeros("1001\n", 1001, "0\n0\n")),
        ("count_1001_second", zeros("0\n1001\n", 1001, "0\n")),
        ("count_1001_third", zeros("0\n0\n1001\n", 1001, "")),
    ]
}

/// So many state lines, all the same, between other lines.
fn zeros(before: &str, count: usize, after: &str) -> Vec<u8> {
    [before, &"0 0\n".repeat(count), after].concat().into()
}

/// A good sheet with one line after its end, as long as brings it to this length.
fn filled(sheet: &[u8], length: usize) -> Vec<u8> {
    let mut sheet = sheet.to_vec();
    sheet.resize(length, b'5');
    sheet
}

/// As many states as a sheet can hold. Few of their numbers are wide, so its length is far from the greatest.
fn full() -> Vec<u8> {
    let mut random = Random(0x5EED);
    let mut sheet = String::new();
    for Fluid { coldest, .. } in FLUIDS {
        let mut states = ends(coldest);
        while states.len() < 1000 {
            states.push(state(coldest, &mut random));
        }
        sheet += &section(&states);
    }
    sheet.into()
}

/// For each fluid one below, at and one above each end of the ranges, and a good number, a low one and a
/// high one, each temperature with each pressure.
fn sides() -> Vec<u8> {
    let around = |end: u64| [end - 1, end, end + 1];
    let numbers =
        |low, good, high| [&[0, good, 9_999_999_999][..], &around(low), &around(high)].concat();
    let mut sheet = String::new();
    for Fluid { coldest, .. } in FLUIDS {
        let temperatures = numbers(coldest, 300_000, HOTTEST);
        let pressures = numbers(LOWEST_PRESSURE, 1_000_000, HIGHEST_PRESSURE);
        let each = |millikelvin| pressures.iter().map(move |&pascals| [millikelvin, pascals]);
        let states: Vec<[u64; 2]> = temperatures.into_iter().flat_map(each).collect();
        sheet += &section(&states);
    }
    sheet.into()
}

/// Both sides of each end of the ranges.
fn ends(coldest: u64) -> Vec<[u64; 2]> {
    let [lowest, highest] = [LOWEST_PRESSURE, HIGHEST_PRESSURE];
    let pressures = [lowest - 1, lowest, highest, highest + 1];
    let mut states = Vec::new();
    for millikelvin in [coldest - 1, coldest, HOTTEST, HOTTEST + 1] {
        states.extend(pressures.map(|pascals| [millikelvin, pascals]));
    }
    states
}

/// Mostly in range, and half of those cold and half of them at a low pressure, since SPLIT
/// states are both. Three times the coldest temperature is above the critical one.
fn state(coldest: u64, random: &mut Random) -> [u64; 2] {
    let hottest = [3 * coldest, HOTTEST][random.number() as usize % 2];
    let highest = [1_000_000, HIGHEST_PRESSURE][random.number() as usize % 2];
    let millikelvin = coldest + random.number() % (hottest - coldest + 1);
    let pascals = LOWEST_PRESSURE + random.number() % (highest - LOWEST_PRESSURE + 1);
    let ten_digits = 1_000_000_000 + random.number() % 9_000_000_000;
    match random.number() % 20 {
        0 => [ten_digits, pascals],
        1 => [millikelvin, ten_digits],
        2 => [random.magnitude(2_000_000), pascals],
        3 => [millikelvin, random.magnitude(100_000_000)],
        _ => [millikelvin, pascals],
    }
}
