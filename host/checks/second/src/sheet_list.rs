//! Sheets for a comparison, good and damaged, the same ones in every run.

use crate::random::Random;
use crate::sheet::{EXAMPLE, LARGEST_COUNT, SECTIONS, TEN_NINES};
use crate::state::{Fluid, FLUIDS, HIGHEST_PRESSURE, HOTTEST, LOWEST_PRESSURE};
use crate::writer::{lent, section, text, OwnLists};
use std::collections::HashSet;

/// How many bytes the list of the program `sheet_points` has at most, a byte after each sheet counted.
/// It is read into a buffer of 65,536 bytes, and much room is left there.
pub const LARGEST_LIST: usize = 40_000;

/// How many bytes a sheet of full sections has if all its lines are the widest: more than a sheet may have.
pub const WIDEST: usize =
    SECTIONS * ("1000\n".len() + LARGEST_COUNT as usize * "9999999999 9999999999\n".len());

/// The least and the greatest bytes, blanks, digits, and the neighbours of the digits.
const BYTES: [u8; 11] = [0, 9, 10, 13, 32, 47, 48, 49, 57, 58, 255];

/// What a sheet is made of, three digits of the ten.
const ALPHABET: &[u8] = b"019 \n";

/// Good sheets to be damaged everywhere, in every way.
pub const SMALL: [&[u8]; 3] = [b"0\n0\n0\n", b"1\n0 0\n0\n0\n", b"0\n0\n1\n1 9\n"];

/// Good sheets to be damaged everywhere, with new bytes at the end alone.
pub const LARGER: [&[u8]; 2] = [b"1\n10 9\n1\n0 99\n1\n9 0\n", b"0\n0\n1\n9 9999999999\n"];

/// Numbers that a sheet can hold, besides the lowest temperatures and what lies below them: the other ends of the ranges
/// with what lies past them, the ends of what 8, 16, 31, 32 and 33 bits can hold, every digit, and what is in range for
/// whoever keeps 32 bits.
const NUMBERS: [u64; 24] = [
    1_000_000,
    1_000_001,
    9_999,
    10_000,
    50_000_000,
    50_000_001,
    255,
    256,
    65_535,
    65_536,
    2_147_483_647,
    2_147_483_648,
    4_294_967_295,
    4_294_967_296,
    4_294_967_297,
    8_589_934_591,
    8_589_934_592,
    1_234_567_890,
    9_876_543_210,
    1_023_456_789,
    300_000,
    4_295_267_296,
    500_000,
    4_295_467_296,
];

/// Texts that are no numbers. The last three are 2 to the 64th, one more, and 300,000 more, which are
/// 0, 1 and 300,000 to whoever does not look at the carry.
const NO_NUMBERS: [&[u8]; 32] = [
    b"",
    b" ",
    b"00",
    b"01",
    b"09",
    b"000",
    b"010",
    b"0000000000",
    b"0000000001",
    b"0123456789",
    b"00000000000",
    b"00000000001",
    b"10000000000",
    b"99999999999",
    b"+0",
    b"+1",
    b"-0",
    b"-1",
    b"x",
    b"0x1",
    b"1e0",
    b"1.0",
    b"1,0",
    b"1_0",
    b"0\t",
    b"\t0",
    b"0\r",
    b"\xC2\xA00",
    b"\xEF\xBC\x90",
    b"18446744073709551616",
    b"18446744073709551617",
    b"18446744073709851616",
];

/// Counts on both sides of 1000, and such as are 0, 1 or 1000 to whoever keeps 8, 16 or 32 bits or
/// looks at the first digits alone.
const COUNTS: [u64; 38] = [
    1,
    2,
    3,
    9,
    10,
    11,
    99,
    100,
    101,
    255,
    256,
    257,
    512,
    998,
    999,
    1000,
    1001,
    1002,
    1009,
    1010,
    1024,
    1100,
    2000,
    9999,
    10_000,
    65_535,
    65_536,
    65_537,
    66_536,
    100_000,
    10_000_000,
    1_000_000_000,
    2_147_483_648,
    4_294_967_295,
    4_294_967_296,
    4_294_967_297,
    4_294_968_296,
    TEN_NINES,
];

/// Sheets with a fault that more than one byte makes.
const OTHERS: &[&[u8]] = &[
    // lines that end as elsewhere
    b"0\r\n0\r\n0\r\n",
    b"0\r0\r0\r",
    b"0\n\r0\n\r0\n\r",
    b"1\r\n0 1\r\n0\r\n0\r\n",
    b"0\n0\n0\r\n",
    // an empty line before, between and after
    b"\n0\n0\n0\n",
    b"1\n\n9 9\n0\n0\n",
    b"1\n9 9\n\n0\n0\n",
    b"0\n\n1\n9 9\n0\n",
    b"0\n1\n9 9\n\n0\n",
    b"0\n0\n\n1\n9 9\n",
    b"0\n0\n1\n9 9\n\n",
    // a mark of the order of the bytes, which some editors write first
    b"\xEF\xBB\xBF0\n0\n0\n",
    // all in one line, or a number in each
    b"0 0 0\n",
    b"0 0\n0\n",
    b"0\n0 0\n",
    b"0 0 1 9 9\n",
    b"1 9 9\n0\n0\n",
    b"1\n9\n9\n0\n0\n",
    b"0\n1\n9\n9\n0\n",
    b"0\n0\n1\n9\n9\n",
    // two states in one line
    b"2\n0 1 9 0\n0\n0\n",
    b"0\n2\n0 1 9 0\n0\n",
    b"0\n0\n2\n0 1 9 0\n",
    b"0\n0\n1\n0 1 9\n",
    // the count behind its state lines
    b"9 9\n1\n0\n0\n",
    b"0\n9 9\n1\n0\n",
    b"0\n0\n9 9\n1\n",
    // one section, two or four
    b"1\n9 9\n",
    b"2\n9 9\n0 1\n",
    b"0\n0\n",
    b"1\n9 9\n0\n",
    b"0\n1\n9 9\n",
    b"1\n9 9\n1\n0 1\n",
    b"0\n0\n0\n0\n",
    b"0\n0\n0\n1\n9 9\n",
    b"0\n0\n1\n0 1\n1\n9 9\n",
    b"1\n0 1\n0\n0\n9 9\n",
    // a count too small, and one too large
    b"1\n0 1\n9 9\n0\n0\n",
    b"3\n0 1\n9 9\n0\n0\n",
    b"0\n1\n0 1\n9 9\n0\n",
    b"0\n3\n0 1\n9 9\n0\n",
    b"0\n0\n1\n0 1\n9 9\n",
    b"0\n0\n3\n0 1\n9 9\n",
    // faults in two lines, of which the first counts
    b"00\n00\n00\n",
    b"1\n00 0\n00\n0\n",
    b"2\n0 0\n0  0\n1001\n0\n",
    b"1001\n0 0",
    b"0\n1001",
    b"0\n0\n1001",
    b"0\n0\n1\n0 0 \n\n",
];

/// The sheets, each once.
#[derive(Default)]
pub struct List {
    pub sheets: Vec<Vec<u8>>,
    known: HashSet<Vec<u8>>,
    /// With a byte after each sheet.
    bytes: usize,
}

impl List {
    pub fn sheet(&mut self, sheet: &[u8]) {
        if self.known.insert(sheet.to_vec()) {
            self.sheets.push(sheet.to_vec());
            self.bytes += sheet.len() + 1;
        }
    }

    /// The sheet with other bytes instead of some.
    pub fn spliced(&mut self, sheet: &[u8], place: usize, taken: usize, put: &[u8]) {
        self.sheet(&[&sheet[..place], put, &sheet[place + taken..]].concat());
    }
}

/// The list of the program `sheet_points`.
pub fn list() -> Vec<Vec<u8>> {
    let mut list = List::default();
    let mut random = Random(0x5EED);
    worked_points(&mut list);
    distributions(&mut list, &mut random);
    numbers(&mut list);
    no_numbers(&mut list);
    counts(&mut list);
    many_lines(&mut list);
    damages(&mut list);
    for sheet in OTHERS {
        list.sheet(sheet);
    }
    every_short_text(&mut list);
    lines_in_any_order(&mut list, &mut random, 200);
    any_text(&mut list, &mut random, LARGEST_LIST - 40);
    list.sheets
}

/// Document 01's three.
fn worked_points(list: &mut List) {
    list.sheet(EXAMPLE);
    list.sheet(b"0\n0\n0\n");
    list.sheet(b"");
}

/// Good sheets of up to four state lines, for every combination of counts one with numbers of all
/// magnitudes and one with states in range.
pub fn distributions(list: &mut List, random: &mut Random) {
    for counts in combinations(4) {
        list.sheet(&written(counts, |_| {
            [TEN_NINES; 2].map(|most| random.magnitude(most))
        }));
        list.sheet(&written(counts, |fluid| {
            let millikelvin = fluid.coldest + random.magnitude(HOTTEST - fluid.coldest);
            let above_lowest = random.magnitude(HIGHEST_PRESSURE - LOWEST_PRESSURE);
            [millikelvin, LOWEST_PRESSURE + above_lowest]
        }));
    }
}

/// All counts of the sections whose sum is not above this.
fn combinations(most: u64) -> impl Iterator<Item = [u64; SECTIONS]> {
    let each = most + 1;
    let all = (0..each.pow(SECTIONS as u32))
        .map(move |which| std::array::from_fn(|section| which / each.pow(section as u32) % each));
    all.filter(move |counts: &[u64; SECTIONS]| counts.iter().sum::<u64>() <= most)
}

/// The sheet of these counts. A state is chosen by the fluid of its section.
pub fn written(counts: [u64; SECTIONS], mut state: impl FnMut(Fluid) -> [u64; 2]) -> Vec<u8> {
    let sections = FLUIDS.into_iter().zip(counts).map(|(fluid, count)| {
        let states: Vec<[u64; 2]> = (0..count).map(|_| state(fluid)).collect();
        section(&states)
    });
    sections.collect::<String>().into()
}

/// A sheet of full sections in so many bytes, which is good unless they are too many.
pub fn full_sheet(bytes: usize) -> Vec<u8> {
    text(lent(&full_lists(bytes))).into()
}

/// The lists of that sheet: all its numbers are the widest but for the first few, which have fewer digits.
pub fn full_lists(bytes: usize) -> OwnLists {
    let mut too_many = (WIDEST - bytes) as u32;
    let mut number = || {
        let taken = too_many.min(9);
        too_many -= taken;
        TEN_NINES / 10_u64.pow(taken)
    };
    let mut lists = OwnLists::default();
    for of_fluid in lists.chunks_mut(2) {
        for _ in 0..LARGEST_COUNT {
            of_fluid.iter_mut().for_each(|list| list.push(number()));
        }
    }
    lists
}

/// Numbers at every place of a state, the least and the greatest of each length among them.
fn numbers(list: &mut List) {
    let coldest = FLUIDS.map(|fluid| [fluid.coldest - 1, fluid.coldest]);
    for &number in coldest.as_flattened().iter().chain(&NUMBERS) {
        in_each_state(list, number.to_string().as_bytes());
    }
    for length in 1..=10 {
        for digit in ["1", "9"] {
            let zeros = format!("{digit}{}", "0".repeat(length - 1));
            in_each_state(list, zeros.as_bytes());
        }
        in_each_state(list, "9".repeat(length).as_bytes());
    }
}

/// Texts that are no numbers, as counts and at every place of a state.
fn no_numbers(list: &mut List) {
    for text in NO_NUMBERS {
        in_each_section(list, &[text, b"\n"].concat());
        in_each_state(list, text);
    }
}

/// The text as the temperature and as the pressure of each fluid.
fn in_each_state(list: &mut List, text: &[u8]) {
    in_each_section(list, &[b"1\n", text, b" 9\n"].concat());
    in_each_section(list, &[b"1\n0 ", text, b"\n"].concat());
}

/// These lines as each section, where the others are empty.
fn in_each_section(list: &mut List, lines: &[u8]) {
    for section in 0..SECTIONS {
        let [before, after] =
            [section, SECTIONS - 1 - section].map(|sections| b"0\n".repeat(sections));
        list.sheet(&[&before, lines, &after].concat());
    }
}

/// Counts of each section, before fewer lines than they say, save the first few.
fn counts(list: &mut List) {
    for count in COUNTS {
        list.sheet(format!("{count}\n").as_bytes());
        in_each_section(list, format!("{count}\n").as_bytes());
        in_each_section(list, format!("{count}\n1 9\n").as_bytes());
    }
    for count in [999, 1000, 1001] {
        list.sheet(format!("{count}").as_bytes());
        list.sheet(format!("{count} \n").as_bytes());
        list.sheet(format!("0{count}\n").as_bytes());
        list.sheet(format!("{count}\n{count}\n").as_bytes());
        list.sheet(format!("{count}\n1 9\n0 0").as_bytes());
        list.sheet(format!("{count}\n1 9\n0 0\n9\n0\n0\n").as_bytes());
        for before in ["1\n0 0\n", "0\n1\n0 0\n"] {
            list.sheet(format!("{before}{count}").as_bytes());
            list.sheet(format!("{before}{count}\n").as_bytes());
            list.sheet(format!("{before}{count}\n1 9\n00 0\n").as_bytes());
        }
    }
}

/// Counts of two digits that are met, and one of four digits that is not, after many lines.
fn many_lines(list: &mut List) {
    let lines = |count| "0 1\n".repeat(count);
    list.sheet(format!("10\n{}0\n0\n", lines(10)).as_bytes());
    list.sheet(format!("0\n11\n{}0\n", lines(11)).as_bytes());
    list.sheet(format!("0\n0\n11\n{}", lines(11)).as_bytes());
    list.sheet(format!("0\n0\n11\n{}", lines(12)).as_bytes());
    list.sheet(format!("0\n0\n1000\n{}", lines(97)).as_bytes());
}

fn damages(list: &mut List) {
    for sheet in SMALL {
        damage(list, sheet);
        insert(list, sheet);
    }
    for sheet in LARGER {
        damage(list, sheet);
    }
}

/// The sheet itself and every beginning of it; each of its bytes taken out, doubled, or replaced;
/// bytes after its end.
pub fn damage(list: &mut List, sheet: &[u8]) {
    list.sheet(sheet);
    for (place, &old) in sheet.iter().enumerate() {
        list.sheet(&sheet[..place]);
        list.spliced(sheet, place, 1, &[]);
        list.spliced(sheet, place, 1, &[old, old]);
        for new in BYTES {
            list.spliced(sheet, place, 1, &[new]);
        }
    }
    for byte in BYTES {
        list.spliced(sheet, sheet.len(), 0, &[byte]);
    }
    for rest in [
        &b"\n\n"[..],
        b"\r\n",
        b"0\n",
        b"00",
        b"0 0\n",
        b" 9\n1",
        sheet,
    ] {
        list.spliced(sheet, sheet.len(), 0, rest);
    }
}

/// A byte more before each byte of the sheet.
pub fn insert(list: &mut List, sheet: &[u8]) {
    for place in 0..sheet.len() {
        for byte in BYTES {
            list.spliced(sheet, place, 0, &[byte]);
        }
    }
}

/// Every text of up to three bytes of the alphabet.
fn every_short_text(list: &mut List) {
    let letters = ALPHABET.len();
    for length in 0..=3 {
        for which in 0..letters.pow(length) {
            let text: Vec<u8> = (0..length)
                .map(|place| ALPHABET[which / letters.pow(place) % letters])
                .collect();
            list.sheet(&text);
        }
    }
}

/// Three to seven lines, each good somewhere.
pub fn lines_in_any_order(list: &mut List, random: &mut Random, sheets: usize) {
    let lines: [&[u8]; 8] = [
        b"0\n", b"0\n", b"1\n", b"1\n", b"2\n", b"0 1\n", b"9 0\n", b"1 10\n",
    ];
    for _ in 0..sheets {
        let count = 3 + random.number() % 5;
        let chosen = (0..count).map(|_| one_of(&lines, random));
        list.sheet(&chosen.collect::<Vec<_>>().concat());
    }
}

/// Texts over the alphabet, some of them behind lines that are good there, until the list has so many
/// bytes.
pub fn any_text(list: &mut List, random: &mut Random, bytes: usize) {
    let before: [&[u8]; 7] = [
        b"",
        b"0\n",
        b"1\n",
        b"0\n0\n",
        b"0\n0\n1\n",
        b"0\n1\n9 1\n",
        b"2\n0 0\n",
    ];
    while list.bytes < bytes {
        let length = 2 + random.number() % 9;
        let text: Vec<u8> = (0..length).map(|_| one_of(ALPHABET, random)).collect();
        list.sheet(&[one_of(&before, random), &text].concat());
    }
}

pub fn one_of<T: Copy>(all: &[T], random: &mut Random) -> T {
    all[random.number() as usize % all.len()]
}
