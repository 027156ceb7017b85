//! Sheets that arrive in parts: those that are read as wholes, cut in every way; long lines; and sheets about as long as
//! one may be, with faults on both sides of the byte that is one too many.

use super::arriving_lines::Lines;
use super::journeys::{arrive, at_random, everywhere, single_bytes, Asked, Group, Sent};
use super::sheets::{sources, Source};
use super::unit;
use crate::comparison::{Comparison, Outcome};
use crate::workers::Unit;
use second::arrival::WIDEST_LINE;
use second::random::Random;
use second::sheet::LONGEST;
use second::sheet_list::{damage, full_sheet, list, List, LARGER, SMALL, WIDEST};

pub const PART: &str = "arrivals";

/// Sheets above this length are cut once only, into parts of up to so many bytes.
const SHORT: usize = 400;
const LONG_PARTS: u64 = 3000;

/// The parts of short ones have up to so many bytes.
const SHORT_PARTS: u64 = 12;

/// Lines on both sides of the widest, and much longer ones.
const LINE_LENGTHS: [usize; 12] = [1, 19, 20, 21, 22, 23, 24, 25, 31, 43, 64, 300];

/// The widest line, with its end, and the narrowest.
const LINE_BYTES: usize = WIDEST_LINE + 1;
const NARROWEST_LINE: &[u8] = b"9 9\n";

/// So many lines are wanted behind the long beginning, and so many bytes it has.
const LACKING: usize = 37;
const BEGINNING: usize = WIDEST - LACKING * LINE_BYTES;

/// How far from the byte that is one too many a fault is met.
const NEAR: usize = 30;

/// Lines that are bad where they end, and lines without an end that are bad at their 22nd byte.
const BAD_LINES: [&[u8]; 13] = [
    b"\n",
    b"x\n",
    b"0\n",
    b"00 0\n",
    b"0 0 \n",
    b"99999999999 9\n",
    b"999999999999999999999\n",
    b"9999999999 999999999x\n",
    b"9999999999 99999999999",
    b"99999999999999999999999",
    b"                      ",
    b"xxxxxxxxxxxxxxxxxxxxxxxxxxxxxx",
    b"\0\0\0\0\0\0\0\0\0\0\0\0\0\0\0\0\0\0\0\0\0\0\0\0",
];

/// What may stand behind a fault, and change nothing.
const BEHIND_FAULT: &[u8] = b"9\n9 9\n0\n~\n";

pub fn units() -> Vec<Unit> {
    units_of::<Lines>(PART)
}

/// The same with something else asked of every part.
pub fn units_of<A: Asked + 'static>(part: &'static str) -> Vec<Unit> {
    let mut units: Vec<Unit> = sources()
        .into_iter()
        .enumerate()
        .map(|(seed, source)| {
            unit(part, move |comparison| {
                cut_anywhere::<A>(comparison, &source, seed as u64)
            })
        })
        .collect();
    units.push(unit(part, cut_everywhere::<A>));
    units.push(unit(part, long_lines::<A>));
    units.push(unit(part, copies::<A>));
    units.push(unit(part, faults_beside_the_most::<A>));
    units.push(unit(part, whole_sheets_beside_the_most::<A>));
    units.push(unit(part, long_sheets_whole_and_in_single_bytes::<A>));
    units
}

/// Every sheet at random places, and a short one beside that in one part, in two, or in single bytes.
pub fn cut_anywhere<A: Asked>(comparison: &mut Comparison, source: &Source, seed: u64) -> Outcome {
    let mut random = Random(seed);
    let mut group = Group::<A>::new(comparison);
    source(&mut |bytes, length| {
        let cuts = if length > SHORT {
            vec![at_random(0, length, LONG_PARTS, &mut random)]
        } else {
            let beside = match random.number() % 3 {
                0 => vec![length],
                1 => vec![random.number() as usize % (length + 1), length],
                _ => single_bytes(0, length, &mut random),
            };
            vec![at_random(0, length, SHORT_PARTS, &mut random), beside]
        };
        group.send(&bytes[..length], cuts)
    })?;
    group.finish()
}

/// The list of `sheet_points`.
fn cut_everywhere<A: Asked>(comparison: &mut Comparison) -> Outcome {
    let mut random = Random(0);
    let mut group = Group::<A>::new(comparison);
    for sheet in list() {
        group.send(&sheet, everywhere(sheet.len(), &mut random))?;
    }
    group.finish()
}

/// Lines on both sides of the widest at every place of a sheet where another kind of line is wanted, and behind its end:
/// good ones and bad ones, bad from the first byte on or by the last alone, with an end and without.
fn long_lines<A: Asked>(comparison: &mut Comparison) -> Outcome {
    let before: [&[u8]; 9] = [
        b"",
        b"0\n",
        b"0\n0\n",
        b"1\n",
        b"2\n5 6\n",
        b"0\n1\n",
        b"0\n0\n1\n",
        b"0\n0\n2\n7 8\n",
        b"0\n0\n0\n",
    ];
    let mut random = Random(0);
    let mut group = Group::<A>::new(comparison);
    for line in LINE_LENGTHS.into_iter().flat_map(lines_of_length) {
        for before in before {
            for behind in [&b""[..], b"\n", b"\n0\n0\n"] {
                let sheet = [before, &line, behind].concat();
                send_long_line(&mut group, &sheet, before.len(), &mut random)?;
            }
        }
    }
    group.finish()
}

/// Of so many bytes.
fn lines_of_length(length: usize) -> Vec<Vec<u8>> {
    let filled = b"09 x\0\xFF\r".map(|fill| vec![fill; length]);
    let spaced = [1, 10, length.saturating_sub(2)].map(|place| changed(length, place, b' '));
    let bad = [0, length / 2, length - 1].map(|place| changed(length, place, b'x'));
    let mut lines: Vec<Vec<u8>> = filled.into_iter().chain(spaced).chain(bad).collect();
    // a leading zero in each number, and a second space
    for text in [
        &b"0999999999 9999999999"[..],
        b"9999999999 0999999999",
        b"999999999  9999999999",
    ] {
        let mut line = text.to_vec();
        line.resize(length, b'9');
        lines.push(line);
    }
    lines
}

/// Nines with another byte at one place, if they have so many.
fn changed(length: usize, place: usize, byte: u8) -> Vec<u8> {
    let mut line = vec![b'9'; length];
    line.iter_mut()
        .skip(place)
        .take(1)
        .for_each(|old| *old = byte);
    line
}

/// Cut within the line about its 22nd byte, nowhere, elsewhere, and in single bytes up to well behind that one.
fn send_long_line<A: Asked>(
    group: &mut Group<A>,
    sheet: &[u8],
    place: usize,
    random: &mut Random,
) -> Outcome {
    let length = sheet.len();
    let within = (place + WIDEST_LINE - 2..=place + WIDEST_LINE + 2).filter(|&cut| cut <= length);
    let mut cuts: Vec<Vec<usize>> = within.map(|cut| vec![cut, length]).collect();
    let mut singles = single_bytes(0, length.min(place + 2 * LINE_BYTES), random);
    singles.push(length);
    cuts.push(vec![length]);
    cuts.push(at_random(0, length, SHORT_PARTS, random));
    cuts.push(singles);
    group.send(sheet, cuts)
}

/// What was kept in the middle of a sheet, or behind a fault, is copied, and gone on from with its own rest twice and
/// with another sheet.
fn copies<A: Asked>(comparison: &mut Comparison) -> Outcome {
    let mut random = Random(0);
    let mut sheets = List::default();
    for sheet in SMALL.into_iter().chain(LARGER) {
        damage(&mut sheets, sheet);
    }
    let begin = |sheet: &Vec<u8>| {
        let length = random.number() as usize % (sheet.len() + 1);
        let cut = at_random(0, length, SHORT_PARTS, &mut random);
        Sent::new(&A::nothing(), &sheet[..length], vec![cut])
    };
    let begun = arrive(comparison, sheets.sheets.iter().map(begin).collect())?;
    let mut group = Group::<A>::new(comparison);
    for (which, (begun, sheet)) in begun.iter().zip(&sheets.sheets).enumerate() {
        let own = &sheet[begun.length()..];
        let other = &sheets.sheets[which * 7 % sheets.sheets.len()];
        for rest in [own, other, own] {
            let length = begun.length() + rest.len();
            let cut = at_random(begun.length(), length, SHORT_PARTS, &mut random);
            group.add(begun.gone_on(rest, vec![cut]))?;
        }
    }
    group.finish()
}

/// Whole lines nearly as long as a sheet may be, with more lines wanted.
fn long_beginning<A: Asked>(comparison: &mut Comparison) -> Result<Sent<A>, String> {
    let mut random = Random(0);
    let sheet = &full_sheet(WIDEST)[..BEGINNING];
    let cut = at_random(0, BEGINNING, LONG_PARTS, &mut random);
    let sent = Sent::new(&A::nothing(), sheet, vec![cut]);
    let mut arrived = arrive(comparison, vec![sent])?;
    Ok(arrived.remove(0))
}

/// So many good lines of so many bytes together.
fn good_lines(count: usize, bytes: usize) -> Vec<u8> {
    let mut left = bytes;
    let lines = (0..count).rev().map(|behind| {
        let width = LINE_BYTES.min(left - behind * NARROWEST_LINE.len());
        left -= width;
        let digits = width - " \n".len();
        let first = 10.min(digits - 1);
        format!("{} {}\n", "9".repeat(first), "9".repeat(digits - first))
    });
    lines.collect::<String>().into()
}

/// Bad lines whose fault is met at each byte on both sides of the one that is one too many, with others behind.
fn faults_beside_the_most<A: Asked>(comparison: &mut Comparison) -> Outcome {
    let begun = long_beginning(comparison)?;
    let mut random = Random(0);
    let mut group = Group::<A>::new(comparison);
    for line in BAD_LINES {
        // with its end, or at the first byte that no good line has
        let met = line.len().min(LINE_BYTES);
        for last in LONGEST + 1 - NEAR..=LONGEST + 1 + NEAR {
            let bytes = last - met - BEGINNING;
            let before = good_lines(bytes.div_ceil(LINE_BYTES), bytes);
            let rest = [&before, line, BEHIND_FAULT].concat();
            send_on(&mut group, &begun, &rest, &mut random)?;
        }
    }
    group.finish()
}

/// Good sheets of some bytes less than a sheet may have, of as many, and of more; with bytes behind them, and cut off.
fn whole_sheets_beside_the_most<A: Asked>(comparison: &mut Comparison) -> Outcome {
    let begun = long_beginning(comparison)?;
    let mut random = Random(0);
    let mut group = Group::<A>::new(comparison);
    for bytes in LONGEST - 4..=LONGEST + 4 {
        let rest = good_lines(LACKING, bytes - BEGINNING);
        for behind in [
            &b""[..],
            b"\n",
            b"x",
            b"0\n",
            b"9 9\n",
            b" \n9 9\n0\n",
            &[b'9'; 40],
        ] {
            send_on(&mut group, &begun, &[&rest, behind].concat(), &mut random)?;
        }
        for fewer in 1..=8 {
            send_on(&mut group, &begun, &rest[..rest.len() - fewer], &mut random)?;
        }
    }
    group.finish()
}

/// In one part, in random ones, and in single bytes about the most.
fn send_on<A: Asked>(
    group: &mut Group<A>,
    begun: &Sent<A>,
    rest: &[u8],
    random: &mut Random,
) -> Outcome {
    let length = BEGINNING + rest.len();
    let cuts = vec![
        vec![length],
        at_random(BEGINNING, length, SHORT_PARTS, random),
        single_bytes(LONGEST - 2 * NEAR, length, random),
    ];
    group.add(begun.gone_on(rest, cuts))
}

/// The longest sheets in single bytes; and in one part, which may be longer than any sheet.
fn long_sheets_whole_and_in_single_bytes<A: Asked>(comparison: &mut Comparison) -> Outcome {
    let mut random = Random(0);
    let mut group = Group::<A>::new(comparison);
    for bytes in [LONGEST, LONGEST + 1] {
        let sheet = [&full_sheet(bytes)[..], BEHIND_FAULT].concat();
        let cuts = vec![vec![sheet.len()], single_bytes(0, sheet.len(), &mut random)];
        group.send(&sheet, cuts)?;
    }
    for before in [&b""[..], b"0\n1\n7 8\n", b"0\n0\n0\n", b"0\n0\n1\n9 9"] {
        for length in [LONGEST, LONGEST + 1, 3 * LONGEST] {
            for fill in [b'9', b'\n'] {
                let mut sheet = before.to_vec();
                sheet.resize(length, fill);
                group.send(&sheet, vec![vec![length], vec![length - 1, length]])?;
            }
        }
    }
    group.finish()
}
