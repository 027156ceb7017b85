//! Document 01, "State sheets", with a section for each fluid (document 02, C-20): a sheet read line by line,
//! and what the program `sheet` prints of it, both sides of a SPLIT state among it (C-18).

use crate::state::{reply, Fluid, Reply, FLUIDS, ONE};

/// How many bytes a sheet has at most.
pub const LONGEST: usize = 65_536;

/// How many sections a sheet has, one for each fluid.
pub const SECTIONS: usize = FLUIDS.len();

/// How many state lines a section has at most.
pub const LARGEST_COUNT: u64 = 1000;

/// The largest number that a sheet can hold.
pub const TEN_NINES: u64 = 9_999_999_999;

/// Document 01's whole input, with the line that C-20 adds.
pub const EXAMPLE: &[u8] = b"1
300000 1000000
3
300000 1000000
120000 500000
55999 500000
0
";

/// The byte that ends a line.
pub const LINE_END: u8 = 10;

/// A state line as written, in range or not.
#[derive(Clone, Copy, Debug, PartialEq, Eq)]
pub struct State {
    pub fluid: u64,
    pub millikelvin: u64,
    pub pascals: u64,
}

/// What comes back for a refused sheet: its number, the place, and the faulty line without byte 10.
#[derive(Debug, PartialEq, Eq)]
pub struct Refusal<'a> {
    pub number: u64,
    pub place: usize,
    pub line: &'a [u8],
}

/// Every state line, counted from 0 through all sections.
pub fn read(sheet: &[u8]) -> Result<Vec<State>, Refusal<'_>> {
    read_sections(sheet, &FLUIDS)
}

/// The same of a sheet with a section for each of these fluids. The length is looked at first, since 7
/// comes before 6.
fn read_sections<'a>(sheet: &'a [u8], fluids: &[Fluid]) -> Result<Vec<State>, Refusal<'a>> {
    if sheet.len() > LONGEST {
        return Err(Refusal {
            number: 7,
            place: 0,
            line: &[],
        });
    }
    let mut states = Vec::new();
    let mut place = 0;
    for fluid in fluids {
        let count = next(sheet, &mut place, count_line)?;
        for _ in 0..count {
            let [millikelvin, pascals] = next(sheet, &mut place, state_line)?;
            states.push(State {
                fluid: fluid.number,
                millikelvin,
                pascals,
            });
        }
    }
    if place < sheet.len() {
        return Err(badly_formed(sheet, place));
    }
    Ok(states)
}

/// What the line at this place says, which is then past. It must be a line of the wanted form and
/// have its byte 10. A missing line is an empty one here, and no empty line has either form.
fn next<'a, T>(
    sheet: &'a [u8],
    place: &mut usize,
    form: fn(&[u8]) -> Option<T>,
) -> Result<T, Refusal<'a>> {
    let line = line_at(sheet, *place);
    let end = *place + line.len();
    match form(line) {
        Some(said) if end < sheet.len() => {
            *place = end + 1;
            Ok(said)
        }
        _ => Err(badly_formed(sheet, *place)),
    }
}

/// The bytes from this place to the next byte 10, or to the end of the sheet where none comes.
fn line_at(sheet: &[u8], place: usize) -> &[u8] {
    let rest = &sheet[place..];
    match rest.iter().position(|&byte| byte == LINE_END) {
        Some(length) => &rest[..length],
        None => rest,
    }
}

fn badly_formed(sheet: &[u8], place: usize) -> Refusal<'_> {
    Refusal {
        number: 6,
        place,
        line: line_at(sheet, place),
    }
}

/// One number, not too large.
pub fn count_line(line: &[u8]) -> Option<u64> {
    number(line).filter(|&count| count <= LARGEST_COUNT)
}

/// Two numbers with one space between: a second space would make a third word, be it an empty one.
pub fn state_line(line: &[u8]) -> Option<[u64; 2]> {
    let words: Vec<&[u8]> = line.split(|&byte| byte == b' ').collect();
    let [millikelvin, pascals] = words[..] else {
        return None;
    };
    Some([number(millikelvin)?, number(pascals)?])
}

/// One to ten decimal digits, no leading zero unless it is the digit 0 alone. The digits are looked
/// at before the standard library parses them, since it also takes a plus sign.
fn number(text: &[u8]) -> Option<u64> {
    let digits = text.iter().all(u8::is_ascii_digit);
    let leading_zero = text.len() > 1 && text[0] == b'0';
    if !digits || leading_zero || !(1..=10).contains(&text.len()) {
        return None;
    }
    std::str::from_utf8(text).ok()?.parse().ok()
}

/// The number of state lines, 0 for a refused sheet.
pub fn state_lines(sheet: &[u8]) -> usize {
    read(sheet).map_or(0, |states| states.len())
}

/// State line k, or the number of the refusal: 7 before 6, and 6 before 16.
pub fn state_at(sheet: &[u8], k: usize) -> Result<State, u64> {
    let states = read(sheet).map_err(|refusal| refusal.number)?;
    states.get(k).copied().ok_or(16)
}

/// The faulty line, empty for a good sheet.
pub fn faulty_line(sheet: &[u8]) -> &[u8] {
    match read(sheet) {
        Ok(_) => &[],
        Err(refusal) => refusal.line,
    }
}

/// All that the program `sheet` prints when this is its input.
pub fn print(sheet: &[u8]) -> String {
    match read(sheet) {
        Ok(states) => states.iter().map(answer).collect(),
        Err(Refusal { number, place, .. }) => format!("SHEET {number} {place}\n"),
    }
}

/// The line printed for one state. A ONE state has one root and one density to print.
fn answer(state: &State) -> String {
    let Reply {
        number,
        kind,
        gas_root,
        dense_root,
        gas_density,
        dense_density,
    } = reply(state.fluid, state.millikelvin, state.pascals);
    if number != 0 {
        return format!("NO {number}\n");
    }
    if kind == ONE {
        return format!("ONE {gas_root} {gas_density}\n");
    }
    format!("SPLIT {gas_root} {gas_density} {dense_root} {dense_density}\n")
}

#[cfg(test)]
mod tests {
    use super::*;
    use crate::random::Random;
    use crate::sheet_list::{full_sheet, WIDEST};
    use crate::state::{side_reply, SideReply, DENSE, GAS, HYDROGEN, NITROGEN, OXYGEN};
    use crate::writer::section;

    /// The last is 2 to the 64th, which is 0 to whoever does not look at the carry.
    const NO_NUMBERS: [&[u8]; 22] = [
        b"",
        b" ",
        b" 0",
        b"0 ",
        b"+0",
        b"-0",
        b"x",
        b"0x",
        b"1e3",
        b"1.0",
        b"1\t",
        b"1\r",
        b"\x00",
        b"1\x00",
        b"\xFF",
        b"1\xFF",
        b"00",
        b"01",
        b"0000000000",
        b"10000000000",
        b"99999999999",
        b"18446744073709551616",
    ];

    fn state(fluid: u64, millikelvin: u64, pascals: u64) -> State {
        State {
            fluid,
            millikelvin,
            pascals,
        }
    }

    /// All that is answered about a sheet that is refused with 6.
    fn assert_refused(sheet: &[u8], place: usize, line: &[u8]) {
        let shown = sheet.escape_ascii();
        let expected = Refusal {
            number: 6,
            place,
            line,
        };
        assert_eq!(read(sheet), Err(expected), "{shown}");
        assert_eq!(print(sheet), format!("SHEET 6 {place}\n"), "{shown}");
        assert_eq!(faulty_line(sheet), line, "{shown}");
        assert_eq!(state_lines(sheet), 0, "{shown}");
        assert_eq!(state_at(sheet, 0), Err(6), "{shown}");
    }

    #[test]
    fn example() {
        let expected = "ONE 100474 804
ONE 99286 12920
SPLIT 92696 17299 1699 943832
NO 21
";
        assert_eq!(print(EXAMPLE), expected);
    }

    /// The figures printed are those that each side gives when it is named: of a SPLIT state the gas side's
    /// and then the dense one's, of a ONE state those that the two share.
    #[test]
    fn lines_have_what_the_sides_give() {
        let mut split = 0;
        for (fluid, millikelvin) in [(HYDROGEN, 30_000), (OXYGEN, 140_000), (NITROGEN, 115_000)] {
            for pascals in (10_000..4_000_000).step_by(50_000) {
                let [gas, dense] = [GAS, DENSE]
                    .map(|side| side_reply(fluid, millikelvin, pascals, side))
                    .map(|SideReply { root, density, .. }| format!("{root} {density}"));
                let expected = if gas == dense {
                    format!("ONE {gas}\n")
                } else {
                    split += 1;
                    format!("SPLIT {gas} {dense}\n")
                };
                let printed = answer(&state(fluid, millikelvin, pascals));
                assert_eq!(printed, expected);
            }
        }
        // of 240; the test would say little if either kind were rare
        assert!((60..180).contains(&split), "{split}");
    }

    /// Lines are counted through all sections and given as written; 16 comes after the last.
    #[test]
    fn state_lines_of_the_example() {
        let expected = [
            state(HYDROGEN, 300_000, 1_000_000),
            state(OXYGEN, 300_000, 1_000_000),
            state(OXYGEN, 120_000, 500_000),
            state(OXYGEN, 55_999, 500_000),
        ];
        assert_eq!(read(EXAMPLE), Ok(expected.to_vec()));
        assert_eq!(state_lines(EXAMPLE), 4);
        for (k, expected) in expected.into_iter().enumerate() {
            assert_eq!(state_at(EXAMPLE, k), Ok(expected));
        }
        assert_eq!(state_at(EXAMPLE, 4), Err(16));
        assert_eq!(state_at(EXAMPLE, usize::MAX), Err(16));
        assert_eq!(faulty_line(EXAMPLE), b"");
    }

    /// Document 01, "Points worked through".
    #[test]
    fn no_states_and_no_lines() {
        assert_eq!(read(b"0\n0\n0\n"), Ok(vec![]));
        assert_eq!(print(b"0\n0\n0\n"), "");
        assert_eq!(state_at(b"0\n0\n0\n", 0), Err(16));
        assert_refused(b"", 0, b"");
    }

    /// Neither a state out of range nor a number of ten digits spoils a sheet.
    #[test]
    fn states_out_of_range() {
        let sheet = b"3\n0 0\n9999999999 1000000\n300000 4295967296\n1\n1000000 50000001\n\
                      2\n63999 10000\n64000 9999\n";
        let expected = vec![
            state(HYDROGEN, 0, 0),
            state(HYDROGEN, TEN_NINES, 1_000_000),
            state(HYDROGEN, 300_000, 4_295_967_296),
            state(OXYGEN, 1_000_000, 50_000_001),
            state(NITROGEN, 63_999, 10_000),
            state(NITROGEN, 64_000, 9_999),
        ];
        assert_eq!(read(sheet), Ok(expected));
        assert_eq!(print(sheet), "NO 21\nNO 22\nNO 32\nNO 32\nNO 21\nNO 31\n");
    }

    #[test]
    fn numbers() {
        for (text, expected) in [
            ("0", 0),
            ("7", 7),
            ("10", 10),
            ("1000000000", 1_000_000_000),
            ("9999999999", TEN_NINES),
        ] {
            assert_eq!(number(text.as_bytes()), Some(expected));
        }
        for text in NO_NUMBERS {
            assert_eq!(number(text), None, "{}", text.escape_ascii());
        }
    }

    /// Of all bytes ten are a number alone, and one more can stand between two of them.
    #[test]
    fn every_byte() {
        for byte in 0..=255 {
            let digit = (48..=57).contains(&byte);
            assert_eq!(number(&[byte]).is_some(), digit);
            assert_eq!(number(&[b'1', byte]).is_some(), digit);
            assert_eq!(state_line(&[b'1', byte, b'1']).is_some(), byte == 32);
        }
    }

    #[test]
    fn malformed_state_lines() {
        for line in [
            &b""[..],
            b" ",
            b"300000",
            b"300000 ",
            b" 1000000",
            b" 300000 1000000",
            b"300000 1000000 ",
            b"300000  1000000",
            b"300000 1000000 0",
            b"300000\t1000000",
            b"300000\x001000000",
            b"300000\xFF1000000",
        ] {
            assert_malformed_state_line(line);
        }
        for text in NO_NUMBERS {
            assert_malformed_state_line(&[text, b" 1000000"].concat());
            assert_malformed_state_line(&[b"300000 ", text].concat());
        }
    }

    fn assert_malformed_state_line(line: &[u8]) {
        assert_refused(&[b"2\n5 6\n", line, b"\n0\n0\n"].concat(), 6, line);
        assert_refused(&[b"0\n1\n", line, b"\n0\n"].concat(), 4, line);
        assert_refused(&[b"0\n0\n1\n", line, b"\n"].concat(), 6, line);
        assert_refused(&[b"0\n0\n1\n", line].concat(), 6, line);
    }

    #[test]
    fn malformed_count_lines() {
        let too_large: [&[u8]; 4] = [b"1001", b"65536", b"4294967296", b"9999999999"];
        for line in [&too_large[..], &NO_NUMBERS, &[b"0 0"]].concat() {
            assert_refused(&[line, b"\n0\n0\n"].concat(), 0, line);
            assert_refused(&[b"0\n", line, b"\n0\n"].concat(), 2, line);
            assert_refused(&[b"0\n0\n", line, b"\n"].concat(), 4, line);
            assert_refused(&[b"0\n0\n", line].concat(), 4, line);
        }
    }

    /// A count of 1000 is one, in every section; one of 1001 is not, though every line is there.
    #[test]
    fn largest_count() {
        let lines = |count| b"0 0\n".repeat(count);
        let full = [b"1000\n", &lines(1000)[..]].concat().repeat(3);
        assert_eq!(state_lines(&full), 3000);
        for (k, fluid) in [(999, 0), (1000, 1), (1999, 1), (2000, 2), (2999, 2)] {
            assert_eq!(state_at(&full, k), Ok(state(fluid, 0, 0)));
        }
        assert_eq!(state_at(&full, 3000), Err(16));
        let lacking = &full[..full.len() - 4];
        assert_refused(lacking, lacking.len(), b"");
        for (before, after) in [("", "0\n0\n"), ("0\n", "0\n"), ("0\n0\n", "")] {
            let section = [b"1001\n", &lines(1001)[..]].concat();
            let sheet = [before.as_bytes(), &section, after.as_bytes()].concat();
            assert_refused(&sheet, before.len(), b"1001");
        }
    }

    /// Where the bytes stop before a wanted line, the place is the length.
    #[test]
    fn missing_lines() {
        for sheet in [
            &b"0\n"[..],
            b"1\n",
            b"2\n300000 1000000\n",
            b"1\n300000 1000000\n",
            b"0\n1\n",
            b"0\n2\n120000 500000\n",
            b"0\n0\n1\n",
            b"0\n0\n2\n90000 300000\n",
        ] {
            assert_refused(sheet, sheet.len(), b"");
        }
    }

    /// Where another line stands in its stead, that one is the faulty one.
    #[test]
    fn wrong_counts() {
        assert_refused(b"2\n300000 1000000\n0\n0\n", 17, b"0");
        assert_refused(b"1\n5 6\n7 8\n0\n0\n", 6, b"7 8");
        assert_refused(b"0\n1\n5 6\n7 8\n0\n", 8, b"7 8");
        assert_refused(b"0\n0\n1\n5 6\n7 8\n", 10, b"7 8");
    }

    /// A line that would be good with its byte 10.
    #[test]
    fn lines_without_an_end() {
        assert_refused(b"0", 0, b"0");
        assert_refused(b"1\n300000 1000000", 2, b"300000 1000000");
        assert_refused(b"0\n0", 2, b"0");
        assert_refused(b"0\n1\n120000 500000", 4, b"120000 500000");
        assert_refused(b"0\n0\n0", 4, b"0");
        assert_refused(b"0\n0\n1\n90000 300000", 6, b"90000 300000");
    }

    /// The faulty line is the first one after the end, and no more than that one.
    #[test]
    fn bytes_after_the_end() {
        let long_line = [b'5'; 30_000];
        for (rest, line) in [
            (&b"\n"[..], &b""[..]),
            (b"\n\n", b""),
            (b"x", b"x"),
            (b" ", b" "),
            (b"\x00", b"\x00"),
            (b"0\n", b"0"),
            (b"1\n300000 1000000\n", b"1"),
            (&long_line, &long_line),
        ] {
            assert_refused(&[b"0\n0\n0\n", rest].concat(), 6, line);
            let sheet = [EXAMPLE, rest].concat();
            assert_refused(&sheet, EXAMPLE.len(), line);
        }
    }

    /// 7 comes before 6, and one byte fewer is 6.
    #[test]
    fn longest_sheet() {
        let rest = vec![b'x'; LONGEST - 6];
        let longest = [b"0\n0\n0\n", &rest[..]].concat();
        assert_eq!(longest.len(), 65_536);
        assert_refused(&longest, 6, &rest);
        assert_too_long(&[&longest[..], b"x"].concat());
    }

    /// All that is answered about a sheet that is refused with 7.
    fn assert_too_long(sheet: &[u8]) {
        let expected = Refusal {
            number: 7,
            place: 0,
            line: b"",
        };
        assert_eq!(read(sheet), Err(expected));
        assert_eq!(print(sheet), "SHEET 7 0\n");
        assert_eq!(faulty_line(sheet), b"");
        assert_eq!(state_lines(sheet), 0);
        assert_eq!(state_at(sheet, 0), Err(7));
    }

    // Document 02, C-20.

    /// Three full sections: the widest lines are too many bytes, and the longest good sheet has exactly as
    /// many as a sheet may have.
    #[test]
    fn three_full_sections() {
        let widest = b"9999999999 9999999999\n".repeat(1000);
        let widest = [b"1000\n", &widest[..]].concat().repeat(3);
        assert_eq!(widest.len(), 66_015);
        assert_eq!(full_sheet(WIDEST), widest);
        assert_too_long(&widest);
        let longest = full_sheet(65_536);
        assert_eq!(longest.len(), 65_536);
        assert_eq!(state_lines(&longest), 3000);
        assert_eq!(
            state_at(&longest, 2999),
            Ok(state(NITROGEN, TEN_NINES, TEN_NINES))
        );
        assert_eq!(written(&read(&longest).expect("a good sheet")), longest);
        let longer = full_sheet(65_537);
        assert_eq!(longer.len(), 65_537);
        assert_too_long(&longer);
        assert_too_long(&[&longest[..], b"\n"].concat());
        // two full sections of the widest lines leave room, and it is the third count that is missing
        let two = &widest[..44_010];
        assert_refused(two, 44_010, b"");
    }

    /// Document 01's two good sheets as they were lack the third count.
    #[test]
    fn two_sections() {
        assert_refused(b"0\n0\n", 4, b"");
        let example = EXAMPLE.strip_suffix(b"0\n").expect("the third count");
        assert_refused(example, example.len(), b"");
    }

    /// What follows the third section is refused at its first byte, the count of a fourth too.
    #[test]
    fn four_sections() {
        assert_refused(b"0\n0\n0\n0\n", 6, b"0");
        assert_refused(b"0\n0\n1\n90000 300000\n1\n90000 300000\n", 19, b"1");
        let sheet = [EXAMPLE, b"0\n"].concat();
        assert_refused(&sheet, EXAMPLE.len(), b"0");
    }

    /// The fluids of document 01, which are a sheet's sections there.
    const BEFORE: &[Fluid] = FLUIDS.split_at(2).0;

    /// A reader from before C-20 refuses every good sheet at its third count, where it wants nothing more;
    /// and a sheet from before lacks that count.
    #[test]
    fn readers_and_sheets_from_before() {
        let mut random = Random(20);
        for _ in 0..1000 {
            let states = random_states(&mut random);
            let sheet = written(&states);
            let sheet_before = written_sections(&states, BEFORE);
            let (nitrogen, others): (Vec<State>, Vec<State>) = states
                .into_iter()
                .partition(|state| state.fluid == NITROGEN);
            let third_count = nitrogen.len().to_string();
            let expected = Refusal {
                number: 6,
                place: sheet_before.len(),
                line: third_count.as_bytes(),
            };
            assert_eq!(read_sections(&sheet, BEFORE), Err(expected));
            assert_eq!(read_sections(&sheet_before, BEFORE), Ok(others));
            assert_refused(&sheet_before, sheet_before.len(), b"");
        }
    }

    // The same answers found the other way round, by writing.

    /// The sheet of these states.
    fn written(states: &[State]) -> Vec<u8> {
        written_sections(states, &FLUIDS)
    }

    /// The sections of these fluids, each with its own states.
    fn written_sections(states: &[State], fluids: &[Fluid]) -> Vec<u8> {
        let sections = fluids.iter().map(|fluid| {
            let own = states.iter().filter(|state| state.fluid == fluid.number);
            let own: Vec<[u64; 2]> = own
                .map(|state| [state.millikelvin, state.pascals])
                .collect();
            section(&own)
        });
        sections.collect::<String>().into_bytes()
    }

    /// The good sheet with the numbers that are found in these bytes, whatever stands between them,
    /// and zeros where they run out. None where a number is too large for its place.
    fn rewritten(bytes: &[u8]) -> Option<Vec<u8>> {
        let mut found = bytes
            .split(|byte| !byte.is_ascii_digit())
            .filter(|digits| !digits.is_empty())
            .map(|digits| String::from_utf8_lossy(digits).parse());
        let mut up_to = |most: u64| {
            let number = found.next().unwrap_or(Ok(0)).ok();
            number.filter(|&number| number <= most)
        };
        let mut states = Vec::new();
        for fluid in FLUIDS {
            for _ in 0..up_to(1000)? {
                states.push(state(fluid.number, up_to(TEN_NINES)?, up_to(TEN_NINES)?));
            }
        }
        Some(written(&states))
    }

    /// Whether a good sheet begins with these whole lines. If one does, so does the rewritten one.
    fn begins_a_sheet(lines: &[u8]) -> bool {
        let whole = lines.is_empty() || lines.ends_with(b"\n");
        whole && rewritten(lines).is_some_and(|sheet| sheet.starts_with(lines))
    }

    /// Compares all of what `read` answers, and says whether the sheet is good. It is exactly if it
    /// is rewritten as it was; else the place is the last one before which the lines begin a sheet.
    fn assert_same_by_writing(sheet: &[u8]) -> bool {
        let shown = sheet.escape_ascii();
        let good = rewritten(sheet).as_deref() == Some(sheet);
        if good {
            let states = read(sheet).expect("a good sheet");
            assert_eq!(written(&states), sheet, "{shown}");
        } else {
            let mut places = (0..=sheet.len()).rev();
            let place = places
                .find(|&place| begins_a_sheet(&sheet[..place]))
                .expect("place 0 at least");
            let mut lines = sheet[place..].split(|&byte| byte == 10);
            let line = lines.next().expect("an empty line at least");
            let expected = Refusal {
                number: 6,
                place,
                line,
            };
            assert_eq!(read(sheet), Err(expected), "{shown}");
        }
        good
    }

    fn random_states(random: &mut Random) -> Vec<State> {
        let fluids = FLUIDS.map(|fluid| vec![fluid.number; random.number() as usize % 4]);
        let states = fluids.concat().into_iter().map(|fluid| {
            let [millikelvin, pascals] = [TEN_NINES; 2].map(|most| random.magnitude(most));
            state(fluid, millikelvin, pascals)
        });
        states.collect()
    }

    /// Bytes that mean something in a sheet, or come near to it, more often than the rest.
    fn random_byte(random: &mut Random) -> u8 {
        let likely = b"0123456789 \n\t\r+-./:x";
        let any = random.number() as u8;
        match random.number() as usize % 32 {
            which if which < likely.len() => likely[which],
            _ => any,
        }
    }

    /// The sheet with one byte taken out, put in or replaced.
    fn damaged(sheet: &[u8], random: &mut Random) -> Vec<u8> {
        let mut sheet = sheet.to_vec();
        let place = random.number() as usize % sheet.len();
        match random.number() % 3 {
            0 => drop(sheet.remove(place)),
            1 => sheet.insert(place + random.number() as usize % 2, random_byte(random)),
            _ => sheet[place] = random_byte(random),
        }
        sheet
    }

    #[test]
    fn damaged_sheets() {
        let mut random = Random(0x5EED);
        let mut good = 0;
        for _ in 0..2000 {
            let states = random_states(&mut random);
            let sheet = written(&states);
            assert_eq!(read(&sheet), Ok(states));
            assert!(assert_same_by_writing(&sheet));
            for _ in 0..25 {
                let sheet = damaged(&sheet, &mut random);
                good += u64::from(assert_same_by_writing(&sheet));
            }
        }
        // of 50,000; the comparison would say little if the good ones or the others were few
        assert!((10_000..40_000).contains(&good), "{good}");
    }

    /// Every text of up to eight of the bytes that a sheet is made of, two digits of the ten: alone, behind an
    /// empty section, and before one.
    #[test]
    fn short_sheets() {
        let mut good = [0; 3];
        for length in 0..=8 {
            for which in 0..4_usize.pow(length) {
                let text: Vec<u8> = (0..length)
                    .map(|place| b"01 \n"[which / 4_usize.pow(place) % 4])
                    .collect();
                let [behind, before] = [[b"0\n", &text[..]].concat(), [&text[..], b"0\n"].concat()];
                for (sheet, good) in [text, behind, before].iter().zip(&mut good) {
                    *good += u64::from(assert_same_by_writing(sheet));
                }
            }
        }
        // no state, or one of the fluids whose lines are in the text, each of its numbers 0 or 1; before the
        // empty section also nitrogen's with that section's 0 as its pressure
        assert_eq!(good, [1, 1 + 4 + 4, 1 + 4 + 4 + 2]);
    }
}
