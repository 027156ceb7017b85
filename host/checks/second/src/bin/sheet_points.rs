//! Makes the two files of the program `sheet_points`:
//!
//!     sheet_points list    > crates/sheet_points/stdin
//!     sheet_points answer  < crates/sheet_points/stdin > crates/sheet_points/stdout
//!
//! `list` chooses sheets and writes them as they are, a `~` behind each; `answer` writes for each, in one
//! line,
//!
//!     NUMBER STATE_LINES PLACE [LINE] | NUMBER FLUID MILLIKELVIN PASCALS PLACE | ...
//!
//! First comes what is answered of the whole sheet, with the faulty line as it is. Behind the bars come
//! the answers to the questions for each state line, for the one after the last, and for the one of the
//! largest number there is.

use second::sheet::{faulty_line, read, state_at, state_lines};
use second::sheet_list::list;
use std::io::{self, BufWriter, Read, Write};

/// The last question for a state line. Written out, so that no smaller number can stand for it.
const LARGEST_QUESTION: usize = 18_446_744_073_709_551_615;

/// What ends a sheet in the list. No sheet of the list holds it.
const SHEET_END: u8 = b'~';

fn main() -> io::Result<()> {
    match std::env::args().nth(1).as_deref() {
        Some("list") => io::stdout().write_all(&written_out()),
        Some("answer") => answer(),
        _ => {
            eprintln!("usage: sheet_points list | sheet_points answer");
            std::process::exit(2);
        }
    }
}

/// The list as it is read.
fn written_out() -> Vec<u8> {
    let ended = |sheet: &Vec<u8>| [&sheet[..], &[SHEET_END]].concat();
    list().iter().flat_map(ended).collect()
}

fn answer() -> io::Result<()> {
    let mut text = Vec::new();
    io::stdin().read_to_end(&mut text)?;
    let mut out = BufWriter::new(io::stdout().lock());
    let sheets = sheets_of(&text);
    for sheet in &sheets {
        out.write_all(&answers(sheet))?;
        writeln!(out)?;
    }
    writeln!(out, "{} sheets", sheets.len())
}

/// The sheets of a list. Behind the last end there is none.
fn sheets_of(text: &[u8]) -> Vec<&[u8]> {
    let mut sheets: Vec<&[u8]> = text.split(|&byte| byte == SHEET_END).collect();
    let rest = sheets.pop();
    assert_eq!(rest, Some(&b""[..]), "a sheet without its end");
    sheets
}

/// All that is answered of a sheet. The place is 0 unless the number is 6, and then every question for
/// a state line is refused with 6 as well; so one place serves all.
fn answers(sheet: &[u8]) -> Vec<u8> {
    let (number, place) = match read(sheet) {
        Ok(_) => (0, 0),
        Err(refusal) => (refusal.number, refusal.place),
    };
    let count = state_lines(sheet);
    let mut text = format!("{number} {count} {place} [").into_bytes();
    text.extend(faulty_line(sheet));
    text.push(b']');
    for k in (0..=count).chain([LARGEST_QUESTION]) {
        let line = match state_at(sheet, k) {
            Ok(state) => format!(
                " | 0 {} {} {} 0",
                state.fluid, state.millikelvin, state.pascals
            ),
            Err(number) => format!(" | {number} 0 0 0 {place}"),
        };
        text.extend(line.bytes());
    }
    text
}

#[cfg(test)]
mod tests {
    use super::*;
    use second::sheet::EXAMPLE;
    use second::sheet_list::{LARGER, LARGEST_LIST, SMALL};
    use std::collections::HashSet;

    #[test]
    fn answers_of_worked_points() {
        let told = |sheet| String::from_utf8(answers(sheet)).expect("ASCII");
        assert_eq!(told(b"0\n0\n0\n"), "0 0 0 [] | 16 0 0 0 0 | 16 0 0 0 0");
        assert_eq!(told(b""), "6 0 0 [] | 6 0 0 0 0 | 6 0 0 0 0");
        assert_eq!(
            told(EXAMPLE),
            "0 4 0 [] | 0 0 300000 1000000 0 | 0 1 300000 1000000 0 | 0 1 120000 500000 0 \
             | 0 1 55999 500000 0 | 16 0 0 0 0 | 16 0 0 0 0"
        );
        assert_eq!(
            told(b"0\n0\n1\n90000 300000\n"),
            "0 1 0 [] | 0 2 90000 300000 0 | 16 0 0 0 0 | 16 0 0 0 0"
        );
        assert_eq!(told(b"1\n0 0\n0:\n"), "6 0 6 [0:] | 6 0 0 0 6 | 6 0 0 0 6");
    }

    /// What is said of the list: its size, the sizes of the sheets, and that they come back from it.
    #[test]
    fn size_of_the_list() {
        let text = written_out();
        assert!(text.len() <= LARGEST_LIST);
        let sheets = sheets_of(&text);
        let distinct: HashSet<&[u8]> = sheets.iter().copied().collect();
        assert_eq!(distinct.len(), sheets.len());
        assert!(sheets.iter().all(|sheet| sheet.len() <= 400));
        for sheet in SMALL.iter().chain(&LARGER) {
            assert_eq!(read(sheet).map(|_| ()), Ok(()));
            assert!(distinct.contains(sheet));
        }
    }
}
