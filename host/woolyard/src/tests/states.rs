//! The state lines of a sheet in one pass, and the function of the boundary that it is made of.

use super::*;
use boundary::{sheet_next, CURSOR};

/// The sheets of the other tests: good ones, and those that are refused at some line.
fn texts() -> Vec<&'static [u8]> {
    let good = [EXAMPLE, b"0\n0\n0\n", b"1\n7 7\n0\n2\n7 8\n9 9\n"];
    let faulty = FAULTY.map(|(text, ..)| text);
    [&good[..], &faulty, &UNFINISHED].concat()
}

/// What is told of a sheet, line by line, each by a reading of its own.
fn line_by_line(text: &[u8]) -> Vec<State> {
    Vec::from_iter((0..).map_while(|k| sheet_line(text, k).ok()))
}

#[test]
fn states_of_good_sheets() {
    let [_, longest] = widest_and_longest();
    let good = texts().into_iter().filter(|text| sheet(text).is_ok());
    for text in good.chain([longest.as_bytes()]) {
        let states = crate::states(text).collect::<Result<Vec<_>, _>>();
        assert_eq!(states, Ok(line_by_line(text)));
    }
    assert_eq!(crate::states(longest.as_bytes()).count(), 3000);
    let states = Vec::from_iter(crate::states(EXAMPLE));
    assert_eq!(states, EXAMPLE_STATES.map(Ok));
}

/// A good sheet cut off at every byte, and those of the other tests: the lines before the fault are told and then the
/// fault, once, with its place and its line.
#[test]
fn states_of_refused_sheets() {
    let cut_off = (0..EXAMPLE.len()).map(|length| &EXAMPLE[..length]);
    for text in cut_off.chain(texts()) {
        let Err(faulty) = sheet(text) else { continue };
        let Fault::Malformed { place } = faulty.fault() else {
            panic!("{faulty}")
        };
        let mut states = crate::states(text);
        // a line ends where another begins, so those before the fault are what was answered in parts
        for line in in_parts(&[&text[..place]]).0 {
            let state = states.next().and_then(Result::ok).map(line_of);
            assert_eq!(state, Some(line));
        }
        assert_eq!(states.next(), Some(Err(faulty)));
        assert_eq!(states.next(), None);
    }
    let empty = Vec::from_iter(crate::states(b""));
    assert_eq!(empty, [Err(malformed(0, b""))]);
}

/// It is refused as a whole, also where each of its lines could stand.
#[test]
fn states_of_a_sheet_that_is_too_long() {
    let [widest, longest] = widest_and_longest();
    for text in [widest, format!("{longest}0")] {
        let told = Vec::from_iter(crate::states(text.as_bytes()));
        assert_eq!(told, [Err(FaultySheet::TooLong)]);
    }
}

/// Behind the end it stays at the end; and a clone goes on by itself.
#[test]
fn states_that_are_over() {
    for (text, told) in [
        (EXAMPLE, 4),
        (b"0\n0\n0\n", 0),
        (b"", 1),
        (b"1\n7 7\n0\nx\n", 2),
        (&[b'0'; SHEET_MOST_BYTES + 1], 1),
    ] {
        let mut states = crate::states(text);
        let other = states.clone();
        assert_eq!(states.by_ref().count(), told);
        assert_eq!([states.next(), states.next()], [None, None]);
        assert_eq!(other.count(), told);
    }
}

/// Every place, whatever it held before; and only an answer moves the cursor.
#[test]
fn places_written_for_a_step() {
    let too_long = [b'0'; SHEET_MOST_BYTES + 1];
    let any = [7, 1 << 32, u64::MAX];
    let none = [0; 3];
    for (text, cursor, number, moved, state) in [
        (EXAMPLE, none, 0, [1, 0, 17], [0, 300_000, 1_000_000]),
        (EXAMPLE, [1, 0, 17], 0, [2, 2, 34], [1, 300_000, 1_000_000]),
        (EXAMPLE, [2, 1, 48], 0, [2, 0, 61], [1, 55_999, 500_000]),
        (EXAMPLE, [2, 0, 61], 16, [2, 0, 61], none),
        (b"0\n0\n0\n", none, 16, none, none),
        (b"", none, 6, none, none),
        (b"1\n7 7\nx\n", [1, 0, 6], 6, [1, 0, 6], none),
        (b"0\n0\n0\n0\n", none, 6, none, none),
        (&too_long, none, 7, none, none),
        (&too_long, any, 7, any, none),
    ] {
        let (mut at, mut told) = (cursor, [7; 3]);
        let answered = sheet_next(text, &mut at, &mut told);
        assert_eq!((answered, at, told), (number, moved, state), "{cursor:?}");
    }
}

/// Cursors that no walk has left are taken too. What is answered is a line of the sheet, behind which the cursor then is;
/// and from the same cursor it is the same again.
#[test]
fn any_numbers_as_a_cursor() {
    let length = EXAMPLE.len() as u64;
    let beside = [length - 1, length, length + 1];
    let mut numbers = vec![0, 1, 2, 3, 4, 17, 1000, 1 << 32, 1 << 63, u64::MAX];
    numbers.extend(beside);
    for &begun in &numbers {
        for &lacking in &numbers {
            for &place in &numbers {
                let start = [begun, lacking, place];
                step(EXAMPLE, start);
                step(b"", start);
            }
        }
    }
}

/// One call from this cursor, and the same again.
fn step(text: &[u8], start: [u64; CURSOR]) {
    let call = || {
        let (mut cursor, mut state) = (start, [7; 3]);
        let number = sheet_next(text, &mut cursor, &mut state);
        (number, cursor, state)
    };
    let (number, cursor, state) = call();
    assert_eq!(call(), (number, cursor, state));
    let [_, _, place] = cursor;
    if number == 0 {
        let [_, millikelvin, pascals] = state;
        let line = format!("{millikelvin} {pascals}\n");
        let before = &text[..place as usize];
        assert!(before.ends_with(line.as_bytes()), "{start:?}");
    } else {
        assert!([6, 16].contains(&number), "{start:?}: {number}");
        assert_eq!((cursor, state), (start, [0; 3]));
    }
}

/// A step looks at nothing ahead of the cursor and at nothing behind the line that it tells, so that it costs what the line
/// does: with other bytes there, however many, it is the same.
#[test]
fn bytes_that_a_step_reads() {
    let mut cursor = [0; CURSOR];
    loop {
        let (start, mut state) = (cursor, [7; 3]);
        if sheet_next(EXAMPLE, &mut cursor, &mut state) != 0 {
            break;
        }
        let [from, to] = [start[2], cursor[2]].map(|place| place as usize);
        let mut other = [b'x'; SHEET_MOST_BYTES];
        other[from..to].copy_from_slice(&EXAMPLE[from..to]);
        for length in [to, to + 1, SHEET_MOST_BYTES] {
            let (mut at, mut told) = (start, [7; 3]);
            let number = sheet_next(&other[..length], &mut at, &mut told);
            assert_eq!((number, at, told), (0, cursor, state));
        }
    }
    assert_eq!(cursor, [2, 0, 61]);
}
