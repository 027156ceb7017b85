//! Makes the expected output of the program `state_points` from what the program writes:
//!
//!     state_points < WRITTEN > crates/state_points/stdout
//!
//! From each line it takes the question alone, "fluid millikelvin pascals slot", and from the first
//! line the book before. It answers every question anew by looking at every place of the grid, never
//! at a book, keeps a book of its own, and writes the whole text anew: the two texts are equal exactly
//! where all answers are.

use second::state::{reply_with_book, Reply, BOOK_BYTES};
use std::io::{self, BufWriter, Read, Write};
use std::str::FromStr;

fn main() -> io::Result<()> {
    let mut text = String::new();
    io::stdin().read_to_string(&mut text)?;
    let mut lines = text.lines();
    let mut book = book_of(lines.next().expect("the book before"));
    let mut out = BufWriter::new(io::stdout().lock());
    write_book(&mut out, &book)?;
    let mut states = 0;
    for line in lines.take_while(|line| !line.starts_with("book")) {
        let [fluid, millikelvin, pascals, slot] = question_of(line);
        let reply = reply_with_book(fluid, millikelvin, pascals, slot, &mut book);
        write!(out, "{fluid} {millikelvin} {pascals} {slot} ")?;
        write_reply(&mut out, &reply)?;
        states += 1;
    }
    write_book(&mut out, &book)?;
    writeln!(out, "{states} states")
}

fn number_of<T: FromStr>(word: &str) -> T {
    word.parse()
        .unwrap_or_else(|_| panic!("no number that fits: {word}"))
}

fn book_of(line: &str) -> [u8; BOOK_BYTES] {
    let words = line.strip_prefix("book ").expect("the word book first");
    let bytes: Vec<u8> = words.split(' ').map(number_of).collect();
    bytes.try_into().expect("192 bytes in a book")
}

fn question_of(line: &str) -> [u64; 4] {
    let numbers: Vec<u64> = line.split(' ').take(4).map(number_of).collect();
    numbers.try_into().expect("four numbers in a question")
}

fn write_book(out: &mut impl Write, book: &[u8]) -> io::Result<()> {
    write!(out, "book")?;
    for byte in book {
        write!(out, " {byte}")?;
    }
    writeln!(out)
}

fn write_reply(out: &mut impl Write, reply: &Reply) -> io::Result<()> {
    let Reply {
        number,
        kind,
        gas_root,
        dense_root,
        gas_density,
        dense_density,
    } = reply;
    writeln!(
        out,
        "{number} {kind} {gas_root} {dense_root} {gas_density} {dense_density}"
    )
}
