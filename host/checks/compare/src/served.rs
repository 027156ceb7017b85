//! The archive in another process, which answers over its standard input and output: the program
//! served/served.c, or an emulator that runs it.
//!
//! A batch is the number of its bytes, a word, and the calls one after the other. A call is fifteen
//! words: the function; six arguments; the length; how many numbers are lent, and how many bytes; five places.
//! What is lent follows, the numbers first, filled up to whole words. Each answer takes the place of its call,
//! with the reply's number where the function was. A word has eight bytes, the lowest first.

use crate::boundary::Boundary;
use crate::call::{Call, ARGUMENTS};
use std::io::{self, Read, Write};
use std::process::{Child, Command, Stdio};
use std::sync::mpsc::{self, Receiver, Sender};
use std::thread;
use std::time::Duration;

/// Where the places begin among the words of a call: behind the function, the arguments, the length and how much is lent.
const PLACES: usize = 1 + ARGUMENTS + 3;

/// The words of a call before what is lent.
const WORDS: usize = PLACES + 5;

const WORD_BYTES: usize = 8;

/// How long the process may take over a batch. One that reads nothing or writes too little would be
/// waited for without end.
const PATIENCE: Duration = Duration::from_secs(60);

pub struct Served {
    process: Child,
    questions: Sender<Vec<u8>>,
    answers: Receiver<io::Result<Vec<u8>>>,
    patience: Duration,
}

impl Served {
    pub fn start(command: &[String]) -> io::Result<Served> {
        let [program, words @ ..] = command else {
            return Err(io::Error::other("no command to start"));
        };
        let mut process = Command::new(program)
            .args(words)
            .stdin(Stdio::piped())
            .stdout(Stdio::piped())
            .spawn()?;
        let mut input = process.stdin.take().expect("a pipe to the process");
        let mut output = process.stdout.take().expect("a pipe from the process");
        let (questions, batches) = mpsc::channel();
        let (answered, answers) = mpsc::channel();
        // It alone can be kept waiting by the process. It ends with the channels, or with this program.
        thread::spawn(move || {
            for batch in batches {
                let answer = exchange(&mut input, &mut output, batch);
                if answered.send(answer).is_err() {
                    break;
                }
            }
        });
        Ok(Served {
            process,
            questions,
            answers,
            patience: PATIENCE,
        })
    }

    /// The batch with its answers.
    fn ask(&self, batch: Vec<u8>) -> io::Result<Vec<u8>> {
        self.questions.send(batch).map_err(io::Error::other)?;
        let answer = self.answers.recv_timeout(self.patience);
        let late = format!("a batch is not answered in {:?}", self.patience);
        answer.unwrap_or_else(|_| Err(io::Error::other(late)))
    }
}

/// The process reads a whole batch before it answers, so neither waits for the other.
fn exchange(
    input: &mut impl Write,
    output: &mut impl Read,
    mut batch: Vec<u8>,
) -> io::Result<Vec<u8>> {
    input.write_all(&word(batch.len() as u64))?;
    input.write_all(&batch)?;
    input.flush()?;
    output.read_exact(&mut batch)?;
    Ok(batch)
}

impl Boundary for Served {
    fn make(&mut self, calls: &mut [Call]) -> io::Result<()> {
        let mut batch = Vec::with_capacity(calls.iter().map(length_of).sum());
        calls.iter().for_each(|call| put(call, &mut batch));
        let batch = self.ask(batch)?;
        let mut rest = &batch[..];
        for call in calls {
            let (answer, others) = rest.split_at(length_of(call));
            answered(call, answer)?;
            rest = others;
        }
        Ok(())
    }
}

/// The process is ended, since one that breaks the form need not end with its input.
impl Drop for Served {
    fn drop(&mut self) {
        // nothing is left to be told, and a process that failed has shown it by not answering
        let _ = self.process.kill();
        let _ = self.process.wait();
    }
}

fn word(number: u64) -> [u8; WORD_BYTES] {
    number.to_le_bytes()
}

/// How many bytes a call takes in a batch.
fn length_of(call: &Call) -> usize {
    WORDS * WORD_BYTES + call.lent_bytes().next_multiple_of(WORD_BYTES)
}

fn bytes_of(call: &Call) -> Vec<u8> {
    let mut bytes = Vec::with_capacity(length_of(call));
    put(call, &mut bytes);
    bytes
}

/// Behind what is there. The caller has made room: if millions of vectors grew here, the workers would wait for
/// each other in the allocator.
fn put(call: &Call, bytes: &mut Vec<u8>) {
    let end = bytes.len() + length_of(call);
    let mut put_word = |number| bytes.extend_from_slice(&word(number));
    put_word(call.function as u64);
    call.arguments.into_iter().for_each(&mut put_word);
    put_word(call.length as u64);
    put_word(call.lists.len() as u64);
    put_word((call.book.len() + call.sheet.len()) as u64);
    call.places.into_iter().for_each(&mut put_word);
    call.lists.iter().copied().for_each(&mut put_word);
    bytes.extend_from_slice(&call.book);
    bytes.extend_from_slice(&call.sheet);
    bytes.resize(end, 0);
}

/// Takes the answer over. All else must have come back as it was sent.
fn answered(call: &mut Call, answer: &[u8]) -> io::Result<()> {
    let sent = bytes_of(call);
    let (words, lent) = answer.split_at((WORDS + call.lists.len()) * WORD_BYTES);
    let words: Vec<u64> = words
        .chunks_exact(WORD_BYTES)
        .map(|bytes| u64::from_le_bytes(bytes.try_into().expect("eight bytes")))
        .collect();
    call.number = words[0];
    call.places.copy_from_slice(&words[PLACES..WORDS]);
    call.lists.copy_from_slice(&words[WORDS..]);
    let (book, behind_book) = lent.split_at(call.book.len());
    let (sheet, filled_up) = behind_book.split_at(call.sheet.len());
    call.book.copy_from_slice(book);
    call.sheet.copy_from_slice(sheet);
    let between = WORD_BYTES..PLACES * WORD_BYTES;
    let after = answer.len() - filled_up.len()..;
    if answer[between.clone()] != sent[between] || answer[after.clone()] != sent[after] {
        return Err(io::Error::other(format!(
            "written beside the places: {call}"
        )));
    }
    Ok(())
}

#[cfg(test)]
mod tests {
    use super::*;
    use crate::call::{Kept, KeptReport};
    use second::cursor::Cursor;

    fn call() -> Call {
        Call::state_with_book([1, 2, 3], 4, &[5, 6, 7], 2)
    }

    /// An answer is taken over, with what was written to what is lent, and is nothing else than the call was where
    /// nothing was written.
    #[test]
    fn answers() {
        let claims = Call::claims(&[[1, 2, 3, 4, 5], [6, 7, 8, 9, 10]], [2; 5]);
        let write = Call::write_sheet(&[1, 2, 3, 4, 5, 6].map(|number| vec![number]), 3);
        let part = Call::parts_take(&Kept::default(), b"0\n0\n", 3);
        let report = Call::report_end(&KeptReport::nothing());
        let next = Call::sheet_next(b"0\n0\n", 3, Cursor::default());
        for mut taken in [call(), claims, write, part, report, next] {
            let mut made = taken.clone();
            made.number = 0;
            made.places = [1, 2, 3, 4, 5];
            let bytes = made.book.iter_mut().chain(&mut made.sheet);
            bytes.skip(2).for_each(|byte| *byte = 8);
            made.lists.iter_mut().skip(2).for_each(|number| *number = 8);
            let mut answer = bytes_of(&made);
            answer[..WORD_BYTES].copy_from_slice(&word(0));
            answered(&mut taken, &answer).expect("an answer");
            assert_eq!(taken, made);
        }
    }

    /// One that reads nothing and writes nothing, one that ends at once, and one that sends the number of
    /// the batch's bytes back before it.
    #[test]
    fn processes_that_do_not_answer() {
        for command in [&["sleep", "60"][..], &["true"], &["cat"]] {
            let command: Vec<String> = command.iter().map(|word| word.to_string()).collect();
            let mut served = Served::start(&command).expect("a process");
            served.patience = Duration::from_millis(100);
            assert!(served.make(&mut [call()]).is_err(), "{command:?}");
        }
    }

    /// The first argument and the last, the length, how much is lent, and what fills the last word up.
    #[test]
    fn written_beside_the_places() {
        for word in [1, 6, 7, 8, 9, WORDS] {
            let mut answer = bytes_of(&call());
            answer[word * WORD_BYTES + 7] ^= 1;
            assert!(answered(&mut call(), &answer).is_err());
        }
    }
}
