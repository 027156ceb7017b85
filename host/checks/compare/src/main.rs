//! Compares what libwoolyard.a answers with what the second implementation does:
//!
//!     compare [--verbose] [--served COMMAND [WORDS...]]
//!
//! The archive is linked into this program, or another process is asked, which is the only way where
//! the machine is not x86-64. It is silent unless there is a difference, and ends at the first one, or
//! where that process gives no answer for a minute.

mod boundary;
mod call;
mod comparison;
#[cfg(target_arch = "x86_64")]
mod linked;
mod parts;
mod second_side;
mod served;
mod tally;
mod workers;

use boundary::Boundary;
use served::Served;
use std::process::ExitCode;
use std::time::Instant;

const USAGE: &str = "usage: compare [--verbose] [--served COMMAND [WORDS...]]";

struct Arguments {
    verbose: bool,
    /// The command and its words; none where the archive is linked.
    served: Option<Vec<String>>,
}

fn main() -> ExitCode {
    match run() {
        Ok(()) => ExitCode::SUCCESS,
        Err(sentence) => {
            eprintln!("compare: {sentence}");
            ExitCode::FAILURE
        }
    }
}

fn run() -> Result<(), String> {
    let Arguments { verbose, served } = arguments(std::env::args().skip(1))?;
    let begin = Instant::now();
    let tallies = workers::run(&parts::units(), || archive(served.as_deref()))?;
    if verbose {
        for (part, tally) in tallies {
            println!("{part}: {tally}");
        }
        println!("{:.1} s", begin.elapsed().as_secs_f64());
    }
    Ok(())
}

fn arguments(mut words: impl Iterator<Item = String>) -> Result<Arguments, String> {
    let mut arguments = Arguments {
        verbose: false,
        served: None,
    };
    while let Some(word) = words.next() {
        match word.as_str() {
            "--verbose" => arguments.verbose = true,
            "--served" => arguments.served = Some(words.by_ref().collect()),
            _ => return Err(USAGE.to_string()),
        }
    }
    if arguments.served.as_ref().is_some_and(Vec::is_empty) {
        return Err(USAGE.to_string());
    }
    Ok(arguments)
}

/// One for each worker.
fn archive(served: Option<&[String]>) -> Result<Box<dyn Boundary>, String> {
    match served {
        Some(command) => match Served::start(command) {
            Ok(served) => Ok(Box::new(served)),
            Err(error) => Err(format!("{} can't be started: {error}", command[0])),
        },
        None => linked_archive(),
    }
}

#[cfg(target_arch = "x86_64")]
fn linked_archive() -> Result<Box<dyn Boundary>, String> {
    Ok(Box::new(linked::Linked))
}

#[cfg(not(target_arch = "x86_64"))]
fn linked_archive() -> Result<Box<dyn Boundary>, String> {
    Err("the archive is for x86-64, so on this machine compare needs --served.".to_string())
}
