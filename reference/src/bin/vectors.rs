//! Plays a file of vectors on the reference and prints each difference: `vectors FILE`, or from the standard input.

use reference::vectors::{outcome_words, read_line, to_hex, Entry, Executor, Reference};
use std::fs::File;
use std::io::{self, BufRead, BufReader};
use std::process::ExitCode;

/// What has been compared so far.
#[derive(Default)]
struct Tally {
    case: String,
    cases: usize,
    compared: usize,
    different: usize,
}

impl Tally {
    fn compare(&mut self, line: &str, got: &str, expected: &str) -> bool {
        self.compared += 1;
        if got != expected {
            self.different += 1;
            let shown: String = line.chars().take(200).collect();
            println!("case {}: {shown}\n   got  {got}", self.case);
        }
        got == expected
    }

    fn begin(&mut self, name: String) {
        self.cases += 1;
        self.case = name;
    }
}

fn lines() -> io::Result<Box<dyn BufRead>> {
    Ok(match std::env::args().nth(1) {
        Some(path) => Box::new(BufReader::new(File::open(path)?)),
        None => Box::new(BufReader::new(io::stdin())),
    })
}

fn main() -> io::Result<ExitCode> {
    let mut tally = Tally::default();
    let mut reference = Reference::new();
    for line in lines()?.lines() {
        let line = line?;
        match read_line(&line) {
            None if line.trim().is_empty() => {}
            None => println!("not of the format: {line}"),
            Some((Entry::Case(name), _)) => {
                tally.begin(name);
                reference = Reference::new();
            }
            Some((Entry::SheetIs(bytes), _)) => {
                tally.compare(&line, &to_hex(&reference.sheet), &to_hex(&bytes));
                reference.sheet = bytes;
            }
            Some((Entry::Step(step), expected)) => {
                let outcome = reference.play(&step);
                if line.contains("->") {
                    tally.compare(&line, &outcome_words(&outcome, &reference.image), &expected);
                }
            }
        }
    }
    println!("{} cases, {} compared, {} differ", tally.cases, tally.compared, tally.different);
    Ok(if tally.different == 0 { ExitCode::SUCCESS } else { ExitCode::FAILURE })
}
