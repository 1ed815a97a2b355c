//! Writes a corpus, or reads one and works all its outcomes out again. The
//! format is described at the top of `compare::corpus` and in README.md.

use compare::corpus::{check, checksum, make};
use compare::stand_in::LIBRARY;
use compare::{Counts, DEFAULT_SEED};
use std::process::ExitCode;
use std::{env, fs};

const USAGE: &str = "usage: corpus [--seed N] FILE | corpus --check FILE | corpus --line FILE";

fn main() -> ExitCode {
    let arguments: Vec<String> = env::args().skip(1).collect();
    let arguments: Vec<&str> = arguments.iter().map(String::as_str).collect();
    let done = match arguments.as_slice() {
        ["--check", file] => checked(file).map(|(corpus, counts)| described(&corpus, &counts)),
        ["--line", file] => checked(file).map(|(_, counts)| last_line(&counts)),
        ["--seed", seed, file] => seed
            .parse()
            .map_err(|_| USAGE.to_string())
            .and_then(|seed| written(seed, file)),
        [file] if !file.starts_with("--") => written(DEFAULT_SEED, file),
        _ => Err(USAGE.to_string()),
    };
    match done {
        Ok(line) => {
            println!("{line}");
            ExitCode::SUCCESS
        }
        Err(wrong) => {
            eprintln!("{wrong}");
            ExitCode::FAILURE
        }
    }
}

fn written(seed: u64, file: &str) -> Result<String, String> {
    fs::write(file, make(seed)).map_err(|error| format!("{file}: {error}"))?;
    checked(file).map(|(corpus, counts)| described(&corpus, &counts))
}

/// The bytes and the counts of a corpus in which nothing is missing.
fn checked(file: &str) -> Result<(Vec<u8>, Counts), String> {
    let corpus = fs::read(file).map_err(|error| format!("{file}: {error}"))?;
    let counts = check(&LIBRARY, &corpus)?;
    match counts.missing().as_slice() {
        [] => Ok((corpus, counts)),
        missing => Err(format!("never occurred: {}", missing.join(", "))),
    }
}

/// What a program that goes through the corpus says at its end.
fn last_line(counts: &Counts) -> String {
    format!("{} cases, {} calls", counts.words(), counts.calls())
}

fn described(corpus: &[u8], counts: &Counts) -> String {
    let sum = checksum(corpus);
    format!("{} bytes, FNV-1a {sum:08x}, {counts}", corpus.len())
}
