//! The program of the comparison, for whatever library it is linked with.

use crate::counts::Counts;
use crate::library::Library;
use crate::options;
use crate::run::run;
use std::process::ExitCode;

/// Compares the library as the program's options tell. The status is 0 if all
/// agreed, 1 if there was a difference or nothing was compared, 2 if the
/// options are wrong.
pub fn main(library: &Library) -> ExitCode {
    let plan = match options::read(std::env::args().skip(1)) {
        Ok(plan) => plan,
        Err(wrong) => {
            eprintln!("{wrong}\n{}", options::USAGE);
            return ExitCode::from(2);
        }
    };
    match run(library, plan) {
        Ok(counts) => concluded(library, plan.seed, &counts),
        Err(difference) => {
            print!("seed {}: {difference}", plan.seed);
            ExitCode::FAILURE
        }
    }
}

fn concluded(library: &Library, seed: u64, counts: &Counts) -> ExitCode {
    println!("{} agrees, seed {seed}: {counts}", library.name);
    let missing = counts.missing();
    for what in &missing {
        println!("never occurred: {what}");
    }
    match missing.is_empty() {
        true => ExitCode::SUCCESS,
        false => ExitCode::FAILURE,
    }
}
