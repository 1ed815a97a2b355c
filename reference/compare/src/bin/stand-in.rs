//! The program of the comparison with the second implementation in the
//! library's place, to test the comparison itself.

use compare::{program, stand_in};
use std::process::ExitCode;

fn main() -> ExitCode {
    program::main(&stand_in::LIBRARY)
}
