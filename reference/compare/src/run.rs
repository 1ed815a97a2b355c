//! The run: words of all kinds in turn until the end.

use crate::check::Check;
use crate::counts::Counts;
use crate::difference::{hex, Difference};
use crate::library::Library;
use crate::words::made;
use std::time::{Duration, Instant};

/// The seed of the gate.
pub const DEFAULT_SEED: u64 = 20_011;
/// The seconds of the gate.
pub const DEFAULT_SECONDS: u64 = 50;

/// When a run ends.
#[derive(Clone, Copy, Debug, PartialEq, Eq)]
pub enum End {
    /// After so many seconds.
    Seconds(u64),
    /// After so many words.
    Words(u64),
}

/// Which words a run goes through.
#[derive(Clone, Copy, Debug, PartialEq, Eq)]
pub struct Plan {
    /// Decides everything about the words but their number.
    pub seed: u64,
    /// The index of the first word.
    pub first: u64,
    /// When the run ends.
    pub end: End,
    /// Whether every word is printed before the library sees it, so that it is
    /// known which one a crash came from.
    pub trace: bool,
}

/// Compares a library with the second implementation.
pub fn run(library: &Library, plan: Plan) -> Result<Counts, Box<Difference>> {
    let mut counts = Counts::default();
    let begin = Instant::now();
    for index in plan.first.. {
        let ended = match plan.end {
            End::Seconds(seconds) => begin.elapsed() >= Duration::from_secs(seconds),
            End::Words(words) => index - plan.first >= words,
        };
        if ended {
            break;
        }
        let mut made = made(plan.seed, index);
        if plan.trace {
            println!("{index} {} {}", made.kind, hex(&made.word));
        }
        let mut check = Check {
            library,
            index,
            kind: made.kind,
            word: &made.word,
            generator: &mut made.generator,
            counts: &mut counts,
        };
        check.all()?;
    }
    Ok(counts)
}
