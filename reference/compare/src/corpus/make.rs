//! Makes the corpus of a seed: what the specification tells at the limits, then
//! words of all kinds in turn, those with small cases, and a part of those with
//! large ones.

use super::case::{number, Asked, Case, Written};
use super::told::told;
use super::{BEGIN, LONGEST_CASE, MOST_ROWS, WORKSPACE_BUFFER};
use crate::generator::Generator;
use crate::question::question;
use crate::returned::{is_refused, value};
use crate::stand_in;
use crate::words::{made, Made, EXACT_WORDS};
use reference::LONGEST_NORMAL_FORM;

const CASES: usize = 4_000;
const SMALL_CASE: usize = 400;
/// After the words exactly at limits have had their turns, one word in so many
/// may have a large case. No divisor is shared with the number of kinds, so
/// that the turn comes to each of them.
const LARGE_TURN: u64 = 80;
const SMALL_TABLE: usize = 24;
const LARGE_TABLE: usize = 200;

/// The bytes of the corpus of a seed.
pub fn make(seed: u64) -> Vec<u8> {
    let made = (0..).filter_map(|index| encoded(seed, index)).take(CASES);
    let cases: Vec<Vec<u8>> = told().iter().map(Case::encoded).chain(made).collect();
    let longest = cases.iter().map(Vec::len).max().unwrap_or(0);
    let mut bytes = BEGIN.to_vec();
    number(cases.len(), &mut bytes);
    number(longest, &mut bytes);
    for case in cases {
        number(case.len(), &mut bytes);
        bytes.extend(case);
    }
    bytes
}

/// The case of the word with this index, unless it is too large.
fn encoded(seed: u64, index: u64) -> Option<Vec<u8>> {
    let Made {
        word,
        mut generator,
        ..
    } = made(seed, index);
    let may_be_large = generator.turn < EXACT_WORDS || index % LARGE_TURN == 0;
    let (most_bytes, most_rows) = match may_be_large {
        true => (LONGEST_CASE, LARGE_TABLE),
        false => (SMALL_CASE, SMALL_TABLE),
    };
    // Working out a case that would be dropped takes the most time.
    if word.len() > most_bytes {
        return None;
    }
    let case = case(&mut generator, word, most_rows).encoded();
    (case.len() <= most_bytes).then_some(case)
}

fn case(generator: &mut Generator, word: Vec<u8>, most_rows: usize) -> Case {
    let questions = generator.pick(&[0, 1, 1]);
    let asked = (0..questions)
        .map(|_| asked(generator, &word, most_rows))
        .collect();
    let writers = [
        stand_in::plain_image,
        stand_in::minimal_image,
        stand_in::normal_form,
    ];
    let unanswered = Case {
        written: writers.map(|writer| Written {
            room: room(generator, writer(&word, &mut [0; LONGEST_NORMAL_FORM])),
            result: 0,
            answer: Vec::new(),
            rest_kept: true,
        }),
        word,
        asked,
    };
    unanswered.by(&stand_in::LIBRARY)
}

/// Mostly enough for the answer, so that it stands in the corpus.
fn room(generator: &mut Generator, returned: u64) -> usize {
    let answer = value(returned);
    match generator.below(16) {
        _ if is_refused(returned) => generator.below(20),
        0 => answer - 1,
        1 => generator.below(answer),
        2..8 => answer + generator.below(16),
        _ => answer,
    }
}

fn asked(generator: &mut Generator, word: &[u8], most_rows: usize) -> Asked {
    let mut question = question(generator, word, most_rows);
    question.table.parents.truncate(MOST_ROWS);
    question.table.labels.truncate(MOST_ROWS);
    Asked {
        parents: question.table.parents,
        labels: question.table.labels,
        m: question.m,
        n: question.n,
        workspace: question.workspace.min(WORKSPACE_BUFFER),
        result: 0,
        checksum: 0,
    }
}
