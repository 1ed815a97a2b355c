//! Deliberately wrong stand-ins: the comparison has to find each of them
//! within a second, and the corpus has to hold a case against it.

mod wrong {
    pub mod folding;
    pub mod selects;
    pub mod writers;
}

use compare::corpus::{check, make};
use compare::library::Library;
use compare::{run, End, Plan, DEFAULT_SEED};

/// Fewer words than the comparison goes through in a second. Words are
/// counted, since a second is not the same on every machine.
const WORDS_OF_A_SECOND: u64 = 300;

fn all() -> Vec<Library> {
    [
        wrong::folding::all(),
        wrong::writers::all(),
        wrong::selects::all(),
    ]
    .concat()
}

fn plan(seed: u64) -> Plan {
    Plan {
        seed,
        first: 0,
        end: End::Words(WORDS_OF_A_SECOND),
        trace: false,
    }
}

#[test]
fn the_comparison_finds_each_within_a_second() {
    for seed in [DEFAULT_SEED, 1, 2] {
        let agrees = |library: &Library| run(library, plan(seed)).is_ok();
        let missed: Vec<_> = all()
            .into_iter()
            .filter(agrees)
            .map(|library| library.name)
            .collect();
        assert!(missed.is_empty(), "seed {seed}: not found: {missed:?}");
    }
}

/// The wrong foldings are this one but for a single thing each.
#[test]
fn the_right_folding_agrees() {
    assert!(run(&wrong::folding::right(), plan(DEFAULT_SEED)).is_ok());
}

#[test]
fn the_corpus_holds_a_case_against_each() {
    let corpus = make(DEFAULT_SEED);
    let agrees = |library: &Library| check(library, &corpus).is_ok();
    let missed: Vec<_> = all()
        .into_iter()
        .filter(agrees)
        .map(|library| library.name)
        .collect();
    assert!(missed.is_empty(), "not found: {missed:?}");
}

#[test]
fn a_difference_tells_word_table_and_both_answers() {
    let library = wrong::selects::all()[0];
    let difference = run(&library, plan(DEFAULT_SEED)).unwrap_err().to_string();
    for part in [
        "word ",
        "parents ",
        "labels ",
        "pair ",
        "expected ",
        "found ",
        "byte 32767",
    ] {
        assert!(
            difference.contains(part),
            "{part} is missing in {difference}"
        );
    }
}
