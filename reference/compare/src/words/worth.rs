//! That the kinds of words are worth comparing: most are accepted, many of
//! them select something, many fold, and every refusal of words occurs.

use super::{made, KINDS};
use crate::returned::{is_refused, refusal};
use crate::stand_in::{minimal_image, plain_image};
use reference::{Reason, LONGEST_IMAGE};
use std::collections::BTreeMap;

const WORDS: u64 = 2_000;
const EMPTY_IMAGE: u64 = 1;

/// The refusals of words.
const OF_WORDS: [Reason; 6] = [
    Reason::WordTooLong,
    Reason::BadNumber,
    Reason::MissingOperand,
    Reason::TooManyPending,
    Reason::TooManySteps,
    Reason::NotOneOperand,
];

fn word(index: u64) -> Vec<u8> {
    made(99, index).word
}

#[test]
fn the_words_are_worth_comparing() {
    let mut refusals = BTreeMap::<u32, u64>::new();
    let (mut accepted, mut selecting, mut folding) = (0, 0, 0);
    for word in (0..WORDS).map(word) {
        let mut plain = [0; LONGEST_IMAGE];
        let mut minimal = [0; LONGEST_IMAGE];
        let returned = plain_image(&word, &mut plain);
        let also_returned = minimal_image(&word, &mut minimal);
        assert_eq!(refusal(returned), refusal(also_returned));
        *refusals.entry(refusal(returned)).or_default() += 1;
        accepted += u64::from(!is_refused(returned));
        selecting += u64::from(!is_refused(returned) && returned > EMPTY_IMAGE);
        folding += u64::from(plain != minimal);
    }
    assert!(accepted > WORDS / 2, "accepted {accepted}");
    assert!(selecting > accepted * 3 / 4, "selecting {selecting}");
    assert!(folding > accepted / 4, "folding {folding}");
    for reason in OF_WORDS {
        let count = refusals.get(&reason.number());
        assert!(count > Some(&10), "{reason:?}: {refusals:?}");
    }
}

#[test]
fn a_word_can_be_made_again_alone() {
    assert_eq!(word(1_234), word(1_234));
    assert_ne!(word(1), word(1 + KINDS.len() as u64));
}
