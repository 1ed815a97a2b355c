//! Checks on seeded random words and documents.

use super::folding::{folded, folding_brother};
use super::generator::{pending_after, Generator};
use super::selecting::selecting_word;
use super::selection::by_laying;
use crate::document::Document;
use crate::image::image;
use crate::minimal_in_image_order;
use crate::normal::normal_form;
use crate::plain::plain_tree;
use crate::relation::evaluate;
use crate::tree::Tree;
use crate::word::{self, Sign};

/// The largest there are, smaller than the promised 1,538 and 2,048.
const LARGEST_IMAGE: usize = 1_283;
const LARGEST_NORMAL_FORM: usize = 1_788;
const MOST_PENDING_IN_NORMAL_FORM: usize = 130;

#[test]
fn small_selecting_words() {
    let mut generator = Generator::new(0x6f2d_11c7_5ae3_9b01);
    for _ in 0..20_000 {
        let size = 1 + generator.below(14);
        let signs = selecting_word(&mut generator, size);
        check_word(&signs, &mut generator, 3);
    }
}

#[test]
fn small_loose_words() {
    let mut generator = Generator::new(0x1d87_c0de_4f2a_7713);
    for _ in 0..20_000 {
        let signs = generator.loose_word(16);
        check_word(&signs, &mut generator, 3);
    }
}

#[test]
fn large_words() {
    let mut generator = Generator::new(0x9b51_3e0f_a2c4_d867);
    for _ in 0..300 {
        let size = 60 + generator.below(240);
        let signs = selecting_word(&mut generator, size);
        check_word(&signs, &mut generator, 1);
    }
}

/// All that must agree about one accepted word.
fn check_word(signs: &[Sign], generator: &mut Generator, documents: usize) {
    let plain = plain_tree(signs);
    let minimal = minimal_in_image_order(signs);
    let normal = normal_form(minimal.as_ref());
    let normal_signs = word::read(&normal).expect("always accepted as a word");
    check_folding(plain.as_ref(), minimal.as_ref());
    check_normal_form(&normal_signs, &normal, minimal.as_ref());
    for _ in 0..documents {
        let document = generator.document(8);
        let selected: Vec<_> = evaluate(signs, &document).pairs().collect();
        assert_eq!(by_laying(plain.as_ref(), &document), selected, "{signs:?}");
        assert_eq!(
            by_laying(minimal.as_ref(), &document),
            selected,
            "{signs:?}"
        );
        let by_normal_form: Vec<_> = evaluate(&normal_signs, &document).pairs().collect();
        assert_eq!(by_normal_form, selected, "{signs:?}");
    }
    if let Some(minimal) = minimal {
        check_on_own_document(signs, &minimal);
    }
}

fn check_folding(plain: Option<&Tree>, minimal: Option<&Tree>) {
    let by_folding = plain.map(folded);
    assert_eq!(image(by_folding.as_ref()), image(minimal));
    assert_eq!(minimal.and_then(folding_brother), None);
}

fn check_normal_form(signs: &[Sign], normal: &[u8], minimal: Option<&Tree>) {
    let again = minimal_in_image_order(signs);
    assert_eq!(image(again.as_ref()), image(minimal));
    assert_eq!(normal_form(again.as_ref()), normal);
    let steps = signs
        .iter()
        .filter(|sign| matches!(sign, Sign::Child | Sign::Parent));
    assert_eq!(steps.count(), minimal.map_or(0, |tree| tree.nodes() - 1));
    assert!(!signs.contains(&Sign::Intersection) && !signs.contains(&Sign::Inverse));
    assert!(image(minimal).len() <= LARGEST_IMAGE);
    assert!(normal.len() <= LARGEST_NORMAL_FORM);
    assert!(most_pending(signs) <= MOST_PENDING_IN_NORMAL_FORM);
}

fn most_pending(signs: &[Sign]) -> usize {
    let pending = signs.iter().scan(0, |pending, &sign| {
        *pending = pending_after(sign, *pending);
        Some(*pending)
    });
    pending.max().unwrap_or(0)
}

/// A tree query that isn't empty selects (s,d) on itself taken as a document,
/// wildcards replaced by a label found nowhere else; so must the word. By the
/// paper's proposition 7.1 the word then selects all that the tree does.
fn check_on_own_document(signs: &[Sign], tree: &Tree) {
    let unused = u16::MAX;
    let document = Document {
        parents: tree.parents.clone(),
        labels: tree
            .labels
            .iter()
            .map(|label| label.unwrap_or(unused))
            .collect(),
    };
    assert!(evaluate(signs, &document).holds(tree.source, tree.destination));
}
