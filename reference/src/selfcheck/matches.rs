//! Checks of the match table on seeded random words and small documents.

use super::generator::Generator;
use super::selecting::selecting_word;
use super::selection::by_all_layings;
use crate::document::Document;
use crate::tree::Tree;
use crate::word::{self, Sign};
use crate::{minimal_in_image_order, selects, MATCH_TABLE_BYTES};

#[test]
fn bits_and_answers() {
    let mut generator = Generator::new(0x35c9_70ab_1e64_fd29);
    for _ in 0..1_500 {
        let size = 1 + generator.below(8);
        let signs = selecting_word(&mut generator, size);
        let document = generator.document(5);
        // Few enough nodes to try every laying.
        if let Some(tree) = minimal_in_image_order(&signs).filter(|tree| tree.nodes() <= 5) {
            check_all_pairs(&signs, &tree, &document);
        }
    }
}

fn check_all_pairs(signs: &[Sign], tree: &Tree, document: &Document) {
    let expected = expected_bits(tree, document);
    let parents: Vec<u32> = document.parents.iter().map(|&node| node as u32).collect();
    let labels: Vec<u32> = document.labels.iter().map(|&label| label.into()).collect();
    for m in 0..document.nodes() {
        for n in 0..document.nodes() {
            let mut table = vec![0xA5; MATCH_TABLE_BYTES];
            let (word, pair) = (word::write(signs), (m as u64, n as u64));
            let answer = selects(&word, &parents, &labels, pair.0, pair.1, &mut table);
            assert_eq!(set_bits(&table), expected, "{signs:?} on {document:?}");
            let by_bits = answer_by_bits(tree, document, (m, n), &expected);
            assert_eq!(answer, Ok(by_bits), "{signs:?} on {document:?}");
        }
    }
}

/// All (u,v) whose bit must be set, found by trying every laying of u with
/// all below it.
fn expected_bits(tree: &Tree, document: &Document) -> Vec<(usize, usize)> {
    let mut bits = Vec::new();
    for u in 0..tree.nodes() {
        let part = part_below(tree, u);
        let selected = by_all_layings(Some(&part), document);
        bits.extend(selected.into_iter().map(|(v, _)| (u, v)));
    }
    bits
}

/// Node u with all below it as a tree query of its own, both marks on u. In
/// image order these nodes follow one another.
fn part_below(tree: &Tree, u: usize) -> Tree {
    let is_below = |node: &usize| tree.way_up(*node).contains(&u);
    let part: Vec<usize> = (u..tree.nodes()).take_while(is_below).collect();
    let parents = part
        .iter()
        .map(|&node| tree.parents[node].saturating_sub(u));
    Tree {
        parents: parents.collect(),
        labels: part.iter().map(|&node| tree.labels[node]).collect(),
        source: 0,
        destination: 0,
    }
}

/// All (u,v) whose bit is set in a match table.
fn set_bits(table: &[u8]) -> Vec<(usize, usize)> {
    let filled = table.iter().enumerate().filter(|(_, &byte)| byte != 0);
    let bits = filled.flat_map(|(at, &byte)| {
        let set = (0..8).filter(move |bit| byte >> bit & 1 == 1);
        set.map(move |bit| (at / 128, at % 128 * 8 + bit))
    });
    bits.collect()
}

/// The pair is selected exactly if all nodes from s and from d up to the top
/// have their bits at m, its parent and so on, and at n, its parent and so
/// on, the two agreeing where the ways meet.
fn answer_by_bits(
    tree: &Tree,
    document: &Document,
    (m, n): (usize, usize),
    bits: &[(usize, usize)],
) -> bool {
    let mut places = vec![None; tree.nodes()];
    for (mark, place) in [(tree.source, m), (tree.destination, n)] {
        let mut place = Some(place);
        for u in tree.way_up(mark) {
            let Some(v) = place else { return false };
            if !bits.contains(&(u, v)) || *places[u].get_or_insert(v) != v {
                return false;
            }
            place = (v != 0).then(|| document.parents[v]);
        }
    }
    true
}
