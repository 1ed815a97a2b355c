//! Checks on all small words and all small tree queries.

use super::selection::by_all_layings;
use crate::document::Document;
use crate::image::image;
use crate::minimal::minimal_tree;
use crate::minimal_in_image_order;
use crate::plain::plain_tree;
use crate::relation::evaluate;
use crate::tree::Tree;
use crate::word::{self, Sign};
use std::collections::HashMap;

const A: u16 = 1;
const OTHER: u16 = 7;

/// The pairs selected on each of a list of documents.
type Meaning = Vec<Vec<(usize, usize)>>;

/// Every accepted word of at most five of these signs selects, on every small
/// document, the pairs that its plain and its minimal tree select.
#[test]
fn all_small_words() {
    let documents = all_documents(4);
    let mut checked = 0;
    for length in 1..=5 {
        for signs in all_lists(&ALL_SIGNS, length) {
            if word::read(&word::write(&signs)).is_ok() {
                check_meaning(&signs, &documents);
                checked += 1;
            }
        }
    }
    // Of one sign 5; of k signs, three times those of k - 1 and twice each
    // pair of those of i and of k - 1 - i: 15, 95, 585, 4,105.
    assert_eq!(checked, 4_805);
}

const ALL_SIGNS: [Sign; 10] = [
    Sign::Empty,
    Sign::Itself,
    Sign::Child,
    Sign::Parent,
    Sign::Composition,
    Sign::FirstProjection,
    Sign::SecondProjection,
    Sign::Intersection,
    Sign::Inverse,
    Sign::Label(A),
];

fn check_meaning(signs: &[Sign], documents: &[Document]) {
    let plain = plain_tree(signs);
    let minimal = minimal_in_image_order(signs);
    let of_word: Meaning = documents
        .iter()
        .map(|document| evaluate(signs, document).pairs().collect())
        .collect();
    assert_eq!(meaning(plain.as_ref(), documents), of_word, "{signs:?}");
    assert_eq!(meaning(minimal.as_ref(), documents), of_word, "{signs:?}");
    // A tree query that a small word gives selects something on some small
    // document, so here empty is exactly what selects nothing.
    let selects_none = of_word.iter().all(Vec::is_empty);
    assert_eq!(minimal.is_none(), selects_none, "{signs:?}");
}

/// Among all tree queries of at most four nodes, those with one meaning have
/// one minimal image, and none of them has fewer nodes than it. The documents
/// tell all meanings apart: each query, its wildcards replaced by a label of
/// their own, is one of them.
#[test]
fn all_small_tree_queries() {
    let documents = all_documents(4);
    let mut minimal_images = HashMap::new();
    // Ascending numbers of nodes: the first of a meaning is a smallest one.
    for tree in (1..=4).flat_map(all_trees) {
        let minimal = minimal_tree(&tree);
        let of_tree = meaning(Some(&tree), &documents);
        assert_eq!(meaning(Some(&minimal), &documents), of_tree);
        let first = minimal_images.entry(of_tree);
        let first = first.or_insert_with(|| image(Some(&tree)));
        assert_eq!(image(Some(&minimal)), *first);
    }
}

fn meaning(tree: Option<&Tree>, documents: &[Document]) -> Meaning {
    let selected = documents
        .iter()
        .map(|document| by_all_layings(tree, document));
    selected.collect()
}

fn all_trees(nodes: usize) -> impl Iterator<Item = Tree> {
    let marks = all_lists(&(0..nodes).collect::<Vec<_>>(), 2);
    let labels = all_lists(&[None, Some(A)], nodes);
    all_parents(nodes).into_iter().flat_map(move |parents| {
        let marks = marks.clone();
        labels.clone().into_iter().flat_map(move |labels| {
            let parents = parents.clone();
            marks.clone().into_iter().map(move |ends| Tree {
                parents: parents.clone(),
                labels: labels.clone(),
                source: ends[0],
                destination: ends[1],
            })
        })
    })
}

fn all_documents(most_nodes: usize) -> Vec<Document> {
    let mut documents = Vec::new();
    for nodes in 1..=most_nodes {
        for parents in all_parents(nodes) {
            for labels in all_lists(&[A, OTHER], nodes) {
                let parents = parents.clone();
                documents.push(Document { parents, labels });
            }
        }
    }
    documents
}

/// All lists of parents: node 0 has parent 0, every other a smaller one.
fn all_parents(nodes: usize) -> Vec<Vec<usize>> {
    let mut lists = vec![vec![0]];
    for node in 1..nodes {
        let longer =
            |list: Vec<usize>| (0..node).map(move |parent| [&list[..], &[parent]].concat());
        lists = lists.into_iter().flat_map(longer).collect();
    }
    lists
}

/// All lists of the given length over the given items.
fn all_lists<Item: Clone>(items: &[Item], length: usize) -> Vec<Vec<Item>> {
    let mut lists = vec![Vec::new()];
    for _ in 0..length {
        let longer = |list: Vec<Item>| {
            let each = items.iter().cloned();
            each.map(move |item| [&list[..], &[item]].concat())
        };
        lists = lists.into_iter().flat_map(longer).collect();
    }
    lists
}
