//! The pairs that a tree query selects on a document, by laying its nodes.

use crate::document::Document;
use crate::laying::Laying;
use crate::tree::Tree;

/// By the recursion of `laying`, with s held on m and d on n.
pub fn by_laying(tree: Option<&Tree>, document: &Document) -> Vec<(usize, usize)> {
    let selected = |&(m, n): &(usize, usize)| {
        tree.is_some_and(|tree| {
            let laying = Laying::new(&tree.parents, &document.parents, |u, v| {
                label_fits(tree, u, document, v)
                    && (u != tree.source || v == m)
                    && (u != tree.destination || v == n)
            });
            (0..document.nodes()).any(|place| laying.lies(0, place))
        })
    };
    all_pairs(document).filter(selected).collect()
}

/// By trying every way to put the nodes of a small tree on document nodes.
pub fn by_all_layings(tree: Option<&Tree>, document: &Document) -> Vec<(usize, usize)> {
    let Some(tree) = tree else { return Vec::new() };
    let mut selected = Vec::new();
    let mut places = vec![0; tree.nodes()];
    loop {
        if is_laid(tree, document, &places) {
            selected.push((places[tree.source], places[tree.destination]));
        }
        if !advance(&mut places, document.nodes()) {
            selected.sort();
            selected.dedup();
            return selected;
        }
    }
}

fn all_pairs(document: &Document) -> impl Iterator<Item = (usize, usize)> {
    let nodes = document.nodes();
    (0..nodes).flat_map(move |m| (0..nodes).map(move |n| (m, n)))
}

fn label_fits(tree: &Tree, u: usize, document: &Document, v: usize) -> bool {
    tree.labels[u].is_none_or(|label| label == document.labels[v])
}

fn is_laid(tree: &Tree, document: &Document, places: &[usize]) -> bool {
    let labels_kept = (0..tree.nodes()).all(|u| label_fits(tree, u, document, places[u]));
    let mut below_top = 1..tree.nodes();
    labels_kept
        && below_top
            .all(|u| places[u] != 0 && document.parents[places[u]] == places[tree.parents[u]])
}

/// Counts on to the next list of digits below `base`; false after the last.
fn advance(digits: &mut [usize], base: usize) -> bool {
    for digit in digits {
        *digit += 1;
        if *digit < base {
            return true;
        }
        *digit = 0;
    }
    false
}
