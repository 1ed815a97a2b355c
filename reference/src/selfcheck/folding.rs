//! Folding between brothers, straight from the specification's sentence, to
//! compare the search in `minimal` with.

use crate::tree::{children, Tree};

/// The tree in which no two brothers are left that fold.
pub fn folded(plain: &Tree) -> Tree {
    let mut tree = plain.clone();
    while let Some(brother) = folding_brother(&tree) {
        tree = without_all_below(&tree, brother);
    }
    tree
}

/// A node that folds onto one of its brothers.
pub fn folding_brother(tree: &Tree) -> Option<usize> {
    let children = children(&tree.parents);
    let mut pairs = children.iter().flat_map(|brothers| {
        let all = brothers.iter().copied();
        all.flat_map(move |u| brothers.iter().map(move |&v| (u, v)))
    });
    let found = pairs.find(|&(u, v)| u != v && folds(tree, &children, u, v));
    found.map(|(u, _)| u)
}

fn folds(tree: &Tree, children: &[Vec<usize>], u: usize, v: usize) -> bool {
    let label_agrees = tree.labels[u].is_none() || tree.labels[u] == tree.labels[v];
    let marks_among = tree.mark(u) & !tree.mark(v) == 0;
    let onto_some_child = |&below: &usize| {
        let mut of_v = children[v].iter();
        of_v.any(|&child| folds(tree, children, below, child))
    };
    label_agrees && marks_among && children[u].iter().all(onto_some_child)
}

fn without_all_below(tree: &Tree, gone: usize) -> Tree {
    let stays = |node: &usize| !tree.way_up(*node).contains(&gone);
    let staying: Vec<usize> = (0..tree.nodes()).filter(stays).collect();
    tree.arranged(&staying)
}
