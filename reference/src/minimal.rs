//! The minimal tree. Instead of folding brothers, it looks for nodes without
//! which the query still means the same; sameness is decided by a containment
//! mapping (the paper's proposition 7.1).

use crate::laying::Laying;
use crate::tree::Tree;

/// The smallest tree query with the meaning of `plain`.
///
/// If a smaller one exists, the query maps into a proper part of itself that
/// has s, d and the top (the longest way down from the top fits nowhere else).
/// Some unmarked leaf lies outside that part and can go. A leaf that can't go
/// can't go later either, since the query still maps into what is left; so
/// one pass from the bottom up finds every node to be removed.
pub fn minimal_tree(plain: &Tree) -> Tree {
    let mut tree = plain.clone();
    // Children have larger numbers: all below a node is decided before it.
    for node in (1..plain.nodes()).rev() {
        if tree.mark(node) == 0 && !tree.parents.contains(&node) {
            let smaller = without(&tree, node);
            if maps_into(&tree, &smaller) {
                tree = smaller;
            }
        }
    }
    tree
}

fn without(tree: &Tree, leaf: usize) -> Tree {
    let staying: Vec<usize> = (0..tree.nodes()).filter(|&node| node != leaf).collect();
    tree.arranged(&staying)
}

/// Whether there is a containment mapping of `query` into `other` that keeps
/// s and d: then `other` selects no pair that `query` doesn't.
fn maps_into(query: &Tree, other: &Tree) -> bool {
    let laying = Laying::new(&query.parents, &other.parents, |u, v| {
        let label_kept = query.labels[u].is_none() || query.labels[u] == other.labels[v];
        let marks_kept = query.mark(u) & !other.mark(v) == 0;
        label_kept && marks_kept
    });
    (0..other.nodes()).any(|place| laying.lies(0, place))
}
