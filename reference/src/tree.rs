//! Tree queries: a tree whose nodes bear a label or a wildcard, with a source
//! s and a destination d, perhaps one node.

/// A tree query, numbered like a document's table: node 0 is the top and has
/// parent 0; every other parent number is smaller than the node's own.
#[derive(Clone, Debug)]
pub struct Tree {
    pub parents: Vec<usize>,
    /// `None` is the wildcard.
    pub labels: Vec<Option<u16>>,
    pub source: usize,
    pub destination: usize,
}

impl Tree {
    pub fn nodes(&self) -> usize {
        self.parents.len()
    }

    /// 0 none, 1 s, 2 d, 3 both.
    pub fn mark(&self, node: usize) -> u32 {
        u32::from(node == self.source) + 2 * u32::from(node == self.destination)
    }

    /// The way from a node up to the top, both included.
    pub fn way_up(&self, node: usize) -> Vec<usize> {
        let above = |&node: &usize| (node != 0).then(|| self.parents[node]);
        std::iter::successors(Some(node), above).collect()
    }

    /// The tree whose node i is this tree's node `order[i]`. The order begins
    /// with the top, names a parent before its children, and names s and d;
    /// nodes that it leaves out are gone.
    pub fn arranged(&self, order: &[usize]) -> Tree {
        let mut number = vec![0; self.nodes()];
        for (new, &old) in order.iter().enumerate() {
            number[old] = new;
        }
        let parent = |&node: &usize| number[self.parents[node]];
        Tree {
            parents: order.iter().map(parent).collect(),
            labels: order.iter().map(|&node| self.labels[node]).collect(),
            source: number[self.source],
            destination: number[self.destination],
        }
    }
}

/// The children of each node, in ascending order, from the list of parents of
/// a tree query or a document.
pub fn children(parents: &[usize]) -> Vec<Vec<usize>> {
    let mut children = vec![Vec::new(); parents.len()];
    for (node, &parent) in parents.iter().enumerate().skip(1) {
        children[parent].push(node);
    }
    children
}
