//! Laying a tree query's nodes on the nodes of another tree, several on one
//! if need be, keeping parent edges. What else is kept, the caller says.

use crate::tree::children;
use std::cell::Cell;

/// Brute recursion over (query node, target node), each pair worked out once.
pub struct Laying<Fits> {
    query: Vec<Vec<usize>>,
    target: Vec<Vec<usize>>,
    fits: Fits,
    known: Vec<Cell<Option<bool>>>,
}

impl<Fits: Fn(usize, usize) -> bool> Laying<Fits> {
    /// `fits(u, v)` tells whether query node u, taken alone, may lie on v.
    pub fn new(query_parents: &[usize], target_parents: &[usize], fits: Fits) -> Self {
        let pairs = query_parents.len() * target_parents.len();
        Laying {
            query: children(query_parents),
            target: children(target_parents),
            fits,
            known: vec![Cell::new(None); pairs],
        }
    }

    /// Whether query node u with all below it can be laid with u on v. Nothing
    /// ties two children of u together, so each is laid by itself.
    pub fn lies(&self, u: usize, v: usize) -> bool {
        let known = &self.known[u * self.target.len() + v];
        known.get().unwrap_or_else(|| {
            let on_child_of_v = |&below: &usize| {
                let mut places = self.target[v].iter();
                places.any(|&place| self.lies(below, place))
            };
            let lies = (self.fits)(u, v) && self.query[u].iter().all(on_child_of_v);
            known.set(Some(lies));
            lies
        })
    }
}
