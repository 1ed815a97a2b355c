//! Documents: a table of parent numbers and labels, with the refusals 8 and 9.

use crate::refusal::{Reason, Refusal};

/// The most nodes of a table.
pub const MOST_DOCUMENT_NODES: usize = 1_024;

/// A document from a good table. Node 0 is the top and has parent 0; every
/// other parent number is smaller than the node's own.
#[derive(Debug)]
pub struct Document {
    pub parents: Vec<usize>,
    pub labels: Vec<u16>,
}

impl Document {
    /// Reads a table, or gives refusal 8.
    pub fn read(parents: &[u32], labels: &[u32]) -> Result<Document, Refusal> {
        let bad = Reason::BadTable.at(0);
        let nodes = parents.len();
        if nodes != labels.len() || nodes == 0 || nodes > MOST_DOCUMENT_NODES {
            return Err(bad);
        }
        let parents: Vec<usize> = parents.iter().map(|&parent| parent as usize).collect();
        let in_order = (1..nodes).all(|node| parents[node] < node);
        if parents[0] != 0 || !in_order {
            return Err(bad);
        }
        let labels: Result<Vec<u16>, _> = labels.iter().map(|&label| label.try_into()).collect();
        let labels = labels.map_err(|_| bad)?;
        Ok(Document { parents, labels })
    }

    /// The node with this number, or refusal 9.
    pub fn node(&self, number: u64) -> Result<usize, Refusal> {
        usize::try_from(number)
            .ok()
            .filter(|&node| node < self.nodes())
            .ok_or(Reason::NoSuchNode.at(0))
    }

    pub fn nodes(&self) -> usize {
        self.parents.len()
    }
}
