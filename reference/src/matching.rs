//! The match table that the pair question leaves in the lent workspace: for
//! each query node and document node, one bit.

use crate::document::{Document, MOST_DOCUMENT_NODES};
use crate::laying::Laying;
use crate::tree::Tree;

const MOST_QUERY_NODES: usize = 256;
const ROW_BYTES: usize = MOST_DOCUMENT_NODES / 8;

/// The bytes of the match table, and the fewest of a workspace.
pub const MATCH_TABLE_BYTES: usize = MOST_QUERY_NODES * ROW_BYTES;

/// Sets bit v mod 8 of byte 128u + v div 8 exactly if node u of the minimal
/// tree in image order, with all below it, can be laid with u on document
/// node v, marks ignored. Clears all other bits; empty has no nodes.
pub fn write_match_table(tree: Option<&Tree>, document: &Document, table: &mut [u8]) {
    table.fill(0);
    let Some(tree) = tree else { return };
    let laying = Laying::new(&tree.parents, &document.parents, |u, v| {
        tree.labels[u].is_none_or(|label| label == document.labels[v])
    });
    for u in 0..tree.nodes() {
        for v in (0..document.nodes()).filter(|&v| laying.lies(u, v)) {
            table[ROW_BYTES * u + v / 8] |= 1 << (v % 8);
        }
    }
}
