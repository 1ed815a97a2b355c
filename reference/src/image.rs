//! The image of a tree query: the number of nodes, then the records, brothers
//! in ascending byte order of their written-out records.

use crate::number;
use crate::tree::{children, Tree};

/// The most bytes of an image.
pub const LONGEST_IMAGE: usize = 1_538;

/// The image of a tree query, or of empty.
pub fn image(tree: Option<&Tree>) -> Vec<u8> {
    let mut image = Vec::new();
    number::write(tree.map_or(0, Tree::nodes) as u32, &mut image);
    if let Some(tree) = tree {
        image.extend(&records(tree)[0]);
    }
    image
}

/// The same tree query with its nodes numbered in image order.
pub fn in_image_order(tree: &Tree) -> Tree {
    let records = records(tree);
    let mut children = children(&tree.parents);
    for brothers in &mut children {
        brothers.sort_by_key(|&brother| &records[brother]);
    }
    let mut order = Vec::new();
    let mut due = vec![0];
    while let Some(node) = due.pop() {
        order.push(node);
        due.extend(children[node].iter().rev());
    }
    tree.arranged(&order)
}

/// Every node's record with the records below it.
fn records(tree: &Tree) -> Vec<Vec<u8>> {
    let children = children(&tree.parents);
    let mut records = vec![Vec::new(); tree.nodes()];
    // Children have larger numbers: their records are written before.
    for node in (0..tree.nodes()).rev() {
        let mut below: Vec<&[u8]> = children[node]
            .iter()
            .map(|&child| records[child].as_slice())
            .collect();
        below.sort();
        let label_code = tree.labels[node].map_or(0, |label| u32::from(label) + 1);
        let mut record = Vec::new();
        number::write(label_code, &mut record);
        number::write(tree.mark(node), &mut record);
        number::write(below.len() as u32, &mut record);
        record.extend(below.concat());
        records[node] = record;
    }
    records
}
