//! Good tables.

use super::{Maker, Table, MOST_ROWS};
use crate::image::{marked, minimal_records, Record};

/// The word's own minimal tree, below some other nodes and with others grown
/// onto it: here the word selects (s,d), whatever label a wildcard was given.
pub fn own_tree(maker: &mut Maker) -> Table {
    let mut table = Table::default();
    above(maker, &mut table);
    let records = minimal_records(maker.word);
    table.marks = lay(maker, &records, &mut table);
    let more = maker.rows().min(MOST_ROWS - table.rows());
    grow(maker, &mut table, more);
    table
}

/// Several copies of it, some nodes of the later ones with another label, so
/// that it can be laid in parts and in more than one way.
pub fn own_trees(maker: &mut Maker) -> Table {
    let mut table = Table::default();
    above(maker, &mut table);
    let records = minimal_records(maker.word);
    table.marks = lay(maker, &records, &mut table);
    for _ in 0..maker.generator.below(4) {
        if table.rows() + records.len() < maker.most_rows.min(MOST_ROWS) {
            let first = table.rows();
            let marks = lay(maker, &records, &mut table);
            table.marks = if maker.generator.one_in(2) {
                marks
            } else {
                table.marks
            };
            let changed = first + maker.generator.below(records.len().max(1));
            if changed < table.rows() {
                table.labels[changed] = maker.label();
            }
        }
    }
    table
}

/// At least one node for the tree to hang on, or none if it shall be the top.
fn above(maker: &mut Maker, table: &mut Table) {
    if maker.generator.one_in(2) {
        let nodes = maker.generator.size(4);
        grow(maker, table, nodes);
    }
}

/// Lays records below some node and tells where s and d lie.
fn lay(maker: &mut Maker, records: &[Record], table: &mut Table) -> Option<(usize, usize)> {
    let first = table.rows();
    for record in records {
        let own = record.label_code.checked_sub(1);
        let label = own.unwrap_or_else(|| maker.label());
        // The top, whose parent is itself, goes below any node there is.
        let parent = match table.rows() {
            rows if rows == first => maker.generator.below(first.max(1)),
            _ => first + record.parent,
        };
        table.push(parent, label);
    }
    let marks = (first + marked(records, 1), first + marked(records, 2));
    if table.rows() == 0 {
        grow(maker, table, 1);
    }
    (!records.is_empty()).then_some(marks)
}

/// Grows so many more nodes, each below any other.
fn grow(maker: &mut Maker, table: &mut Table, nodes: usize) {
    for _ in 0..nodes {
        let parent = maker.generator.below(table.rows().max(1));
        let label = maker.label();
        table.push(parent, label);
    }
}

pub fn tree(maker: &mut Maker) -> Table {
    let mut table = Table::default();
    let rows = maker.rows();
    grow(maker, &mut table, rows);
    table
}

/// Each node below one of the few before it.
pub fn deep_tree(maker: &mut Maker) -> Table {
    let few = maker.generator.pick(&[2, 4, 10]);
    shaped(maker, |maker, node| {
        node - 1 - maker.generator.below(few.min(node))
    })
}

pub fn chain(maker: &mut Maker) -> Table {
    shaped(maker, |_, node| node - 1)
}

pub fn star(maker: &mut Maker) -> Table {
    let middle = maker.generator.below(3);
    shaped(maker, |_, node| middle.min(node - 1))
}

pub fn one_row(maker: &mut Maker) -> Table {
    let mut table = Table::default();
    grow(maker, &mut table, 1);
    table
}

fn shaped(maker: &mut Maker, parent: impl Fn(&mut Maker, usize) -> usize) -> Table {
    let mut table = one_row(maker);
    for node in 1..maker.rows() {
        let (parent, label) = (parent(maker, node), maker.label());
        table.push(parent, label);
    }
    table
}
