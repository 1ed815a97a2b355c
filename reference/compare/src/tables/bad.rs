//! Bad tables: each is a good one but for a single thing.

use super::good::tree;
use super::{Maker, Table, MOST_ROWS};
use crate::generator::LABELS;

pub fn unequal_lengths(maker: &mut Maker) -> Table {
    let mut table = tree(maker);
    match maker.generator.below(5) {
        0 => table.labels.clear(),
        1 => table.parents.clear(),
        2 => table.labels.push(0),
        3 => table.parents.push(0),
        _ => drop(table.labels.pop()),
    }
    table
}

pub fn no_rows(_: &mut Maker) -> Table {
    Table::default()
}

pub fn too_many_rows(maker: &mut Maker) -> Table {
    let mut table = tree(maker);
    let rows = MOST_ROWS + maker.generator.pick(&[1, 1, 2, 1_000]);
    table.parents.resize(rows, 0);
    table.labels.resize(rows, 0);
    table
}

pub fn first_parent(maker: &mut Maker) -> Table {
    let mut table = tree(maker);
    table.parents[0] = maker.generator.pick(&[1, 255, 256, 65_536, u32::MAX]);
    table
}

/// A parent number equal to the node's own or a little above it.
pub fn parent_not_above(maker: &mut Maker) -> Table {
    let mut table = tree(maker);
    let (parent, label) = (table.rows() + maker.generator.below(3), maker.label());
    table.push(parent, label);
    buried(maker, table)
}

/// A parent number that would be right if its upper bits were lost.
pub fn parent_out_of_range(maker: &mut Maker) -> Table {
    let mut table = tree(maker);
    let beyond = maker.generator.pick(&[256, 1_024, 65_536, 1 << 31]);
    let row = maker.generator.below(table.rows());
    table.parents[row] = match maker.generator.one_in(3) {
        true => u32::MAX,
        false => table.parents[row] + beyond.max(MOST_ROWS as u32),
    };
    table
}

/// A label above 65,535, mostly one that would be right without upper bits.
pub fn label_out_of_range(maker: &mut Maker) -> Table {
    let mut table = tree(maker);
    let row = maker.generator.below(table.rows());
    table.labels[row] = match maker.generator.below(4) {
        0 => LABELS as u32,
        1 => u32::MAX,
        2 => table.labels[row] + (1 << 31),
        _ => table.labels[row] + LABELS as u32,
    };
    table
}

/// Good rows behind the bad one, if there is space for them.
fn buried(maker: &mut Maker, mut table: Table) -> Table {
    for _ in 0..maker.generator.below(4) {
        let label = maker.label();
        table.push(0, label);
    }
    table.parents.truncate(MOST_ROWS);
    table.labels.truncate(MOST_ROWS);
    table
}
