//! Pair questions about a word: a table, a pair and a workspace's length.

use crate::generator::Generator;
use crate::tables::{Kind, Maker, Table, BAD, GOOD, MOST_ROWS, OWN};
use reference::MATCH_TABLE_BYTES;

#[derive(Clone, Debug)]
pub struct Question {
    pub kind: &'static str,
    pub table: Table,
    pub m: u64,
    pub n: u64,
    pub workspace: usize,
}

/// A question about a word, mostly one that can be answered; the faults come
/// independently of each other, so that their order counts.
pub fn question(generator: &mut Generator, word: &[u8], most_rows: usize) -> Question {
    let kinds: &[Kind] = match generator.below(12) {
        0 | 1 => &BAD,
        2..8 => &OWN,
        _ => &GOOD,
    };
    let kind = &kinds[generator.below(kinds.len())];
    let table = (kind.make)(&mut Maker::new(generator, word, most_rows));
    let (m, n) = pair(generator, &table);
    Question {
        kind: kind.name,
        m,
        n,
        table,
        workspace: workspace(generator),
    }
}

/// Where the own tree's s and d lie, or any nodes, or nodes not there.
fn pair(generator: &mut Generator, table: &Table) -> (u64, u64) {
    let any = (node(generator, table), node(generator, table));
    match table.marks {
        Some((s, d)) => match generator.below(8) {
            0 => any,
            1 => (s as u64, any.1),
            2 => (any.0, d as u64),
            _ => (s as u64, d as u64),
        },
        None if generator.one_in(3) => (any.0, any.0),
        None => any,
    }
}

fn node(generator: &mut Generator, table: &Table) -> u64 {
    let rows = table.rows() as u64;
    let inside = generator.below(table.rows().max(1)) as u64;
    match generator.below(60) {
        0 => rows,
        1 => u64::MAX,
        // Inside again if upper bits were lost.
        2 => inside + (1 << 32),
        3 => inside + (1 << 16),
        4 => inside + MOST_ROWS as u64,
        _ => inside,
    }
}

fn workspace(generator: &mut Generator) -> usize {
    match generator.below(24) {
        0 => 0,
        1 => MATCH_TABLE_BYTES - 1,
        2 => generator.below(MATCH_TABLE_BYTES),
        3..12 => MATCH_TABLE_BYTES,
        _ => MATCH_TABLE_BYTES + generator.size(300),
    }
}
