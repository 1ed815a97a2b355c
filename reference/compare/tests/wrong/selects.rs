//! Wrong answers to the pair question.

use compare::c_selects;
use compare::library::{Library, Selects};
use compare::returned::{is_refused_for, refused};
use compare::stand_in::{minimal_image, selects, LIBRARY};
use reference::Reason;

const MATCH_TABLE: usize = 32_768;
const ROW: usize = 128;
const NO: u64 = 0;
const YES: u64 = 1;

type Table<'a> = (&'a [u32], &'a [u32]);
type Pair = (u64, u64);

fn with(name: &'static str, selects: Selects) -> Library {
    Library {
        name,
        selects,
        ..LIBRARY
    }
}

pub fn all() -> Vec<Library> {
    vec![
        with("leaves a bit in the workspace", c_selects!(leaves_a_bit)),
        with("clears all of the workspace", c_selects!(clears_all)),
        with("exchanges two rows", c_selects!(exchanges_rows)),
        with("counts bits from the highest", c_selects!(reverses_bits)),
        with("no match table after no", c_selects!(nothing_after_no)),
        with("asks for the pair (n,m)", c_selects!(exchanges_the_pair)),
        with("always no", c_selects!(always_no)),
        with("yes if the top can be laid", c_selects!(yes_by_top)),
        with("cuts m down to 32 bits", c_selects!(cuts_m)),
        with("10 before 9", c_selects!(ten_before_nine)),
        with("answers empty queries first", c_selects!(empty_first)),
        with("clears and then refuses", c_selects!(clears_and_refuses)),
        with("cuts labels to 16 bits", c_selects!(cuts_labels)),
        with("cuts parents to 16 bits", c_selects!(cuts_parents)),
        with("goes by the shorter list", c_selects!(cuts_lists)),
        with("cuts 1,025 rows down", c_selects!(cuts_rows)),
        with("takes any first parent", c_selects!(any_first_parent)),
        with("takes a node as its own parent", c_selects!(own_parent)),
    ]
}

/// The second implementation's answer, the workspace altered if it answers.
fn altered(
    (word, table, pair): (&[u8], Table, Pair),
    workspace: &mut [u8],
    alter: impl Fn(&mut [u8]),
) -> u64 {
    let returned = selects(word, table, pair, workspace);
    if returned <= YES {
        alter(workspace);
    }
    returned
}

fn leaves_a_bit(word: &[u8], table: Table, pair: Pair, workspace: &mut [u8]) -> u64 {
    let last = MATCH_TABLE - 1;
    let left = workspace.get(last).map_or(0, |byte| byte & 1);
    altered((word, table, pair), workspace, |bytes| bytes[last] = left)
}

fn clears_all(word: &[u8], table: Table, pair: Pair, workspace: &mut [u8]) -> u64 {
    let clear = |bytes: &mut [u8]| bytes[MATCH_TABLE..].fill(0);
    altered((word, table, pair), workspace, clear)
}

fn exchanges_rows(word: &[u8], table: Table, pair: Pair, workspace: &mut [u8]) -> u64 {
    altered((word, table, pair), workspace, |bytes| {
        let (row, next) = bytes[ROW..3 * ROW].split_at_mut(ROW);
        row.swap_with_slice(next);
    })
}

fn reverses_bits(word: &[u8], table: Table, pair: Pair, workspace: &mut [u8]) -> u64 {
    altered((word, table, pair), workspace, |bytes| {
        for byte in &mut bytes[..MATCH_TABLE] {
            *byte = byte.reverse_bits();
        }
    })
}

fn nothing_after_no(word: &[u8], table: Table, pair: Pair, workspace: &mut [u8]) -> u64 {
    let before = workspace.to_vec();
    let returned = selects(word, table, pair, workspace);
    if returned == NO {
        workspace.copy_from_slice(&before);
    }
    returned
}

fn exchanges_the_pair(word: &[u8], table: Table, (m, n): Pair, workspace: &mut [u8]) -> u64 {
    selects(word, table, (n, m), workspace)
}

fn always_no(word: &[u8], table: Table, pair: Pair, workspace: &mut [u8]) -> u64 {
    match selects(word, table, pair, workspace) {
        YES => NO,
        returned => returned,
    }
}

fn yes_by_top(word: &[u8], table: Table, pair: Pair, workspace: &mut [u8]) -> u64 {
    match selects(word, table, pair, workspace) {
        NO if workspace[0] != 0 => YES,
        returned => returned,
    }
}

fn cuts_m(word: &[u8], table: Table, (m, n): Pair, workspace: &mut [u8]) -> u64 {
    let cut = m & u64::from(u32::MAX);
    selects(word, table, (cut, n), workspace)
}

fn ten_before_nine(word: &[u8], table: Table, pair: Pair, workspace: &mut [u8]) -> u64 {
    let returned = selects(word, table, pair, workspace);
    match is_refused_for(returned, Reason::NoSuchNode) && workspace.len() < MATCH_TABLE {
        true => refused(Reason::WorkspaceTooShort, MATCH_TABLE),
        false => returned,
    }
}

fn empty_first(word: &[u8], table: Table, pair: Pair, workspace: &mut [u8]) -> u64 {
    let is_empty = minimal_image(word, &mut [0; 2_048]) == 1;
    let returned = selects(word, table, pair, workspace);
    if returned > YES && is_empty {
        let length = workspace.len().min(MATCH_TABLE);
        workspace[..length].fill(0);
        return NO;
    }
    returned
}

fn clears_and_refuses(word: &[u8], table: Table, pair: Pair, workspace: &mut [u8]) -> u64 {
    let returned = selects(word, table, pair, workspace);
    if is_refused_for(returned, Reason::NoSuchNode) {
        workspace.fill(0);
    }
    returned
}

fn lower_half(list: &[u32]) -> Vec<u32> {
    list.iter().map(|entry| entry & 0xffff).collect()
}

fn cuts_labels(word: &[u8], table: Table, pair: Pair, workspace: &mut [u8]) -> u64 {
    selects(word, (table.0, &lower_half(table.1)), pair, workspace)
}

fn cuts_parents(word: &[u8], table: Table, pair: Pair, workspace: &mut [u8]) -> u64 {
    selects(word, (&lower_half(table.0), table.1), pair, workspace)
}

fn cuts_lists(word: &[u8], table: Table, pair: Pair, workspace: &mut [u8]) -> u64 {
    let rows = table.0.len().min(table.1.len());
    let cut = (&table.0[..rows], &table.1[..rows]);
    selects(word, cut, pair, workspace)
}

fn cuts_rows(word: &[u8], table: Table, pair: Pair, workspace: &mut [u8]) -> u64 {
    let most = |list: &[u32]| list[..list.len().min(1_024)].to_vec();
    selects(word, (&most(table.0), &most(table.1)), pair, workspace)
}

fn any_first_parent(word: &[u8], table: Table, pair: Pair, workspace: &mut [u8]) -> u64 {
    let mut parents = table.0.to_vec();
    parents.iter_mut().take(1).for_each(|first| *first = 0);
    selects(word, (&parents, table.1), pair, workspace)
}

fn own_parent(word: &[u8], table: Table, pair: Pair, workspace: &mut [u8]) -> u64 {
    let mut parents = table.0.to_vec();
    for (node, parent) in parents.iter_mut().enumerate() {
        if *parent as usize == node {
            *parent = 0;
        }
    }
    selects(word, (&parents, table.1), pair, workspace)
}
