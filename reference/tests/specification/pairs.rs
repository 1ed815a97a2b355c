//! The pair question: its answers, its match table and its refusals.

use crate::support::{hex, refused, repeated, Lent};

const ROW: usize = 128;

const BROTHERS: Lent = Lent {
    parents: &[0, 0, 0],
    labels: &[9, 1, 2],
    workspace: 40_000,
};

/// A match table in which exactly these (u,v) are set.
fn match_table(set: &[(usize, usize)]) -> Vec<u8> {
    let mut table = vec![0; 256 * ROW];
    for (u, v) in set {
        table[ROW * u + v / 8] |= 1 << (v % 8);
    }
    table
}

#[test]
fn p5_reaches_every_brother() {
    let p5 = hex("03 02 04");
    let table = match_table(&[(0, 0), (1, 0), (1, 1), (1, 2), (2, 0), (2, 1), (2, 2)]);
    for (m, n, selected) in [(1, 2, true), (1, 1, true), (0, 1, false), (0, 0, false)] {
        assert_eq!(BROTHERS.ask(&p5, m, n), Ok((selected, table.clone())));
    }
}

#[test]
fn p10_looks_at_the_label() {
    let p10 = hex("02 05 02 04 0A 04");
    let table = match_table(&[(0, 0), (1, 1)]);
    assert_eq!(BROTHERS.ask(&p10, 0, 1), Ok((true, table.clone())));
    assert_eq!(BROTHERS.ask(&p10, 0, 2), Ok((false, table)));
}

#[test]
fn an_empty_query_leaves_all_bits_clear() {
    for empty in ["00", "02 03 07", "0A 0B 04"] {
        assert_eq!(
            BROTHERS.ask(&hex(empty), 1, 1),
            Ok((false, match_table(&[])))
        );
    }
}

#[test]
fn rows_stand_in_image_order() {
    // A top with branches b and a; in the image a stands before b.
    let word = hex("02 0B 04 05 02 0A 04 05 04");
    let table = match_table(&[(0, 0), (1, 1), (2, 2)]);
    assert_eq!(BROTHERS.ask(&word, 0, 0), Ok((true, table)));
}

#[test]
fn the_largest_table_and_query() {
    let parents: Vec<u32> = (0..1_024u32).map(|node| node.saturating_sub(1)).collect();
    let labels = vec![65_535; 1_024];
    let lent = Lent {
        parents: &parents,
        labels: &labels,
        workspace: 32_768,
    };
    let chain = repeated("02", 254, "02 04");
    // Query node u has 255 - u nodes below it in one line.
    let set = (0..256).flat_map(|u| (0..1_024 - (255 - u)).map(move |v| (u, v)));
    let table = match_table(&set.collect::<Vec<_>>());
    assert_eq!(lent.ask(&chain, 768, 1_023), Ok((true, table.clone())));
    assert_eq!(lent.ask(&chain, 769, 1_023), Ok((false, table)));
}

#[test]
fn bad_tables() {
    let long = vec![0; 1_025];
    let cases: [(&[u32], &[u32]); 8] = [
        (&[], &[]),
        (&[0, 0], &[1]),
        (&[0], &[1, 1]),
        (&long, &long),
        (&[1, 0], &[1, 1]),
        (&[0, 1], &[1, 1]),
        (&[0, u32::MAX], &[1, 1]),
        (&[0, 0], &[1, 65_536]),
    ];
    for (parents, labels) in cases {
        let lent = Lent {
            parents,
            labels,
            workspace: 0,
        };
        assert_eq!(lent.ask(&hex("00"), 5_000, 5_000), refused(8, 0));
    }
}

#[test]
fn nodes_outside_the_table_then_the_workspace() {
    let short = Lent {
        workspace: 32_767,
        ..BROTHERS
    };
    for word in [hex("00"), hex("01")] {
        for (m, n) in [(3, 0), (0, 3), (u64::MAX, 0), (0, 1 << 32)] {
            assert_eq!(short.ask(&word, m, n), refused(9, 0));
            assert_eq!(BROTHERS.ask(&word, m, n), refused(9, 0));
        }
        assert_eq!(short.ask(&word, 0, 2), refused(10, 32_768));
    }
    let exact = Lent {
        workspace: 32_768,
        ..BROTHERS
    };
    assert_eq!(exact.ask(&hex("00"), 0, 2), Ok((false, match_table(&[]))));
}
