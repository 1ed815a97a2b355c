//! The pairs that a word selects on a document, worked out sign by sign from
//! the table of signs: every operand is a relation, a set of pairs of nodes.

use crate::document::Document;
use crate::word::{latest, latest_two, Sign};

const BITS: usize = u64::BITS as usize;

/// A set of pairs of document nodes: in row m, bit n is set for a pair (m,n).
#[derive(Clone, Debug, PartialEq, Eq)]
pub struct Relation {
    rows: Vec<Vec<u64>>,
}

impl Relation {
    fn none(nodes: usize) -> Relation {
        Relation {
            rows: vec![vec![0; nodes.div_ceil(BITS)]; nodes],
        }
    }

    fn of(nodes: usize, pairs: impl Iterator<Item = (usize, usize)>) -> Relation {
        let mut relation = Relation::none(nodes);
        for (m, n) in pairs {
            relation.rows[m][n / BITS] |= 1 << (n % BITS);
        }
        relation
    }

    pub fn holds(&self, m: usize, n: usize) -> bool {
        self.rows[m][n / BITS] >> (n % BITS) & 1 == 1
    }

    pub fn pairs(&self) -> impl Iterator<Item = (usize, usize)> + '_ {
        let rows = self.rows.iter().enumerate();
        rows.flat_map(|(m, row)| members(row).map(move |n| (m, n)))
    }

    fn composed(&self, second: &Relation) -> Relation {
        let mut result = Relation::none(self.rows.len());
        for (m, k) in self.pairs() {
            for (bits, more) in result.rows[m].iter_mut().zip(&second.rows[k]) {
                *bits |= more;
            }
        }
        result
    }

    fn intersected(&self, second: &Relation) -> Relation {
        let both = self.pairs().filter(|&(m, n)| second.holds(m, n));
        Relation::of(self.rows.len(), both)
    }

    /// The relation of `change(m, n)` for each of the pairs (m,n).
    fn changed(&self, change: fn(usize, usize) -> (usize, usize)) -> Relation {
        Relation::of(self.rows.len(), self.pairs().map(|(m, n)| change(m, n)))
    }
}

fn members(row: &[u64]) -> impl Iterator<Item = usize> + '_ {
    let filled = row.iter().enumerate().filter(|(_, &bits)| bits != 0);
    filled.flat_map(|(at, &bits)| {
        let set = (0..BITS).filter(move |bit| bits >> bit & 1 == 1);
        set.map(move |bit| at * BITS + bit)
    })
}

/// The pairs that an accepted word's signs select on a document.
pub fn evaluate(signs: &[Sign], document: &Document) -> Relation {
    let mut pending = Vec::new();
    for &sign in signs {
        let result = match sign {
            Sign::Composition => {
                let (first, second) = latest_two(&mut pending);
                Relation::composed(&first, &second)
            }
            Sign::Intersection => {
                let (first, second) = latest_two(&mut pending);
                Relation::intersected(&first, &second)
            }
            Sign::FirstProjection => latest(&mut pending).changed(|m, _| (m, m)),
            Sign::SecondProjection => latest(&mut pending).changed(|_, n| (n, n)),
            Sign::Inverse => latest(&mut pending).changed(|m, n| (n, m)),
            operand => selected_by_operand(operand, document),
        };
        pending.push(result);
    }
    latest(&mut pending)
}

fn selected_by_operand(sign: Sign, document: &Document) -> Relation {
    let nodes = document.nodes();
    let edges = (1..nodes).map(|node| (document.parents[node], node));
    match sign {
        Sign::Itself => Relation::of(nodes, (0..nodes).map(|m| (m, m))),
        Sign::Child => Relation::of(nodes, edges),
        Sign::Parent => Relation::of(nodes, edges.map(|(parent, child)| (child, parent))),
        Sign::Label(label) => {
            let labelled = (0..nodes).filter(|&m| document.labels[m] == label);
            Relation::of(nodes, labelled.map(|m| (m, m)))
        }
        _ => Relation::none(nodes),
    }
}
