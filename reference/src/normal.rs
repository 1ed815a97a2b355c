//! The normal form of a minimal tree: its factors as an expression tree, which
//! is then written as a word.

use crate::tree::{children, Tree};
use crate::word::{self, Sign};

/// The most bytes of a normal form.
pub const LONGEST_NORMAL_FORM: usize = 2_048;

enum Expression {
    Operand(Sign),
    Composition(Box<Expression>, Box<Expression>),
    FirstProjection(Box<Expression>),
    SecondProjection(Box<Expression>),
}

/// The normal form of a minimal tree in image order, or of empty.
pub fn normal_form(tree: Option<&Tree>) -> Vec<u8> {
    let mut signs = Vec::new();
    match tree {
        Some(tree) => joined(Ways::of(tree).factors()).write(&mut signs),
        None => signs.push(Sign::Empty),
    }
    word::write(&signs)
}

/// Factors joined from the left; with no factor at all, self.
fn joined(factors: Vec<Expression>) -> Expression {
    factors
        .into_iter()
        .reduce(|first, second| Expression::Composition(Box::new(first), Box::new(second)))
        .unwrap_or(Expression::Operand(Sign::Itself))
}

impl Expression {
    fn write(&self, signs: &mut Vec<Sign>) {
        match self {
            Expression::Operand(sign) => signs.push(*sign),
            Expression::Composition(first, second) => {
                first.write(signs);
                second.write(signs);
                signs.push(Sign::Composition);
            }
            Expression::FirstProjection(inner) => {
                inner.write(signs);
                signs.push(Sign::FirstProjection);
            }
            Expression::SecondProjection(inner) => {
                inner.write(signs);
                signs.push(Sign::SecondProjection);
            }
        }
    }
}

/// A tree query with the ways that run through it: from s up to t, from the
/// top down to t, and from t down to d.
struct Ways<'a> {
    tree: &'a Tree,
    children: Vec<Vec<usize>>,
    /// From s up to just below t.
    up: Vec<usize>,
    /// The lowest node above or at both s and d.
    t: usize,
    /// From the top down to just above t.
    above: Vec<usize>,
    /// From just below t down to d.
    down: Vec<usize>,
}

impl Ways<'_> {
    fn of(tree: &Tree) -> Ways<'_> {
        let mut from_source = tree.way_up(tree.source);
        let mut from_destination = tree.way_up(tree.destination);
        from_source.reverse();
        from_destination.reverse();
        let common = from_source.iter().zip(&from_destination);
        let shared = common.take_while(|(one, other)| one == other).count();
        Ways {
            tree,
            children: children(&tree.parents),
            up: from_source[shared..].iter().rev().copied().collect(),
            t: from_source[shared - 1],
            above: from_source[..shared - 1].to_vec(),
            down: from_destination[shared..].to_vec(),
        }
    }

    fn factors(&self) -> Vec<Expression> {
        let mut factors = Vec::new();
        for &node in &self.up {
            factors.extend(self.own_factors(node));
            factors.push(Expression::Operand(Sign::Parent));
        }
        if !self.above.is_empty() {
            let way = joined(self.factors_above_t());
            factors.push(Expression::SecondProjection(Box::new(way)));
        }
        factors.extend(self.own_factors(self.t));
        for &node in &self.down {
            factors.push(Expression::Operand(Sign::Child));
            factors.extend(self.own_factors(node));
        }
        factors
    }

    fn factors_above_t(&self) -> Vec<Expression> {
        let mut factors = Vec::new();
        for &node in &self.above {
            factors.extend(self.own_factors(node));
            factors.push(Expression::Operand(Sign::Child));
        }
        factors
    }

    fn own_factors(&self, node: usize) -> Vec<Expression> {
        let children = self.children[node].iter().copied();
        let off_ways = children.filter(|&child| !self.is_on_ways(child));
        let branches = off_ways.map(|child| self.branch(child));
        self.label(node).into_iter().chain(branches).collect()
    }

    fn is_on_ways(&self, node: usize) -> bool {
        let ways = [&self.up, &self.above, &self.down];
        node == self.t || ways.iter().any(|way| way.contains(&node))
    }

    fn label(&self, node: usize) -> Option<Expression> {
        let label = self.tree.labels[node]?;
        Some(Expression::Operand(Sign::Label(label)))
    }

    fn branch(&self, node: usize) -> Expression {
        Expression::FirstProjection(Box::new(joined(self.chain(node))))
    }

    fn chain(&self, node: usize) -> Vec<Expression> {
        let mut factors = vec![Expression::Operand(Sign::Child)];
        factors.extend(self.label(node));
        match self.children[node].as_slice() {
            [only] => factors.extend(self.chain(*only)),
            many => factors.extend(many.iter().map(|&child| self.branch(child))),
        }
        factors
    }
}
