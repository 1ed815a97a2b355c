//! Words that select a given pair of a given document, and so aren't empty
//! however large they are.

use super::generator::Generator;
use crate::document::Document;
use crate::word::{self, Sign};

/// The signs of an accepted word grown over some document.
pub fn selecting_word(generator: &mut Generator, size: usize) -> Vec<Sign> {
    loop {
        let document = generator.document(20);
        let mut growth = Growth {
            document: &document,
            generator,
            signs: Vec::new(),
        };
        let (m, n) = (growth.near(0), growth.near(0));
        growth.expression(m, n, size);
        let signs = growth.signs;
        // Too many steps or too many pending operands can be refused.
        if word::read(&word::write(&signs)).is_ok() {
            return signs;
        }
    }
}

struct Growth<'a> {
    document: &'a Document,
    generator: &'a mut Generator,
    signs: Vec<Sign>,
}

impl Growth<'_> {
    /// The node itself, its parent or one of its children.
    fn near(&mut self, node: usize) -> usize {
        let parents = &self.document.parents;
        let mut places = vec![node, parents[node]];
        places.extend((1..parents.len()).filter(|&child| parents[child] == node));
        places[self.generator.below(places.len())]
    }

    /// Appends an expression that selects (m,n).
    fn expression(&mut self, m: usize, n: usize, size: usize) {
        if size < 2 {
            return self.shortest_way(m, n);
        }
        let first = 1 + self.generator.below(size - 1);
        let k = self.near(m);
        match self.generator.below(10) {
            0 => {
                self.expression(m, n, first);
                self.expression(m, n, size - first);
                self.signs.push(Sign::Intersection);
            }
            1 => {
                self.expression(n, m, size - 1);
                self.signs.push(Sign::Inverse);
            }
            2..=3 if m == n => {
                self.expression(m, k, size - 1);
                self.signs.push(Sign::FirstProjection);
            }
            4..=5 if m == n => {
                self.expression(k, m, size - 1);
                self.signs.push(Sign::SecondProjection);
            }
            _ => {
                self.expression(m, k, first);
                self.expression(k, n, size - first);
                self.signs.push(Sign::Composition);
            }
        }
    }

    /// Appends the shortest way from m to n, with some of the labels on it.
    fn shortest_way(&mut self, m: usize, n: usize) {
        self.signs.push(Sign::Itself);
        self.maybe_label(m);
        let mut up = m;
        let mut down = vec![n];
        // Of two nodes the one with the larger number is never above.
        while up != down[down.len() - 1] {
            let lowest = down[down.len() - 1];
            if up > lowest {
                up = self.document.parents[up];
                self.compose(Sign::Parent);
                self.maybe_label(up);
            } else {
                down.push(self.document.parents[lowest]);
            }
        }
        for &node in down.iter().rev().skip(1) {
            self.compose(Sign::Child);
            self.maybe_label(node);
        }
    }

    fn maybe_label(&mut self, node: usize) {
        if self.generator.below(3) == 0 {
            self.compose(Sign::Label(self.document.labels[node]));
        }
    }

    fn compose(&mut self, sign: Sign) {
        self.signs.extend([sign, Sign::Composition]);
    }
}
