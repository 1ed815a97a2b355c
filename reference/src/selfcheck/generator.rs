//! A small seeded generator of documents and of words of any kind.

use crate::document::Document;
use crate::word::Sign;

/// Few labels, so that words and documents often bear the same.
const LABELS: usize = 3;

pub struct Generator(u64);

impl Generator {
    pub fn new(seed: u64) -> Generator {
        assert_ne!(seed, 0, "xorshift would stay at zero for ever");
        Generator(seed)
    }

    pub fn below(&mut self, bound: usize) -> usize {
        self.0 ^= self.0 << 13;
        self.0 ^= self.0 >> 7;
        self.0 ^= self.0 << 17;
        (self.0 >> 32) as usize % bound
    }

    pub fn document(&mut self, most_nodes: usize) -> Document {
        let nodes = 1 + self.below(most_nodes);
        Document {
            parents: (0..nodes).map(|node| self.below(node.max(1))).collect(),
            labels: (0..nodes).map(|_| self.label()).collect(),
        }
    }

    fn label(&mut self) -> u16 {
        self.below(LABELS) as u16
    }

    /// The signs of an accepted word of any kind, often empty.
    pub fn loose_word(&mut self, most_signs: usize) -> Vec<Sign> {
        let mut signs = Vec::new();
        let mut pending = 0;
        for _ in 0..=self.below(most_signs) {
            let sign = self.any_sign(pending);
            pending = pending_after(sign, pending);
            signs.push(sign);
        }
        for _ in 1..pending {
            signs.push([Sign::Composition, Sign::Intersection][self.below(2)]);
        }
        signs
    }

    fn any_sign(&mut self, pending: usize) -> Sign {
        use Sign::*;
        let one_operand = [FirstProjection, SecondProjection, Inverse];
        match pending {
            2.. if self.below(4) == 0 => [Composition, Intersection][self.below(2)],
            1.. if self.below(4) == 0 => one_operand[self.below(3)],
            _ if self.below(50) == 0 => Empty,
            _ => [Itself, Child, Parent, Label(self.label())][self.below(4)],
        }
    }
}

/// How many operands are pending after one more sign.
pub fn pending_after(sign: Sign, pending: usize) -> usize {
    match sign {
        Sign::Composition | Sign::Intersection => pending - 1,
        Sign::FirstProjection | Sign::SecondProjection | Sign::Inverse => pending,
        _ => pending + 1,
    }
}
