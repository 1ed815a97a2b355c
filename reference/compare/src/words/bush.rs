//! Bushes: ways whose nodes have branches, many of them loosened copies of
//! their brothers, so that they fold onto each other, at any depth.

use crate::generator::Generator;
use crate::signs::*;

#[derive(Clone)]
struct Branch {
    label: Option<u32>,
    below: Vec<Branch>,
}

impl Branch {
    fn nodes(&self) -> usize {
        1 + self.below.iter().map(Branch::nodes).sum::<usize>()
    }

    /// A chain: child, the label, and what is below, itself as a chain or as
    /// first projections.
    fn chain(&self, generator: &mut Generator) -> Vec<u32> {
        let mut factors = vec![vec![CHILD]];
        factors.extend(self.label.map(|own| vec![label(own)]));
        if let [only] = self.below.as_slice() {
            if generator.one_in(2) {
                factors.push(only.chain(generator));
                return joined(&factors, generator);
            }
        }
        for branch in &self.below {
            factors.push(branch.projection(generator));
        }
        joined(&factors, generator)
    }

    fn projection(&self, generator: &mut Generator) -> Vec<u32> {
        let mut signs = self.chain(generator);
        if generator.one_in(6) {
            signs.extend([INVERSE, SECOND_PROJECTION]);
        } else {
            signs.push(FIRST_PROJECTION);
        }
        signs
    }
}

struct Gardener<'a> {
    generator: &'a mut Generator,
    labels: Vec<u32>,
    /// One node in so many is a wildcard.
    wildcards: usize,
}

impl Gardener<'_> {
    fn new(generator: &mut Generator) -> Gardener<'_> {
        let labels = generator.labels();
        let wildcards = generator.pick(&[2, 3, 8]);
        Gardener {
            generator,
            labels,
            wildcards,
        }
    }

    fn label(&mut self) -> Option<u32> {
        let wildcard = self.generator.one_in(self.wildcards);
        (!wildcard).then(|| self.generator.pick(&self.labels))
    }

    fn grown(&mut self, nodes: usize) -> Branch {
        let label = self.label();
        let mut below: Vec<Branch> = Vec::new();
        let mut left = nodes - 1;
        while left > 0 && !self.generator.one_in(12) {
            let branch = match below.len() {
                1.. if self.generator.one_in(2) => {
                    let brother = self.generator.below(below.len());
                    self.altered(&below[brother])
                }
                _ => {
                    let part = self.generator.size(left);
                    self.grown(part)
                }
            };
            if branch.nodes() > left {
                break;
            }
            left -= branch.nodes();
            below.push(branch);
        }
        Branch { label, below }
    }

    /// A copy that mostly demands less: fewer labels, fewer branches. Now and
    /// then a label changes, so that it does not fold after all.
    fn altered(&mut self, branch: &Branch) -> Branch {
        let label = match self.generator.below(8) {
            0 | 1 => None,
            2 => self.label(),
            _ => branch.label,
        };
        let mut below = Vec::new();
        for branch in &branch.below {
            if !self.generator.one_in(5) {
                below.push(self.altered(branch));
            }
        }
        Branch { label, below }
    }

    /// A node's label and branches, as factors.
    fn own_factors(&mut self, nodes: usize) -> Vec<Vec<u32>> {
        let top = self.grown(nodes);
        let mut factors: Vec<Vec<u32>> =
            top.label.map(|own| vec![label(own)]).into_iter().collect();
        for branch in &top.below {
            factors.push(branch.projection(self.generator));
        }
        factors
    }
}

/// A way of some steps up and down, every node with branches.
pub fn bush(generator: &mut Generator) -> Vec<u32> {
    let nodes = generator.pick(&[2, 6, 12, 25, 60]);
    let steps = generator.below(6);
    let mut gardener = Gardener::new(generator);
    let mut factors = gardener.own_factors(nodes);
    for _ in 0..steps {
        let step = gardener.generator.pick(&[CHILD, CHILD, PARENT]);
        factors.push(vec![step]);
        let part = gardener.generator.size(nodes.div_ceil(3));
        factors.extend(gardener.own_factors(part));
    }
    let mut signs = joined(&factors, generator);
    if generator.one_in(5) {
        signs.push(generator.pick(&[FIRST_PROJECTION, SECOND_PROJECTION]));
    }
    signs
}

/// One branch several times, each time altered again: brothers that fold onto
/// each other in turn, in both directions, or not at all.
pub fn brothers(generator: &mut Generator) -> Vec<u32> {
    let nodes = generator.size(20);
    let copies = 2 + generator.below(6);
    let mut gardener = Gardener::new(generator);
    let mut branch = gardener.grown(nodes);
    let mut factors = Vec::new();
    for _ in 0..copies {
        factors.push(branch.projection(gardener.generator));
        let altered = gardener.altered(&branch);
        if gardener.generator.one_in(2) {
            branch = altered;
        } else {
            factors.push(altered.projection(gardener.generator));
        }
    }
    // A way down to d through one of the brothers keeps it from folding.
    if generator.one_in(2) {
        let place = generator.below(factors.len());
        factors[place].pop();
    }
    joined(&factors, generator)
}
