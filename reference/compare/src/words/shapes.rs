//! Deep chains, wide stars and zigzags.

use crate::generator::Generator;
use crate::signs::*;

const MOST_CHILDREN: usize = 255;

/// One way up or down, to 255 steps, with labels here and there.
pub fn chain(generator: &mut Generator) -> Vec<u32> {
    let steps = generator.size(MOST_STEPS);
    let step = generator.pick(&[CHILD, PARENT]);
    let signs = way(generator, steps, |_| step);
    dressed(generator, signs)
}

/// A way that turns often: parent and child meet at one node again, child
/// after parent goes on to a brother.
pub fn zigzag(generator: &mut Generator) -> Vec<u32> {
    let most = generator.pick(&[8, 30, MOST_STEPS]);
    let steps = generator.size(most);
    let turns = generator.pick(&[2, 2, 5]);
    let mut step = CHILD;
    let signs = way(generator, steps, |generator| {
        if generator.one_in(turns) {
            step = CHILD + PARENT - step;
        }
        step
    });
    dressed(generator, signs)
}

/// So many steps, some followed by a label, joined in some order.
fn way(
    generator: &mut Generator,
    steps: usize,
    mut step: impl FnMut(&mut Generator) -> u32,
) -> Vec<u32> {
    let labels = generator.labels();
    let labelled = generator.pick(&[1, 3, 10, 1_000]);
    let mut factors = Vec::new();
    for _ in 0..steps {
        factors.push(vec![step(generator)]);
        if generator.one_in(labelled) {
            factors.push(vec![label(generator.pick(&labels))]);
        }
    }
    joined(&factors, generator)
}

/// Sometimes as a projection or an inverse.
fn dressed(generator: &mut Generator, mut signs: Vec<u32>) -> Vec<u32> {
    while generator.one_in(4) {
        signs.push(generator.pick(&[FIRST_PROJECTION, SECOND_PROJECTION, INVERSE]));
    }
    signs
}

/// A top with many children, to 255: with labels that follow each other, so
/// that byte order and number order differ, or any.
pub fn star(generator: &mut Generator) -> Vec<u32> {
    let most = generator.pick(&[8, 8, 40, MOST_CHILDREN]);
    let children = generator.size(most);
    let first = generator.any_label();
    let in_turn = generator.one_in(2);
    let mut factors = Vec::new();
    for child in 0..children as u32 {
        let own = match in_turn {
            true => (first + child).min(65_535),
            false => generator.any_label(),
        };
        factors.push(vec![CHILD, label(own), COMPOSITION, FIRST_PROJECTION]);
    }
    if generator.one_in(2) {
        let place = generator.below(factors.len());
        factors[place].pop();
    }
    if generator.one_in(2) {
        factors.insert(0, vec![label(first)]);
    }
    joined(&factors, generator)
}
