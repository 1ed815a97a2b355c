//! Expressions whose d lies a chosen number of levels below s, so that
//! intersections of two of them can select something.

use super::loose::operand;
use crate::generator::Generator;
use crate::signs::*;

struct Levelled<'a> {
    generator: &'a mut Generator,
    labels: Vec<u32>,
    /// One in so many operators is an intersection.
    intersections: usize,
    signs: Vec<u32>,
}

fn term(generator: &mut Generator, intersections: usize, levels: i32, size: usize) -> Vec<u32> {
    let labels = match generator.one_in(2) {
        true => vec![generator.any_label()],
        false => generator.labels(),
    };
    let mut levelled = Levelled {
        generator,
        labels,
        intersections,
        signs: Vec::new(),
    };
    levelled.term(levels, size);
    levelled.signs
}

impl Levelled<'_> {
    fn term(&mut self, levels: i32, size: usize) {
        if size < 2 {
            return self.way(levels);
        }
        let first = self.generator.size(size - 1);
        if self.generator.one_in(self.intersections) {
            self.term(levels, first);
            self.term(levels, size - first);
            self.signs.push(INTERSECTION);
        } else if self.generator.one_in(6) {
            self.term(-levels, size - 1);
            self.signs.push(INVERSE);
        } else if levels == 0 && self.generator.one_in(2) {
            let inner = self.generator.below(5) as i32 - 2;
            self.term(inner, size - 1);
            let projections = [FIRST_PROJECTION, SECOND_PROJECTION];
            self.signs.push(self.generator.pick(&projections));
        } else {
            let part = levels / 2 + self.generator.below(3) as i32 - 1;
            self.term(part, first);
            self.term(levels - part, size - first);
            self.signs.push(COMPOSITION);
        }
    }

    /// The shortest way over so many levels.
    fn way(&mut self, levels: i32) {
        let step = if levels < 0 { PARENT } else { CHILD };
        match levels.unsigned_abs() as usize {
            0 if self.generator.one_in(3) => self.signs.push(SELF),
            0 => self.signs.push(label(self.generator.pick(&self.labels))),
            steps => {
                self.signs.push(step);
                self.signs.extend([step, COMPOSITION].repeat(steps - 1));
            }
        }
    }
}

/// All operators in turn.
pub fn levelled(generator: &mut Generator) -> Vec<u32> {
    let levels = generator.below(7) as i32 - 3;
    let size = generator.size(120);
    term(generator, 6, levels, size)
}

/// Hardly anything but intersections.
pub fn intersections(generator: &mut Generator) -> Vec<u32> {
    let levels = generator.below(5) as i32 - 2;
    let size = generator.size(80);
    term(generator, 2, levels, size)
}

/// Words that are empty, or would be if only one label were another: by the
/// sign, by two labels at one node, by an intersection over unequal depths.
pub fn empty(generator: &mut Generator) -> Vec<u32> {
    let size = generator.size(20);
    let levels = generator.below(3) as i32;
    let mut signs = term(generator, 6, levels, size);
    match generator.below(4) {
        0 => signs.push(EMPTY),
        1 => signs.extend(term(generator, 6, levels + 1, size)),
        2 => {
            let (one, other) = (generator.any_label(), generator.any_label());
            signs.extend([label(one), label(other), COMPOSITION]);
        }
        _ => {
            let labels = generator.labels();
            signs.push(operand(generator, &labels));
        }
    }
    signs.push(generator.pick(&[COMPOSITION, INTERSECTION]));
    if generator.one_in(2) {
        signs.extend([CHILD, INVERSE, COMPOSITION]);
    }
    signs
}
