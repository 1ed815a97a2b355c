//! Words at the limits: 4,096 bytes, 256 pending operands, 255 steps.

use super::any_signs;
use super::loose::operand;
use crate::generator::Generator;
use crate::signs::*;

/// Words exactly at a limit and one beyond it, and what else stands at one in
/// the specification: a beginning, and a part that is repeated after it.
const EXACT: [(&[u8], usize, &[u8]); 14] = [
    (&[], 256, &[0x01]),
    (&[], 257, &[0x01]),
    (&[0x02], 254, &[0x02, 0x04]),
    (&[0x02], 255, &[0x02, 0x04]),
    // The 256 pending operands are followed by a 257th, which is a step.
    (&[0x01], 256, &[0x02]),
    (&[0x01, 0x01], 255, &[0x02]),
    (&[], 256, &[0x02]),
    (&[], 256, &[0x03]),
    (&[0x01], 2_047, &[0x01, 0x04]),
    (&[0x01], 4_095, &[0x08]),
    (&[0x01], 4_096, &[0x08]),
    (&[0x02], 4_095, &[0x05]),
    (&[0x88, 0x80, 0x04], 1_023, &[0x88, 0x80, 0x04, 0x04]),
    (&[], 4_097, &[0xFF]),
];

/// How many words exactly at a limit there are; each has its turn.
pub const EXACT_WORDS: usize = EXACT.len();

pub fn exact(generator: &mut Generator) -> Vec<u8> {
    let (beginning, times, part) = EXACT[generator.turn % EXACT_WORDS];
    [beginning, &part.repeat(times)].concat()
}

/// Brings a word to a length next to the limit: by operators of one operand,
/// by factors of two bytes, or by labels of three.
pub fn bytes(generator: &mut Generator) -> Vec<u8> {
    let mut word = match generator.one_in(2) {
        true => word(&any_signs(generator)),
        false => vec![SELF as u8],
    };
    let length = reference::LONGEST_WORD + generator.below(3) - 1;
    let length = if generator.one_in(10) { 5_000 } else { length };
    let mut padding = vec![SELF as u8, COMPOSITION as u8];
    if generator.one_in(3) {
        padding.clear();
        write_number(label(65_535), &mut padding);
        padding.push(COMPOSITION as u8);
    }
    while word.len() + padding.len() <= length {
        word.extend(&padding);
    }
    while word.len() < length {
        word.push(INVERSE as u8);
    }
    word
}

/// 255 to 257 operands that are pending at once, then the operators.
pub fn pending(generator: &mut Generator) -> Vec<u32> {
    let operands = MOST_PENDING + generator.pick(&[0, 0, 1, 2]) - 1;
    let labels = [generator.any_label()];
    let steps = generator.pick(&[0, 10, MOST_STEPS, 300]);
    let mut signs: Vec<u32> = (0..operands)
        .map(|place| match place {
            // Perhaps a step that is one too many in both counts.
            MOST_PENDING => operand(generator, &labels),
            _ if place < steps => generator.pick(&[CHILD, PARENT]),
            _ => generator.pick(&[SELF, label(labels[0])]),
        })
        .collect();
    while generator.one_in(3) {
        signs.push(generator.pick(&[FIRST_PROJECTION, INVERSE]));
    }
    let operator = generator.pick(&[COMPOSITION, COMPOSITION, INTERSECTION]);
    signs.extend(vec![operator; operands - 1]);
    // Full again after room was made, sometimes once too often.
    if generator.one_in(2) {
        signs.push(operand(generator, &labels));
        signs.push(COMPOSITION);
    }
    signs
}

/// 254 to 256 steps, few or many of them pending at once.
pub fn steps(generator: &mut Generator) -> Vec<u32> {
    let steps = MOST_STEPS + generator.pick(&[0, 1, 1, 2]) - 1;
    let down = generator.pick(&[1, 2, 2, 1_000]);
    let at_once = generator.pick(&[1, 1, 2, 40, 255]);
    let mut signs = Vec::new();
    let mut pending = 0;
    for _ in 0..steps {
        signs.push(if generator.one_in(down) {
            CHILD
        } else {
            PARENT
        });
        pending += 1;
        if generator.one_in(9) {
            signs.push(generator.pick(&[FIRST_PROJECTION, SECOND_PROJECTION, INVERSE]));
        }
        if pending > at_once {
            signs.extend(vec![COMPOSITION; pending - 1]);
            pending = 1;
        }
    }
    signs.extend(vec![COMPOSITION; pending - 1]);
    signs
}
