//! Signs that stay valid without further sense, and bytes without any.

use crate::generator::Generator;
use crate::signs::*;

/// Random signs, each allowed where it stands, biased to composition; what is
/// left pending at the end is joined.
pub fn signs(generator: &mut Generator) -> Vec<u32> {
    let labels = generator.labels();
    let length = generator.pick(&[4, 12, 30, 80, 250]);
    let mut signs = Vec::new();
    let mut pending = 0;
    let mut steps = 0;
    for _ in 0..=generator.below(length) {
        let sign = allowed(generator, &labels, pending);
        if sign == CHILD || sign == PARENT {
            steps += 1;
        }
        if steps > MOST_STEPS {
            break;
        }
        pending = pending_after(sign, pending);
        signs.push(sign);
    }
    while pending > 1 {
        signs.push(if generator.one_in(20) {
            INTERSECTION
        } else {
            COMPOSITION
        });
        pending -= 1;
    }
    signs
}

fn allowed(generator: &mut Generator, labels: &[u32], pending: usize) -> u32 {
    match pending {
        2.. if generator.one_in(2) && generator.one_in(8) => INTERSECTION,
        2.. if generator.one_in(2) => COMPOSITION,
        1.. if generator.one_in(4) => {
            generator.pick(&[FIRST_PROJECTION, SECOND_PROJECTION, INVERSE])
        }
        MOST_PENDING.. => COMPOSITION,
        _ if generator.one_in(300) => EMPTY,
        _ => operand(generator, labels),
    }
}

/// An operand sign other than empty.
pub fn operand(generator: &mut Generator, labels: &[u32]) -> u32 {
    match generator.below(6) {
        0 => SELF,
        1 | 2 => CHILD,
        3 | 4 => PARENT,
        _ => label(generator.pick(labels)),
    }
}

fn pending_after(sign: u32, pending: usize) -> usize {
    match sign {
        COMPOSITION | INTERSECTION => pending - 1,
        FIRST_PROJECTION | SECOND_PROJECTION | INVERSE => pending,
        _ => pending + 1,
    }
}

/// Mostly signs, and some bytes that make longer or bad numbers of them.
const SOUP: [u8; 20] = [
    0x01, 0x02, 0x02, 0x03, 0x03, 0x04, 0x04, 0x04, 0x04, 0x05, 0x06, 0x07, 0x08, 0x0A, 0x0B, 0x0C,
    0x00, 0x80, 0x88, 0xFF,
];

/// Bytes of any value, or of the values that words are made of.
pub fn bytes(generator: &mut Generator) -> Vec<u8> {
    let most = generator.pick(&[6, 24, 24, 200]);
    let length = generator.size(most) - 1;
    let kinds = generator.pick(&[16, 17, SOUP.len()]);
    let any = generator.one_in(4);
    let byte = |_| match any {
        true => generator.next() as u8,
        false => SOUP[generator.below(kinds)],
    };
    (0..length).map(byte).collect()
}
