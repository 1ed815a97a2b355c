//! The signs of words by their numbers, and words written from them. Signs are
//! plain numbers here, because damaged words hold others as well.

use crate::generator::Generator;

pub const EMPTY: u32 = 0;
pub const SELF: u32 = 1;
pub const CHILD: u32 = 2;
pub const PARENT: u32 = 3;
pub const COMPOSITION: u32 = 4;
pub const FIRST_PROJECTION: u32 = 5;
pub const SECOND_PROJECTION: u32 = 6;
pub const INTERSECTION: u32 = 7;
pub const INVERSE: u32 = 8;
pub const FIRST_LABEL: u32 = 9;
pub const LARGEST: u32 = 65_544;

pub const MOST_STEPS: usize = 255;
pub const MOST_PENDING: usize = 256;

const FOLLOWED: u8 = 0x80;

pub fn label(label: u32) -> u32 {
    FIRST_LABEL + label
}

/// Appends the shortest writing of a number in groups of seven bits.
pub fn write_number(number: u32, bytes: &mut Vec<u8>) {
    let mut rest = number;
    while rest > 0x7f {
        bytes.push(rest as u8 | FOLLOWED);
        rest >>= 7;
    }
    bytes.push(rest as u8);
}

pub fn word(signs: &[u32]) -> Vec<u8> {
    let mut word = Vec::new();
    for &sign in signs {
        write_number(sign, &mut word);
    }
    word
}

/// Reads the number at a place and tells the place behind it. Good and bad
/// words alike are looked through for their labels, so anything is read.
pub fn read_number(bytes: &[u8], place: usize) -> (u32, usize) {
    let mut number = 0;
    let mut at = place;
    while at < bytes.len() {
        let group = u32::from(bytes[at] & !FOLLOWED);
        number |= group.checked_shl(7 * (at - place) as u32).unwrap_or(0);
        at += 1;
        if bytes[at - 1] & FOLLOWED == 0 {
            break;
        }
    }
    (number, at)
}

/// The labels that a word names.
pub fn labels_in(word: &[u8]) -> Vec<u32> {
    let mut labels = Vec::new();
    let mut place = 0;
    while place < word.len() {
        let (sign, next) = read_number(word, place);
        if (FIRST_LABEL..=LARGEST).contains(&sign) {
            labels.push(sign - FIRST_LABEL);
        }
        place = next;
    }
    labels
}

/// Factors joined by composition, from the left as normal forms are or in any
/// other order; self if there are none.
pub fn joined(factors: &[Vec<u32>], generator: &mut Generator) -> Vec<u32> {
    let haste = generator.pick(&[1, 1, 2, 5, 1_000_000]);
    let mut signs = Vec::new();
    let mut pending = 0;
    for factor in factors {
        signs.extend(factor);
        pending += 1;
        // Few enough stay pending for a whole word to be built of such parts.
        while pending > 1 && (pending > 100 || haste == 1 || generator.below(haste) == 0) {
            signs.push(COMPOSITION);
            pending -= 1;
        }
    }
    match pending {
        0 => vec![SELF],
        _ => [signs, vec![COMPOSITION; pending - 1]].concat(),
    }
}
