//! Words made of other words: damaged, joined, normal forms; and the
//! specification's examples.

use super::any_signs;
use crate::generator::Generator;
use crate::signs::*;

/// The specification's small queries P1 to P12 and its short bad words; each
/// has its turn.
const EXAMPLES: [&[u8]; 20] = [
    &[],
    &[0x01],
    &[0x02],
    &[0x03],
    &[0x02, 0x03, 0x04],
    &[0x03, 0x02, 0x04],
    &[0x02, 0x03, 0x07],
    &[0x0A, 0x0B, 0x04],
    &[0x02, 0x0A, 0x04, 0x05, 0x02, 0x05, 0x04],
    &[0x02, 0x0A, 0x04, 0x05, 0x02, 0x04],
    &[0x02, 0x05, 0x02, 0x04, 0x0A, 0x04],
    &[0x0A, 0x02, 0x04, 0x06, 0x0B, 0x04],
    &[0x02, 0x0A, 0x04, 0x08],
    &[0x04],
    &[0x80, 0x00],
    &[0x02, 0x80],
    &[0x02, 0x02],
    &[0x88, 0x80, 0x04],
    &[0x89, 0x80, 0x04],
    &[0x00],
];

pub fn example(generator: &mut Generator) -> Vec<u8> {
    EXAMPLES[generator.turn % EXAMPLES.len()].to_vec()
}

/// An accepted word with one byte changed, left out, put in or cut off.
pub fn damaged(generator: &mut Generator) -> Vec<u8> {
    let mut word = word(&any_signs(generator));
    let place = generator.below(word.len());
    match generator.below(6) {
        0 => word[place] ^= 1 << generator.below(8),
        1 => word[place] = generator.next() as u8,
        2 => word[place] = generator.below(12) as u8,
        3 => word.insert(place, generator.below(12) as u8),
        4 => word.truncate(place),
        _ => drop(word.remove(place)),
    }
    word
}

/// The normal form of another word.
pub fn normal_form(generator: &mut Generator) -> Vec<u8> {
    let word = word(&any_signs(generator));
    let mut room = [0; reference::LONGEST_NORMAL_FORM];
    match reference::normal_form(&word, &mut room) {
        Ok(length) => room[..length].to_vec(),
        // Some words of other kinds have too many steps.
        Err(_) => word,
    }
}

/// Two words under one operator, or a word with itself.
pub fn joined(generator: &mut Generator) -> Vec<u8> {
    let first = normal_form(generator);
    let second = match generator.one_in(3) {
        true => first.clone(),
        false => word(&any_signs(generator)),
    };
    let operator = generator.pick(&[COMPOSITION, COMPOSITION, INTERSECTION]) as u8;
    let mut joined = [first, second].concat();
    if generator.one_in(3) {
        joined.push(INVERSE as u8);
    }
    joined.push(operator);
    joined
}

/// Numbers that can't be read, and the last ones that can.
const NUMBERS: [&[u8]; 15] = [
    &[0x80],
    &[0x80, 0x00],
    &[0x81, 0x00],
    &[0x8A, 0x80, 0x00],
    &[0x88, 0x80, 0x04],
    &[0x89, 0x80, 0x04],
    &[0x88, 0x80, 0x84, 0x00],
    &[0xFF, 0xFF, 0x03],
    &[0xFF, 0xFF, 0x7F],
    &[0xFF, 0xFF, 0xFF, 0x7F],
    &[0x80, 0x80, 0x80, 0x80, 0x01],
    &[0x82, 0x80, 0x80, 0x80, 0x10],
    &[0x82, 0x80, 0x80, 0x80, 0x80, 0x80, 0x80, 0x80, 0x80, 0x02],
    &[
        0xFF, 0xFF, 0xFF, 0xFF, 0xFF, 0xFF, 0xFF, 0xFF, 0xFF, 0xFF, 0xFF,
    ],
    &[0xFF, 0x01],
];

/// Such a number put into a word as a further factor, or cut off at its end.
pub fn bad_number(generator: &mut Generator) -> Vec<u8> {
    let number = generator.pick(&NUMBERS);
    let mut bytes = word(&any_signs(generator));
    bytes.truncate(60);
    match generator.below(3) {
        0 => [number, &[COMPOSITION as u8]].concat(),
        1 => [bytes.as_slice(), number, &[COMPOSITION as u8]].concat(),
        _ => {
            let kept = 1 + generator.below(number.len());
            bytes.extend(&number[..kept]);
            bytes
        }
    }
}
