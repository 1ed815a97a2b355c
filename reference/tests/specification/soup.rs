//! Any bytes may be handed in: every function answers, or all refuse alike.

use crate::support::{minimal, normal, plain, Lent};
use reference::{LONGEST_IMAGE, LONGEST_NORMAL_FORM};

/// Mostly signs, and some bytes that make longer or bad numbers of them.
const BYTES: [u8; 20] = [
    0x00, 0x01, 0x02, 0x02, 0x03, 0x03, 0x04, 0x04, 0x04, 0x04, 0x05, 0x06, 0x07, 0x08, 0x0A, 0x0B,
    0x0C, 0x80, 0x88, 0xFF,
];

/// Random bytes of random length, by xorshift.
fn soup(state: &mut u64) -> Vec<u8> {
    let mut next = |bound: u64| {
        *state ^= *state << 13;
        *state ^= *state >> 7;
        *state ^= *state << 17;
        (*state >> 32) % bound
    };
    let kinds = 17 + next(4);
    let length = next(24);
    (0..length).map(|_| BYTES[next(kinds) as usize]).collect()
}

#[test]
fn all_functions_refuse_alike() {
    let lent = Lent {
        parents: &[0, 0, 1],
        labels: &[1, 2, 3],
        workspace: 32_768,
    };
    let mut state = 0x2545_f491_4f6c_dd1d;
    let mut accepted = 0;
    for _ in 0..50_000 {
        let word = soup(&mut state);
        let refusal = plain(&word).err();
        assert_eq!(minimal(&word).err(), refusal);
        assert_eq!(normal(&word).err(), refusal);
        assert_eq!(lent.ask(&word, 1, 2).err(), refusal);
        if refusal.is_none() {
            accepted += 1;
            assert!(plain(&word).unwrap().len() <= LONGEST_IMAGE);
            assert!(normal(&word).unwrap().len() <= LONGEST_NORMAL_FORM);
        }
    }
    assert!(accepted > 1_000, "only {accepted} words were accepted");
}
