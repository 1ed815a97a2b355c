//! The limits, and the refusals with their places and order.

use crate::support::{hex, minimal, normal, plain, refused, repeated, written, WRITERS};
use reference::{minimal_image, selects};

/// Every function gives this refusal for the word: the writers without any
/// room, the pair question with a bad table and no workspace.
fn assert_refused(word: &[u8], number: u32, place: u64) {
    for writer in WRITERS {
        assert_eq!(written(writer, word, 0), refused(number, place));
        assert_eq!(written(writer, word, 3_000), refused(number, place));
    }
    assert_eq!(
        selects(word, &[], &[], 0, 0, &mut []),
        refused(number, place)
    );
}

#[test]
fn words_at_the_limits() {
    assert_refused(&[], 6, 0);
    assert_refused(&hex("04"), 3, 0);
    assert_refused(&hex("80 00"), 2, 0);
    assert_refused(&hex("02 80"), 2, 1);
    assert_refused(&hex("02 02"), 6, 2);
    assert_refused(&hex("89 80 04"), 2, 0);
    assert_refused(&repeated("", 256, "01"), 6, 256);
    assert_refused(&repeated("", 257, "01"), 4, 256);
    assert_refused(&repeated("02", 255, "02 04"), 5, 509);
}

#[test]
fn the_largest_label_is_accepted() {
    assert_eq!(minimal(&hex("88 80 04")), Ok(hex("01 80 80 04 03 00")));
    assert_eq!(normal(&hex("88 80 04")), Ok(hex("88 80 04")));
}

#[test]
fn label_zero_is_no_wildcard() {
    assert_eq!(minimal(&hex("09")), Ok(hex("01 01 03 00")));
    assert_eq!(minimal(&hex("09 0A 04")), Ok(hex("00")));
}

#[test]
fn two_hundred_and_fifty_five_steps_are_accepted() {
    let word = repeated("02", 254, "02 04");
    assert_eq!(normal(&word), Ok(word.clone()));
    assert_eq!(minimal(&word).unwrap()[..2], [0x80, 0x02]);
    assert_eq!(plain(&word), minimal(&word));
}

#[test]
fn operators_lack_operands() {
    for operator in ["04", "05", "06", "07", "08"] {
        assert_refused(&hex(operator), 3, 0);
    }
    for operator in ["04", "07"] {
        assert_refused(&[hex("01"), hex(operator)].concat(), 3, 1);
        assert_refused(&[hex("88 80 04"), hex(operator)].concat(), 3, 3);
    }
}

#[test]
fn numbers_that_cannot_be_read() {
    assert_refused(&hex("01 88 80"), 2, 1);
    assert_refused(&hex("01 8A 80 00"), 2, 1);
    assert_refused(&hex("01 FF FF FF FF FF FF FF FF FF 01"), 2, 1);
    assert_refused(&repeated("", 4_096, "FF"), 2, 0);
    assert_refused(&repeated("01", 4_000, "FF"), 2, 1);
}

#[test]
fn the_first_bad_sign_decides() {
    assert_refused(&hex("01 07 80"), 3, 1);
    assert_refused(&hex("01 80 00 04"), 2, 1);
    assert_refused(&hex("02 02 80"), 2, 2);
}

#[test]
fn four_goes_before_five() {
    let pending_and_steps = [repeated("", 255, "02"), hex("01 02")].concat();
    assert_refused(&pending_and_steps, 4, 256);
    assert_refused(&repeated("", 256, "02"), 5, 255);
}

#[test]
fn the_longest_word() {
    assert_eq!(normal(&repeated("02", 4_095, "08")), Ok(hex("03")));
    assert_refused(&repeated("02", 4_096, "08"), 1, 4_096);
    assert_refused(&repeated("04", 4_096, "80"), 1, 4_096);
    assert_refused(&repeated("", 10_000, "01"), 1, 4_096);
}

#[test]
fn the_room_must_hold_the_answer() {
    let p2 = hex("02");
    assert_eq!(written(minimal_image, &p2, 6), refused(7, 7));
    assert_eq!(
        written(minimal_image, &p2, 7),
        Ok(hex("02 00 01 01 00 02 00"))
    );
    for writer in WRITERS {
        let answer = written(writer, &p2, 3_000).unwrap();
        for room in 0..answer.len() {
            assert_eq!(written(writer, &p2, room), refused(7, answer.len() as u64));
        }
        assert_eq!(written(writer, &p2, answer.len()), Ok(answer));
    }
    assert_eq!(written(minimal_image, &hex("00"), 0), refused(7, 1));
}
