//! The table of small queries, P1 to P12.

use crate::support::{hex, minimal, normal, plain};

/// Word, minimal image, normal form.
const TABLE: [(&str, &str, &str); 12] = [
    ("01", "01 00 03 00", "01"),
    ("02", "02 00 01 01 00 02 00", "02"),
    ("03", "02 00 02 01 00 01 00", "03"),
    ("02 03 04", "02 00 03 01 00 00 00", "02 05"),
    ("03 02 04", "03 00 00 02 00 01 00 00 02 00", "03 02 04"),
    ("02 03 07", "00", "00"),
    ("0A 0B 04", "00", "00"),
    (
        "02 0A 04 05 02 05 04",
        "02 00 03 01 02 00 00",
        "02 0A 04 05",
    ),
    (
        "02 0A 04 05 02 04",
        "03 00 01 02 00 02 00 02 00 00",
        "02 0A 04 05 02 04",
    ),
    ("02 05 02 04 0A 04", "02 00 01 01 02 02 00", "02 0A 04"),
    (
        "0A 02 04 06 0B 04",
        "02 02 00 01 03 03 00",
        "0A 02 04 06 0B 04",
    ),
    ("02 0A 04 08", "02 00 02 01 02 01 00", "0A 03 04"),
];

#[test]
fn p1_to_p12() {
    for (word, image, form) in TABLE {
        assert_eq!(minimal(&hex(word)), Ok(hex(image)), "image of {word}");
        assert_eq!(normal(&hex(word)), Ok(hex(form)), "form of {word}");
    }
}

#[test]
fn normal_forms_are_their_own_normal_forms() {
    for (_, image, form) in TABLE {
        assert_eq!(minimal(&hex(form)), Ok(hex(image)), "image of {form}");
        assert_eq!(normal(&hex(form)), Ok(hex(form)), "form of {form}");
    }
}

#[test]
fn plain_images_keep_what_folds() {
    let word = hex("02 0A 04 05 02 05 04");
    assert_eq!(plain(&word), Ok(hex("03 00 03 02 00 00 00 02 00 00")));
    let equal_brothers = hex("02 05 02 05 04");
    assert_eq!(
        plain(&equal_brothers),
        Ok(hex("03 00 03 02 00 00 00 00 00 00"))
    );
    assert_eq!(plain(&hex("02 03 07")), Ok(hex("00")));
}
