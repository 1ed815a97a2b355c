//! The largest answers there are.

use crate::support::{hex, minimal, normal, plain, repeated, written};
use reference::{minimal_image, normal_form};

/// A labelled top with 255 differently labelled children, all labels in three
/// groups.
fn star() -> Vec<u8> {
    let label_sign = |label: u32| {
        let number = label + 9;
        let groups = [
            number & 0x7f | 0x80,
            number >> 7 & 0x7f | 0x80,
            number >> 14,
        ];
        groups.map(|group| group as u8)
    };
    let mut word = label_sign(65_535).to_vec();
    for label in 20_000..20_255 {
        word.push(0x02);
        word.extend(label_sign(label));
        word.extend(hex("04 05 04"));
    }
    word
}

#[test]
fn the_longest_image_and_the_longest_normal_form() {
    let image = minimal(&star()).unwrap();
    assert_eq!(image.len(), 1_283);
    assert_eq!(plain(&star()), Ok(image.clone()));
    let form = normal(&star()).unwrap();
    assert_eq!(form.len(), 1_788);
    assert_eq!(minimal(&form), Ok(image.clone()));
    assert_eq!(normal(&form), Ok(form.clone()));
    assert_eq!(written(minimal_image, &star(), 1_283), Ok(image));
    assert_eq!(written(normal_form, &star(), 1_788), Ok(form));
}

/// Below a labelled top 128 nodes in one line, each but the first with a
/// brother of its own.
fn comb() -> Vec<u8> {
    let down = repeated("0A 02 0B 04", 127, "02 0A 04 05 04 02 0B 04");
    let back = repeated("", 128, "05 04");
    [down, back].concat()
}

#[test]
fn the_most_operands_pending_in_a_normal_form() {
    assert_eq!(minimal(&comb()).unwrap()[..2], [0x80, 0x02]);
    let form = normal(&comb()).unwrap();
    assert_eq!(form, comb());
    let mut pending = 0;
    let mut most = 0;
    for sign in form {
        pending += match sign {
            0x04 => -1,
            0x05 => 0,
            _ => 1,
        };
        most = most.max(pending);
    }
    assert_eq!(most, 130);
}
