//! Where a naive build goes wrong.

use crate::support::{hex, minimal, normal, repeated};

#[test]
fn byte_order_is_not_number_order() {
    let word = hex("02 89 01 04 05  02 88 02 04 05 04  02 88 01 04 05 04");
    let image = hex("04 00 03 03  80 01 00 00  80 02 00 00  81 01 00 00");
    let form = hex("02 88 01 04 05  02 88 02 04 05 04  02 89 01 04 05 04");
    assert_eq!(minimal(&word), Ok(image));
    assert_eq!(normal(&word), Ok(form));
}

#[test]
fn many_operands_one_after_another() {
    let word = repeated("01", 2_047, "01 04");
    assert_eq!(minimal(&word), Ok(hex("01 00 03 00")));
    assert_eq!(normal(&word), Ok(hex("01")));
}

#[test]
fn many_nodes_pending_together() {
    let word = [repeated("", 255, "02"), hex("01"), repeated("", 255, "04")].concat();
    assert_eq!(normal(&word), Ok(repeated("02", 254, "02 04")));
}

#[test]
fn a_way_above_t_stays() {
    assert_eq!(minimal(&hex("02 06")), Ok(hex("02 00 00 01 00 03 00")));
    assert_eq!(normal(&hex("02 06")), Ok(hex("02 06")));
    assert_eq!(normal(&hex("03 05")), Ok(hex("02 06")));
}

#[test]
fn two_branches_are_not_one_with_both_ends() {
    let one = hex("02 02 0A 04 05 04 02 0B 04 05 04 05");
    let two = hex("02 02 04 0A 04 05 02 02 04 0B 04 05 04");
    assert_eq!(normal(&one), Ok(one));
    assert_eq!(normal(&two), Ok(two));
}

#[test]
fn brothers_that_fold_onto_each_other_need_not_be_equal() {
    // Child with a child, and child with a child twice over.
    let word = hex("02 02 05 04 05  02 02 05 04 02 05 04 05  04");
    assert_eq!(minimal(&word), Ok(hex("03 00 03 01 00 00 01 00 00 00")));
    assert_eq!(normal(&word), Ok(hex("02 02 04 05")));
}

#[test]
fn every_kind_of_factor_stands_in_its_place() {
    // s under t and d under t, t under a labelled top, each with a branch.
    let own = |label: &str| hex(label).into_iter().chain(hex("02 0D 04 05 04"));
    let word: Vec<u8> = own("0A")
        .chain(hex("03 04"))
        .chain(own("0B"))
        .chain(hex("02 04 06 04"))
        .chain(hex("0C 04  02 0D 04 05 04"))
        .chain(hex("02 04  0E 04  02 0D 04 05 04"))
        .collect();
    assert_eq!(normal(&word), Ok(word));
}
