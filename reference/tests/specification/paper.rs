//! The paper's worked queries; a to f are labels 1 to 6. The specification
//! puts a node's label before its projections, the paper behind them.

use crate::support::{hex, normal};

#[test]
fn the_query_of_example_7_2() {
    let word = hex("02 05  0D 03 04 0C 04 06 04  0B 02 04 0C 04 06 04  03 04 \
         02 0B 04 02 04  02 02 04 0C 04  07 05 02 04 06 04 \
         02 04  0C 02 04 0D 04 05 04  0C 04  02 04");
    let form = hex("0C 02 0D 04 05 04  03 04  02 06 04 \
         0B 04  02 04  0C 04 02 0D 04 05 04  02 04");
    assert_eq!(normal(&word), Ok(form));
}

#[test]
fn the_query_of_the_introduction() {
    let word = hex(
        "0A 02 04 06  0B 04  02 02 04 0A 04 05 04  02 04 0C 04  02 04 \
         02 04 0D 04  02 0E 04 05 04  02 04  02 04 0F 04 \
         0A 02 04 06  0B 04  02 04 0C 04  02 04 0A 04 \
         02 04 0D 04  02 04 0C 04  02 04 0F 04  07",
    );
    let form = hex("0A 02 04 06  0B 04  02 04 0C 04  02 04 0A 04 \
         02 04 0D 04 02 0E 04 05 04  02 04 0C 04  02 04 0F 04");
    assert_eq!(normal(&word), Ok(form));
}
