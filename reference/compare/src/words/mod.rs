//! Words of many kinds, good ones and bad ones.

mod bush;
mod derived;
mod levelled;
mod limits;
mod loose;
mod shapes;
#[cfg(test)]
mod worth;

use crate::generator::Generator;
use crate::signs;

pub use limits::EXACT_WORDS;

/// A word, the name of its kind in the counts, and the generator to go on with.
pub struct Made {
    pub kind: &'static str,
    pub word: Vec<u8>,
    pub generator: Generator,
}

/// The word with this index under a seed.
pub fn made(seed: u64, index: u64) -> Made {
    let kinds = KINDS.len() as u64;
    let kind = &KINDS[(index % kinds) as usize];
    let mut generator = Generator::of(seed, index, (index / kinds) as usize);
    Made {
        kind: kind.name,
        word: (kind.make)(&mut generator),
        generator,
    }
}

struct Kind {
    name: &'static str,
    make: fn(&mut Generator) -> Vec<u8>,
}

const fn kind(name: &'static str, make: fn(&mut Generator) -> Vec<u8>) -> Kind {
    Kind { name, make }
}

/// The kinds in the order in which they take turns.
const KINDS: [Kind; 19] = [
    kind("example", derived::example),
    kind("signs", |generator| signs::word(&loose::signs(generator))),
    kind("bush", |generator| signs::word(&bush::bush(generator))),
    kind("levelled", |generator| {
        signs::word(&levelled::levelled(generator))
    }),
    kind("damaged", derived::damaged),
    kind("normal form", derived::normal_form),
    kind("bytes", loose::bytes),
    kind("zigzag", |generator| {
        signs::word(&shapes::zigzag(generator))
    }),
    kind("intersections", |generator| {
        signs::word(&levelled::intersections(generator))
    }),
    kind("star", |generator| signs::word(&shapes::star(generator))),
    kind("chain", |generator| signs::word(&shapes::chain(generator))),
    kind("brothers", |generator| {
        signs::word(&bush::brothers(generator))
    }),
    kind("joined", derived::joined),
    kind("empty", |generator| {
        signs::word(&levelled::empty(generator))
    }),
    kind("bad number", derived::bad_number),
    kind("exact limit", limits::exact),
    kind("limit of bytes", limits::bytes),
    kind("limit of pending", |generator| {
        signs::word(&limits::pending(generator))
    }),
    kind("limit of steps", |generator| {
        signs::word(&limits::steps(generator))
    }),
];

/// The signs of an accepted word of one of the kinds that hold many nodes.
fn any_signs(generator: &mut Generator) -> Vec<u32> {
    let kinds: [fn(&mut Generator) -> Vec<u32>; 8] = [
        loose::signs,
        bush::bush,
        bush::brothers,
        levelled::levelled,
        levelled::intersections,
        shapes::chain,
        shapes::star,
        shapes::zigzag,
    ];
    generator.pick(&kinds)(generator)
}
