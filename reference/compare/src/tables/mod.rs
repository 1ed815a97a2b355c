//! Document tables of many kinds, good ones and bad ones.

mod bad;
mod good;

use crate::generator::Generator;
use crate::signs::labels_in;

/// The most rows of a good table.
pub const MOST_ROWS: usize = 1_024;

/// The two lists of a table, and where s and d of the word's own tree lie if
/// it was laid into the document.
#[derive(Clone, Debug, Default)]
pub struct Table {
    pub parents: Vec<u32>,
    pub labels: Vec<u32>,
    pub marks: Option<(usize, usize)>,
}

impl Table {
    pub fn rows(&self) -> usize {
        self.parents.len()
    }

    fn push(&mut self, parent: usize, label: u32) {
        self.parents.push(parent as u32);
        self.labels.push(label);
    }
}

/// What tables are made from: labels that are mostly the word's.
pub struct Maker<'a> {
    pub generator: &'a mut Generator,
    pub word: &'a [u8],
    pub labels: Vec<u32>,
    pub most_rows: usize,
}

impl<'a> Maker<'a> {
    pub fn new(generator: &'a mut Generator, word: &'a [u8], most_rows: usize) -> Maker<'a> {
        let mut labels = labels_in(word);
        labels.push(0);
        labels.push(generator.any_label());
        Maker {
            generator,
            word,
            labels,
            most_rows,
        }
    }

    fn label(&mut self) -> u32 {
        match self.generator.one_in(20) {
            true => self.generator.any_label(),
            false => self.generator.pick(&self.labels),
        }
    }

    fn rows(&mut self) -> usize {
        self.generator.size(self.most_rows)
    }
}

/// A kind of table: its name in the counts, and how one of it is made.
pub struct Kind {
    pub name: &'static str,
    pub make: fn(&mut Maker) -> Table,
}

const fn kind(name: &'static str, make: fn(&mut Maker) -> Table) -> Kind {
    Kind { name, make }
}

/// Documents that hold the word's own minimal tree: on few others does a large
/// word select anything.
pub const OWN: [Kind; 2] = [
    kind("own tree", good::own_tree),
    kind("own trees", good::own_trees),
];

pub const GOOD: [Kind; 5] = [
    kind("tree", good::tree),
    kind("deep tree", good::deep_tree),
    kind("chain", good::chain),
    kind("star", good::star),
    kind("one row", good::one_row),
];

pub const BAD: [Kind; 7] = [
    kind("unequal lengths", bad::unequal_lengths),
    kind("no rows", bad::no_rows),
    kind("1,025 rows", bad::too_many_rows),
    kind("first parent", bad::first_parent),
    kind("parent not above", bad::parent_not_above),
    kind("parent out of range", bad::parent_out_of_range),
    kind("label out of range", bad::label_out_of_range),
];
