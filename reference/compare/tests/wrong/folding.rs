//! Wrong foldings: the minimal image from the plain one, by the text of the
//! specification but for one thing.

use compare::c_writer;
use compare::image::{read, Record};
use compare::library::{Library, Writer};
use compare::returned::{is_refused, refused};
use compare::stand_in::{plain_image, LIBRARY};
use reference::Reason;

#[derive(Clone)]
struct Node {
    label_code: u32,
    mark: u32,
    children: Vec<Node>,
}

/// How folding goes; the right way is `RIGHT`.
#[derive(Clone, Copy)]
struct Manner {
    most_pairs: usize,
    at_top: bool,
    below_top: bool,
    label_onto_wildcard: bool,
    marks_matter: bool,
}

const RIGHT: Manner = Manner {
    most_pairs: usize::MAX,
    at_top: true,
    below_top: true,
    label_onto_wildcard: false,
    marks_matter: true,
};

impl Manner {
    fn folds(&self, u: &Node, v: &Node) -> bool {
        let label = u.label_code == 0
            || u.label_code == v.label_code
            || self.label_onto_wildcard && v.label_code == 0;
        let marks = u.mark & !v.mark == 0 || !self.marks_matter;
        let onto_some = |below: &Node| v.children.iter().any(|place| self.folds(below, place));
        label && marks && u.children.iter().all(onto_some)
    }

    fn fold(&mut self, node: &mut Node, is_top: bool) {
        if self.below_top || is_top {
            for child in &mut node.children {
                self.fold(child, false);
            }
        }
        if !self.at_top && is_top || !self.below_top && !is_top {
            return;
        }
        while self.most_pairs > 0 {
            let Some(folding) = self.folding_brother(&node.children) else {
                return;
            };
            node.children.remove(folding);
            self.most_pairs -= 1;
        }
    }

    fn folding_brother(&self, brothers: &[Node]) -> Option<usize> {
        (0..brothers.len()).find(|&u| {
            let mut others = (0..brothers.len()).filter(|&v| v != u);
            others.any(|v| self.folds(&brothers[u], &brothers[v]))
        })
    }

    fn minimal_image(mut self, word: &[u8], room: &mut [u8]) -> u64 {
        let mut plain = [0; 2_048];
        let returned = plain_image(word, &mut plain);
        if is_refused(returned) {
            return returned;
        }
        let records = read(&plain[..returned as usize]);
        let image = match records.is_empty() {
            true => vec![0],
            false => {
                let mut top = subtree(&mut records.iter());
                self.fold(&mut top, true);
                image(&top)
            }
        };
        match room.get_mut(..image.len()) {
            Some(room) => room.copy_from_slice(&image),
            None => return refused(Reason::RoomTooShort, image.len()),
        }
        image.len() as u64
    }
}

fn subtree<'a>(records: &mut impl Iterator<Item = &'a Record>) -> Node {
    let record = records.next().expect("an image holds all its records");
    let mut children = Vec::new();
    for _ in 0..record.children {
        children.push(subtree(records));
    }
    Node {
        label_code: record.label_code,
        mark: record.mark,
        children,
    }
}

fn image(top: &Node) -> Vec<u8> {
    [numbers(&[nodes(top)]), record(top)].concat()
}

fn nodes(node: &Node) -> u32 {
    1 + node.children.iter().map(nodes).sum::<u32>()
}

fn record(node: &Node) -> Vec<u8> {
    let mut below: Vec<Vec<u8>> = node.children.iter().map(record).collect();
    below.sort();
    let own = numbers(&[node.label_code, node.mark, below.len() as u32]);
    [own, below.concat()].concat()
}

fn numbers(numbers: &[u32]) -> Vec<u8> {
    let mut bytes = Vec::new();
    for &number in numbers {
        let mut rest = number;
        while rest > 0x7f {
            bytes.push(rest as u8 | 0x80);
            rest >>= 7;
        }
        bytes.push(rest as u8);
    }
    bytes
}

fn with(name: &'static str, minimal_image: Writer) -> Library {
    Library {
        name,
        minimal_image,
        ..LIBRARY
    }
}

macro_rules! folding {
    ($name:literal, $($field:ident: $value:expr),*) => {
        with($name, c_writer!(|word, room| {
            let manner = Manner { $($field: $value,)* ..RIGHT };
            manner.minimal_image(word, room)
        }))
    };
}

pub fn right() -> Library {
    folding!("folds rightly",)
}

pub fn all() -> Vec<Library> {
    vec![
        folding!("folds only the first pair", most_pairs: 1),
        folding!("folds only below the top", at_top: false),
        folding!("folds only the top's children", below_top: false),
        folding!("folds a labelled branch onto a wildcard", label_onto_wildcard: true),
        folding!("folds a marked node", marks_matter: false),
    ]
}
