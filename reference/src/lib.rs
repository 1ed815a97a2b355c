//! The independent second implementation of Gulphareti: Path+ queries for the
//! cavity store. From a query word: its plain tree image, its minimal tree
//! image, its normal form. From a word, a document table and two nodes:
//! whether the pair is selected.
//!
//! It is written to be compared with, not to be quick: wherever there is a
//! choice it takes the definition instead of the efficient way.

mod document;
mod image;
mod laying;
mod matching;
mod minimal;
mod normal;
mod number;
mod plain;
mod refusal;
mod relation;
mod tree;
mod word;

#[cfg(test)]
mod selfcheck;

pub use image::LONGEST_IMAGE;
pub use matching::MATCH_TABLE_BYTES;
pub use normal::LONGEST_NORMAL_FORM;
pub use refusal::{Reason, Refusal};
pub use word::LONGEST_WORD;

use document::Document;
use tree::Tree;
use word::Sign;

/// Writes the plain image of a word into the room and returns its length, or
/// gives one of the refusals 1 to 7 and leaves the room as it was.
pub fn plain_image(word: &[u8], room: &mut [u8]) -> Result<usize, Refusal> {
    let plain = plain::plain_tree(&word::read(word)?);
    deliver(&image::image(plain.as_ref()), room)
}

/// Writes the minimal image of a word into the room and returns its length,
/// or gives one of the refusals 1 to 7 and leaves the room as it was.
pub fn minimal_image(word: &[u8], room: &mut [u8]) -> Result<usize, Refusal> {
    let minimal = minimal_in_image_order(&word::read(word)?);
    deliver(&image::image(minimal.as_ref()), room)
}

/// Writes the normal form of a word into the room and returns its length, or
/// gives one of the refusals 1 to 7 and leaves the room as it was.
pub fn normal_form(word: &[u8], room: &mut [u8]) -> Result<usize, Refusal> {
    let minimal = minimal_in_image_order(&word::read(word)?);
    deliver(&normal::normal_form(minimal.as_ref()), room)
}

/// Tells whether a word selects the pair (m,n) on the document of a table and
/// leaves the match table in the workspace's first 32,768 bytes; or gives one
/// of the refusals 1 to 6 and 8 to 10 and leaves the workspace as it was.
pub fn selects(
    word: &[u8],
    parents: &[u32],
    labels: &[u32],
    m: u64,
    n: u64,
    workspace: &mut [u8],
) -> Result<bool, Refusal> {
    let signs = word::read(word)?;
    let document = Document::read(parents, labels)?;
    let (m, n) = (document.node(m)?, document.node(n)?);
    let table = workspace
        .get_mut(..MATCH_TABLE_BYTES)
        .ok_or(Reason::WorkspaceTooShort.at(MATCH_TABLE_BYTES))?;
    let minimal = minimal_in_image_order(&signs);
    matching::write_match_table(minimal.as_ref(), &document, table);
    Ok(relation::evaluate(&signs, &document).holds(m, n))
}

fn minimal_in_image_order(signs: &[Sign]) -> Option<Tree> {
    let plain = plain::plain_tree(signs)?;
    Some(image::in_image_order(&minimal::minimal_tree(&plain)))
}

fn deliver(answer: &[u8], room: &mut [u8]) -> Result<usize, Refusal> {
    room.get_mut(..answer.len())
        .ok_or(Reason::RoomTooShort.at(answer.len()))?
        .copy_from_slice(answer);
    Ok(answer.len())
}
