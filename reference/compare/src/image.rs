//! Images read back, so that a document can be made of a word's minimal tree.

use crate::signs::{read_number, write_number};

/// A node of an image, in image order.
#[derive(Clone, Copy, Debug)]
pub struct Record {
    /// 0 for a wildcard, else L+1.
    pub label_code: u32,
    /// 0 none, 1 s, 2 d, 3 both.
    pub mark: u32,
    /// How many children it has.
    pub children: u32,
    /// The parent's number; 0 for the top.
    pub parent: usize,
}

/// The records of an image; none for empty.
pub fn read(image: &[u8]) -> Vec<Record> {
    let (nodes, mut place) = read_number(image, 0);
    let mut next = || {
        let (number, after) = read_number(image, place);
        place = after;
        number
    };
    let mut records: Vec<Record> = Vec::new();
    // The nodes that still lack children, each with how many.
    let mut open: Vec<(usize, u32)> = Vec::new();
    for node in 0..nodes as usize {
        while open.last().is_some_and(|&(_, lacking)| lacking == 0) {
            open.pop();
        }
        let parent = open.last_mut().map_or(0, |(parent, lacking)| {
            *lacking -= 1;
            *parent
        });
        let record = Record {
            label_code: next(),
            mark: next(),
            children: next(),
            parent,
        };
        open.push((node, record.children));
        records.push(record);
    }
    records
}

/// The image of such records.
pub fn write(records: &[Record]) -> Vec<u8> {
    let mut image = Vec::new();
    write_number(records.len() as u32, &mut image);
    for record in records {
        write_number(record.label_code, &mut image);
        write_number(record.mark, &mut image);
        write_number(record.children, &mut image);
    }
    image
}

/// The records of a word's minimal image; none if it is empty or refused.
pub fn minimal_records(word: &[u8]) -> Vec<Record> {
    let mut room = [0; reference::LONGEST_IMAGE];
    match reference::minimal_image(word, &mut room) {
        Ok(length) => read(&room[..length]),
        Err(_) => Vec::new(),
    }
}

/// The node that bears a mark (1 for s, 2 for d).
pub fn marked(records: &[Record], mark: u32) -> usize {
    let bears = |record: &Record| record.mark & mark != 0;
    records.iter().position(bears).unwrap_or(0)
}

#[cfg(test)]
mod tests {
    use super::*;

    #[test]
    fn an_image_is_read_and_written() {
        let word = [0x03, 0x0A, 0x04, 0x02, 0x04, 0x02, 0x05, 0x04, 0x02, 0x04];
        let records = minimal_records(&word);
        let mut room = [0; 40];
        let length = reference::minimal_image(&word, &mut room).unwrap();
        assert_eq!(write(&records), room[..length]);
        let parents: Vec<usize> = records.iter().map(|record| record.parent).collect();
        assert_eq!(parents, [0, 0, 1, 0]);
        assert_eq!((marked(&records, 1), marked(&records, 2)), (3, 2));
    }
}
