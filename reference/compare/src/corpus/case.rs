//! One case of the corpus: how it is worked out, written and read.

use super::reader::Reader;
use super::{checksum, FILL, MOST_ROWS, ROOM_BUFFER, WORKSPACE_BUFFER};
use crate::library::{select, write, Library};
use crate::returned::{is_refused, value};

/// A word with the outcomes of all calls about it.
#[derive(Debug, PartialEq, Eq)]
pub struct Case {
    pub word: Vec<u8>,
    /// Plain image, minimal image, normal form.
    pub written: [Written; 3],
    pub asked: Vec<Asked>,
}

#[derive(Clone, Debug, PartialEq, Eq)]
pub struct Written {
    pub room: usize,
    pub result: u64,
    pub answer: Vec<u8>,
    /// Whether all other bytes of the buffer kept their values. Not in the
    /// file, where it is always so.
    pub rest_kept: bool,
}

#[derive(Clone, Debug, PartialEq, Eq)]
pub struct Asked {
    pub parents: Vec<u32>,
    pub labels: Vec<u32>,
    pub m: u64,
    pub n: u64,
    pub workspace: usize,
    pub result: u64,
    pub checksum: u32,
}

impl Case {
    /// The same calls, with the outcomes that a library gives.
    pub fn by(&self, library: &Library) -> Case {
        let writers = [
            library.plain_image,
            library.minimal_image,
            library.normal_form,
        ];
        let written = [0, 1, 2].map(|which| {
            let room = self.written[which].room;
            let mut buffer = [FILL; ROOM_BUFFER];
            let result = write(writers[which], &self.word, &mut buffer[..room]);
            let (answer, rest) = buffer.split_at(answer_length(result).min(ROOM_BUFFER));
            Written {
                room,
                result,
                answer: answer.to_vec(),
                rest_kept: rest.iter().all(|&byte| byte == FILL),
            }
        });
        Case {
            word: self.word.clone(),
            written,
            asked: self
                .asked
                .iter()
                .map(|asked| asked.by(library, &self.word))
                .collect(),
        }
    }

    pub fn encoded(&self) -> Vec<u8> {
        let mut bytes = Vec::new();
        number(self.word.len(), &mut bytes);
        bytes.extend(&self.word);
        for written in &self.written {
            number(written.room, &mut bytes);
            bytes.extend(written.result.to_le_bytes());
            bytes.extend(&written.answer);
        }
        number(self.asked.len(), &mut bytes);
        for asked in &self.asked {
            asked.encode(&mut bytes);
        }
        bytes
    }

    pub fn decoded(reader: &mut Reader) -> Result<Case, String> {
        let word = reader.list()?.to_vec();
        let written = [
            Written::decoded(reader)?,
            Written::decoded(reader)?,
            Written::decoded(reader)?,
        ];
        let questions = reader.number()?;
        let asked = (0..questions)
            .map(|_| Asked::decoded(reader))
            .collect::<Result<_, _>>()?;
        Ok(Case {
            word,
            written,
            asked,
        })
    }
}

impl Written {
    fn decoded(reader: &mut Reader) -> Result<Written, String> {
        let room = reader.length(ROOM_BUFFER)?;
        let result = reader.long_number()?;
        Ok(Written {
            room,
            result,
            answer: reader.bytes(answer_length(result))?.to_vec(),
            rest_kept: true,
        })
    }
}

impl Asked {
    fn by(&self, library: &Library, word: &[u8]) -> Asked {
        let mut buffer = [FILL; WORKSPACE_BUFFER];
        let table = (self.parents.as_slice(), self.labels.as_slice());
        let workspace = &mut buffer[..self.workspace];
        let result = select(library.selects, word, table, (self.m, self.n), workspace);
        Asked {
            result,
            checksum: checksum(&buffer),
            ..self.clone()
        }
    }

    fn encode(&self, bytes: &mut Vec<u8>) {
        for list in [&self.parents, &self.labels] {
            number(list.len(), bytes);
            bytes.extend(list.iter().flat_map(|entry| entry.to_le_bytes()));
        }
        bytes.extend(self.m.to_le_bytes());
        bytes.extend(self.n.to_le_bytes());
        number(self.workspace, bytes);
        bytes.extend(self.result.to_le_bytes());
        bytes.extend(self.checksum.to_le_bytes());
    }

    fn decoded(reader: &mut Reader) -> Result<Asked, String> {
        Ok(Asked {
            parents: reader.numbers(MOST_ROWS)?,
            labels: reader.numbers(MOST_ROWS)?,
            m: reader.long_number()?,
            n: reader.long_number()?,
            workspace: reader.length(WORKSPACE_BUFFER)?,
            result: reader.long_number()?,
            checksum: reader.number()?,
        })
    }
}

/// The bytes that a writer wrote.
fn answer_length(result: u64) -> usize {
    match is_refused(result) {
        true => 0,
        false => value(result),
    }
}

/// Appends a length as a u32.
pub fn number(length: usize, bytes: &mut Vec<u8>) {
    bytes.extend((length as u32).to_le_bytes());
}
