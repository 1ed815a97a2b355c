//! Calls of the public functions that also watch the buffers.

use reference::{minimal_image, normal_form, plain_image, selects, Refusal, MATCH_TABLE_BYTES};

pub type Writer = fn(&[u8], &mut [u8]) -> Result<usize, Refusal>;

pub const WRITERS: [Writer; 3] = [plain_image, minimal_image, normal_form];

/// What no answer leaves behind unless it keeps the byte.
const UNTOUCHED: u8 = 0xA5;

/// What a writer writes into a room of this many bytes. The bytes behind the
/// answer, and on refusal all bytes, must keep their values.
pub fn written(writer: Writer, word: &[u8], room: usize) -> Result<Vec<u8>, Refusal> {
    let mut room = vec![UNTOUCHED; room];
    let answer = writer(word, &mut room);
    let kept = room.split_off(answer.unwrap_or(0));
    assert!(kept.iter().all(|&byte| byte == UNTOUCHED));
    answer.map(|_| room)
}

pub fn plain(word: &[u8]) -> Result<Vec<u8>, Refusal> {
    written(plain_image, word, 3_000)
}

pub fn minimal(word: &[u8]) -> Result<Vec<u8>, Refusal> {
    written(minimal_image, word, 3_000)
}

pub fn normal(word: &[u8]) -> Result<Vec<u8>, Refusal> {
    written(normal_form, word, 3_000)
}

/// A table, and the size of the workspace lent along with it.
pub struct Lent<'a> {
    pub parents: &'a [u32],
    pub labels: &'a [u32],
    pub workspace: usize,
}

impl Lent<'_> {
    /// The pair question's answer, with the match table. Bytes behind the
    /// match table, and on refusal all bytes, must keep their values.
    pub fn ask(&self, word: &[u8], m: u64, n: u64) -> Result<(bool, Vec<u8>), Refusal> {
        let mut workspace = vec![UNTOUCHED; self.workspace];
        let answer = selects(word, self.parents, self.labels, m, n, &mut workspace);
        let kept = workspace.split_off(answer.map_or(0, |_| MATCH_TABLE_BYTES));
        assert!(kept.iter().all(|&byte| byte == UNTOUCHED));
        answer.map(|selected| (selected, workspace))
    }
}

pub fn refused<Answer>(number: u32, place: u64) -> Result<Answer, Refusal> {
    Err(Refusal { number, place })
}

/// Bytes from hex; blanks may stand anywhere between bytes.
pub fn hex(text: &str) -> Vec<u8> {
    let bytes = text.split_whitespace();
    bytes
        .map(|byte| u8::from_str_radix(byte, 16).unwrap())
        .collect()
}

/// The first bytes, and then the others so many times.
pub fn repeated(first: &str, times: usize, others: &str) -> Vec<u8> {
    [hex(first), hex(others).repeat(times)].concat()
}
