//! Reads a corpus and asks a library for every outcome in it again.

use super::case::Case;
use super::reader::Reader;
use super::{BEGIN, LONGEST_CASE};
use crate::counts::Counts;
use crate::library::Library;

/// Counts the cases and outcomes of a corpus, or tells the first thing in it
/// that is not as it should be.
pub fn check(library: &Library, corpus: &[u8]) -> Result<Counts, String> {
    let mut reader = Reader::new(corpus);
    if reader.bytes(BEGIN.len())? != BEGIN {
        return Err("not a corpus".to_string());
    }
    let cases = reader.number()?;
    let longest = reader.length(LONGEST_CASE)?;
    let mut counts = Counts::default();
    for index in 0..cases {
        let at_case = |wrong| format!("case {index}: {wrong}");
        let length = reader.length(longest).map_err(at_case)?;
        let bytes = reader.bytes(length).map_err(at_case)?;
        let case = read(bytes).map_err(at_case)?;
        let found = case.by(library);
        if found != case {
            return Err(format!(
                "case {index}: expected {case:x?}, found {found:x?}"
            ));
        }
        count(&case, &mut counts);
    }
    match reader.is_at_end() {
        true => Ok(counts),
        false => Err("bytes behind the last case".to_string()),
    }
}

fn read(bytes: &[u8]) -> Result<Case, String> {
    let mut reader = Reader::new(bytes);
    let case = Case::decoded(&mut reader)?;
    match reader.is_at_end() {
        true => Ok(case),
        false => Err("is shorter than its length".to_string()),
    }
}

fn count(case: &Case, counts: &mut Counts) {
    counts.word("corpus");
    for written in &case.written {
        counts.written(written.result);
    }
    for asked in &case.asked {
        counts.table("corpus");
        counts.selected(asked.result);
    }
}
