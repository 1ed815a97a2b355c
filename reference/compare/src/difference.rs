//! What is printed where the library and the second implementation differ.

use crate::buffer::Buffer;
use crate::question::Question;
use crate::returned::{is_refused, refusal, value};
use std::fmt::{self, Display, Formatter};

const MOST_BYTES_SHOWN: usize = 32;

/// One call with its inputs and both outcomes.
pub struct Difference {
    /// The word's index under the seed.
    pub index: u64,
    /// The word's kind.
    pub kind: &'static str,
    /// The function called.
    pub call: &'static str,
    pub(crate) word: Vec<u8>,
    pub(crate) question: Option<Question>,
    pub(crate) expected: Outcome,
    pub(crate) found: Outcome,
    pub(crate) inputs_changed: bool,
}

/// What a call returned, and the buffer lent to it as it was left.
#[derive(PartialEq, Eq)]
pub(crate) struct Outcome {
    pub returned: u64,
    pub buffer: Buffer,
}

impl Outcome {
    /// The refusal, or the answer's bytes in hex if it was a writer's.
    fn described(&self, is_writer: bool) -> String {
        let value = value(self.returned);
        if is_refused(self.returned) {
            return format!("refused {} {value}", refusal(self.returned));
        }
        match self.buffer.as_lent().get(..value) {
            Some(answer) if is_writer => format!("{value} bytes: {}", hex(answer)),
            _ => format!("answer {value}"),
        }
    }
}

pub(crate) fn hex(bytes: &[u8]) -> String {
    bytes.iter().map(|byte| format!("{byte:02x}")).collect()
}

fn hex_list(numbers: &[u32]) -> String {
    let numbers: Vec<String> = numbers.iter().map(|number| format!("{number:x}")).collect();
    numbers.join(" ")
}

impl Display for Difference {
    fn fmt(&self, f: &mut Formatter) -> fmt::Result {
        let Difference {
            call, kind, index, ..
        } = self;
        writeln!(f, "difference in {call}, word {index} ({kind})")?;
        writeln!(f, "word     {}", hex(&self.word))?;
        if let Some(question) = &self.question {
            writeln!(f, "parents  {}", hex_list(&question.table.parents))?;
            writeln!(f, "labels   {}", hex_list(&question.table.labels))?;
            writeln!(f, "pair     {:x} {:x}", question.m, question.n)?;
        }
        let is_writer = self.question.is_none();
        writeln!(f, "lent     {} bytes", self.expected.buffer.as_lent().len())?;
        writeln!(f, "expected {}", self.expected.described(is_writer))?;
        writeln!(f, "found    {}", self.found.described(is_writer))?;
        if self.inputs_changed {
            writeln!(f, "the word or the table was written to")?;
        }
        self.fmt_bytes(f)
    }
}

impl Difference {
    /// The first bytes that differ, each with its place in the lent buffer; a
    /// place outside of it is a guard byte's.
    fn fmt_bytes(&self, f: &mut Formatter) -> fmt::Result {
        let buffers = (&self.expected.buffer, &self.found.buffer);
        let differing = buffers.0.differences(buffers.1);
        for (place, expected, found) in differing.take(MOST_BYTES_SHOWN) {
            writeln!(
                f,
                "byte {place}: expected {expected:02x}, found {found:02x}"
            )?;
        }
        let count = buffers.0.differences(buffers.1).count();
        writeln!(f, "{count} bytes differ in the lent buffer and its guards")
    }
}
