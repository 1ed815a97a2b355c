//! Calls the library and the second implementation with the same inputs and
//! equal buffers and compares what they return and leave.

use crate::buffer::Buffer;
use crate::counts::Counts;
use crate::difference::{Difference, Outcome};
use crate::generator::Generator;
use crate::library::{self, Library, Writer};
use crate::question::{question, Question};
use crate::returned::{is_refused, value};
use crate::stand_in;
use crate::tables::MOST_ROWS;
use reference::LONGEST_NORMAL_FORM;

type Expected = fn(&[u8], &mut [u8]) -> u64;

/// Words so long get two rooms instead of all: the second implementation
/// works each answer out anew.
const LONG_WORD: usize = 64;

/// Rows times bytes of the word: the second implementation works on whole
/// relations, and dense ones on large tables take it very long.
const WORK: usize = 12_000;

/// One word in the comparison.
pub struct Check<'a> {
    pub library: &'a Library,
    pub index: u64,
    pub kind: &'static str,
    pub word: &'a [u8],
    pub generator: &'a mut Generator,
    pub counts: &'a mut Counts,
}

impl Check<'_> {
    /// All calls about the word.
    pub fn all(&mut self) -> Result<(), Box<Difference>> {
        self.counts.word(self.kind);
        let library = *self.library;
        self.writer("plain_image", library.plain_image, stand_in::plain_image)?;
        self.writer(
            "minimal_image",
            library.minimal_image,
            stand_in::minimal_image,
        )?;
        self.writer("normal_form", library.normal_form, stand_in::normal_form)?;
        let questions = if self.word.len() < LONG_WORD { 3 } else { 1 };
        for _ in 0..questions {
            self.question()?;
        }
        Ok(())
    }

    fn writer(
        &mut self,
        call: &'static str,
        writer: Writer,
        expected: Expected,
    ) -> Result<(), Box<Difference>> {
        let returned = expected(self.word, &mut [0; LONGEST_NORMAL_FORM]);
        for length in self.room_lengths(returned) {
            let buffer = Buffer::patterned(length, self.generator);
            let mut expected_buffer = buffer.clone();
            let expected = Outcome {
                returned: expected(self.word, expected_buffer.lend()),
                buffer: expected_buffer,
            };
            self.counts.written(expected.returned);
            let mut found_buffer = buffer;
            let lent = self.word.to_vec();
            let found = Outcome {
                returned: library::write(writer, &lent, found_buffer.lend()),
                buffer: found_buffer,
            };
            let inputs_changed = lent != self.word;
            self.compare(call, None, (expected, found), inputs_changed)?;
        }
        Ok(())
    }

    /// Around the answer's length; for a refused word, some.
    fn room_lengths(&mut self, returned: u64) -> Vec<usize> {
        if is_refused(returned) {
            return vec![self.generator.pick(&[0, 1, 40, LONGEST_NORMAL_FORM])];
        }
        let answer = value(returned);
        let larger = answer + 2 + self.generator.size(LONGEST_NORMAL_FORM);
        let shorter = self.generator.below(answer);
        let all = vec![answer, answer - 1, answer + 1, larger, shorter, 0];
        match self.word.len() {
            LONG_WORD.. => vec![
                self.generator.pick(&[answer, larger]),
                self.generator.pick(&all),
            ],
            _ => all,
        }
    }

    fn most_rows(&mut self) -> usize {
        match self.word.len() {
            ..100 if self.generator.one_in(60) => MOST_ROWS,
            length => (WORK / (length + 1)).clamp(4, MOST_ROWS),
        }
    }

    fn question(&mut self) -> Result<(), Box<Difference>> {
        let most_rows = self.most_rows();
        let question = question(self.generator, self.word, most_rows);
        self.counts.table(question.kind);
        let pair = (question.m, question.n);
        let buffer = Buffer::patterned(question.workspace, self.generator);
        let (parents, labels) = (&question.table.parents, &question.table.labels);
        let mut expected_buffer = buffer.clone();
        let workspace = expected_buffer.lend();
        let expected = Outcome {
            returned: stand_in::selects(self.word, (parents, labels), pair, workspace),
            buffer: expected_buffer,
        };
        self.counts.selected(expected.returned);
        let mut found_buffer = buffer;
        let workspace = found_buffer.lend();
        let lent = (self.word.to_vec(), parents.clone(), labels.clone());
        let selects = self.library.selects;
        let found = Outcome {
            returned: library::select(selects, &lent.0, (&lent.1, &lent.2), pair, workspace),
            buffer: found_buffer,
        };
        let inputs_changed = lent.0 != self.word || lent.1 != *parents || lent.2 != *labels;
        self.compare("selects", Some(question), (expected, found), inputs_changed)
    }

    fn compare(
        &self,
        call: &'static str,
        question: Option<Question>,
        (expected, found): (Outcome, Outcome),
        inputs_changed: bool,
    ) -> Result<(), Box<Difference>> {
        if expected == found && !inputs_changed {
            return Ok(());
        }
        Err(Box::new(Difference {
            index: self.index,
            kind: self.kind,
            call,
            word: self.word.to_vec(),
            question,
            expected,
            found,
            inputs_changed,
        }))
    }
}
