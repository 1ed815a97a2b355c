//! Counts of what was compared: a comparison that never sees a refusal checks
//! nothing, so each of them must have occurred.

use crate::returned::{is_refused, refusal};
use reference::Reason;
use std::collections::BTreeMap;
use std::fmt::{self, Display, Formatter};

/// How often each kind of input and each outcome occurred.
#[derive(Clone, Debug, Default, PartialEq, Eq)]
pub struct Counts {
    words: BTreeMap<&'static str, u64>,
    tables: BTreeMap<&'static str, u64>,
    calls: u64,
    written: u64,
    yes: u64,
    no: u64,
    /// By their numbers; those that occurred.
    refusals: BTreeMap<u32, u64>,
}

impl Counts {
    pub(crate) fn word(&mut self, kind: &'static str) {
        *self.words.entry(kind).or_default() += 1;
    }

    pub(crate) fn table(&mut self, kind: &'static str) {
        *self.tables.entry(kind).or_default() += 1;
    }

    pub(crate) fn written(&mut self, returned: u64) {
        self.returned(returned);
        self.written += u64::from(!is_refused(returned));
    }

    pub(crate) fn selected(&mut self, returned: u64) {
        self.returned(returned);
        self.yes += u64::from(returned == 1);
        self.no += u64::from(returned == 0);
    }

    fn returned(&mut self, returned: u64) {
        self.calls += 1;
        if is_refused(returned) {
            *self.refusals.entry(refusal(returned)).or_default() += 1;
        }
    }

    /// Every refusal of the table, how often it occurred.
    fn refusals(&self) -> impl Iterator<Item = (u32, u64)> + '_ {
        Reason::ALL.iter().map(|reason| {
            let number = reason.number();
            (number, self.refusals.get(&number).copied().unwrap_or(0))
        })
    }

    /// How many words there were, or cases of a corpus.
    pub fn words(&self) -> u64 {
        self.words.values().sum()
    }

    /// How many calls there were.
    pub fn calls(&self) -> u64 {
        self.calls
    }

    /// What has to occur in every comparison and didn't.
    pub fn missing(&self) -> Vec<String> {
        let answers = [
            (self.written, "an answer written"),
            (self.yes, "the answer yes"),
            (self.no, "the answer no"),
        ];
        let answers = answers.map(|(count, what)| (count, what.to_string()));
        let refusals = self
            .refusals()
            .map(|(number, count)| (count, format!("refusal {number}")));
        let all = answers.into_iter().chain(refusals);
        all.filter(|&(count, _)| count == 0)
            .map(|(_, what)| what)
            .collect()
    }
}

impl Display for Counts {
    fn fmt(&self, f: &mut Formatter) -> fmt::Result {
        let words = self.words();
        let Counts {
            calls,
            written,
            yes,
            no,
            ..
        } = self;
        write!(
            f,
            "{words} words, {calls} calls: written {written}, yes {yes}, no {no}"
        )?;
        for (number, count) in self.refusals() {
            write!(f, ", refusal {number} {count}")?;
        }
        for (title, kinds) in [("words", &self.words), ("tables", &self.tables)] {
            write!(f, "; {title}:")?;
            for (place, (kind, count)) in kinds.iter().enumerate() {
                let comma = if place == 0 { "" } else { "," };
                write!(f, "{comma} {kind} {count}")?;
            }
        }
        Ok(())
    }
}
