//! Refusals: the table of refusal numbers, and the number and place that
//! every refusal returns. A new refusal is a row of the table here; whatever
//! counts or names refusals goes by the table.

/// What a refused call returns: the refusal's number and its place.
#[derive(Clone, Copy, Debug, PartialEq, Eq)]
pub struct Refusal {
    /// The number in the table of refusals.
    pub number: u32,
    /// The place that the table names for this number.
    pub place: u64,
}

/// Makes the table an enum and a list of all its rows.
macro_rules! table {
    ($($(#[$what:meta])* $name:ident = $number:literal,)*) => {
        /// The rows of the table of refusals: the names that the C header has,
        /// under their numbers.
        #[derive(Clone, Copy, Debug, PartialEq, Eq)]
        pub enum Reason {
            $($(#[$what])* $name = $number,)*
        }

        impl Reason {
            /// All rows, in the order of their numbers.
            pub const ALL: &'static [Reason] = &[$(Reason::$name),*];
        }
    };
}

table! {
    /// The word has more than 4,096 bytes.
    WordTooLong = 1,
    /// A number is cut off, not in its shortest writing, or too large.
    BadNumber = 2,
    /// An operator finds fewer pending operands than it takes.
    MissingOperand = 3,
    /// An operand would be the 257th pending one.
    TooManyPending = 4,
    /// A step is the 256th of the word.
    TooManySteps = 5,
    /// At the end of the word, not exactly one operand is pending.
    NotOneOperand = 6,
    /// The room is shorter than the answer.
    RoomTooShort = 7,
    /// The lists of parents and labels are not a document's.
    BadTable = 8,
    /// A node of the pair is not in the table.
    NoSuchNode = 9,
    /// The workspace is shorter than the match table.
    WorkspaceTooShort = 10,
}

impl Reason {
    /// The number in the table of refusals.
    pub fn number(self) -> u32 {
        self as u32
    }

    /// The refusal for this reason at a place.
    pub fn at(self, place: usize) -> Refusal {
        Refusal {
            number: self.number(),
            place: place as u64,
        }
    }
}

#[cfg(test)]
mod tests {
    use super::*;
    use std::fs;

    /// What the header's section of refusals defines: a name and its number.
    fn header_refusals() -> Vec<(String, u32)> {
        let folder = env!("CARGO_MANIFEST_DIR");
        let header = fs::read_to_string(format!("{folder}/../include/pathplus.h")).unwrap();
        let (_, section) = header.split_once("4. REFUSALS").unwrap();
        let (section, _) = section.split_once("\n * 5. ").unwrap();
        section
            .lines()
            .filter_map(|line| line.strip_prefix("#define PATHPLUS_")?.split_once(' '))
            .map(|(name, number)| (name.to_string(), number.parse().unwrap()))
            .collect()
    }

    /// The name of a reason as the header writes it.
    fn in_capitals(reason: Reason) -> String {
        let mut name = String::new();
        for letter in format!("{reason:?}").chars() {
            if letter.is_uppercase() && !name.is_empty() {
                name.push('_');
            }
            name.extend(letter.to_uppercase());
        }
        name
    }

    #[test]
    fn names_and_numbers_are_the_headers() {
        let table: Vec<_> = Reason::ALL
            .iter()
            .map(|&reason| (in_capitals(reason), reason.number()))
            .collect();
        assert_eq!(table, header_refusals());
        assert!(table.is_sorted_by_key(|&(_, number)| number));
    }
}
