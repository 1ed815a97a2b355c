//! Compares every call of the archive with the second implementation.

use compare::library::Library;
use compare::program;
use std::process::ExitCode;

type Word = *const u8;
type List = *const u32;
type Lent = *mut u8;

#[link(name = "pathplus", kind = "static")]
#[rustfmt::skip]
extern "C" {
    fn pathplus_plain_image(word: Word, word_len: usize, room: Lent, room_len: usize) -> u64;
    fn pathplus_minimal_image(word: Word, word_len: usize, room: Lent, room_len: usize) -> u64;
    fn pathplus_normal_form(word: Word, word_len: usize, room: Lent, room_len: usize) -> u64;
    fn pathplus_selects(
        word: Word, word_len: usize,
        parents: List, parents_len: usize, labels: List, labels_len: usize,
        m: u64, n: u64, workspace: Lent, workspace_len: usize,
    ) -> u64;
}

/// The archive of the library under test.
const LIBRARY: Library = Library {
    name: "libpathplus.a",
    plain_image: pathplus_plain_image,
    minimal_image: pathplus_minimal_image,
    normal_form: pathplus_normal_form,
    selects: pathplus_selects,
};

fn main() -> ExitCode {
    program::main(&LIBRARY)
}
