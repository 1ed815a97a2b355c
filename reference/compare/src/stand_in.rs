//! The second implementation behind the C signatures. It stands in for the
//! archive while the comparison itself is tested.

use crate::library::Library;
use crate::returned::packed;

/// The second implementation's plain image, as a C call returns it.
pub fn plain_image(word: &[u8], room: &mut [u8]) -> u64 {
    packed(reference::plain_image(word, room).map(|length| length as u64))
}

/// The second implementation's minimal image, as a C call returns it.
pub fn minimal_image(word: &[u8], room: &mut [u8]) -> u64 {
    packed(reference::minimal_image(word, room).map(|length| length as u64))
}

/// The second implementation's normal form, as a C call returns it.
pub fn normal_form(word: &[u8], room: &mut [u8]) -> u64 {
    packed(reference::normal_form(word, room).map(|length| length as u64))
}

/// The second implementation's pair question, as a C call returns it.
pub fn selects(
    word: &[u8],
    (parents, labels): (&[u32], &[u32]),
    (m, n): (u64, u64),
    workspace: &mut [u8],
) -> u64 {
    packed(reference::selects(word, parents, labels, m, n, workspace).map(u64::from))
}

/// Puts a writer over slices behind the C signature.
#[macro_export]
macro_rules! c_writer {
    ($writer:expr) => {{
        use $crate::library::{list, list_mut};
        unsafe extern "C" fn through(
            word: *const u8,
            word_len: usize,
            room: *mut u8,
            room_len: usize,
        ) -> u64 {
            let writer: fn(&[u8], &mut [u8]) -> u64 = $writer;
            writer(list(word, word_len), list_mut(room, room_len))
        }
        through
    }};
}

/// Puts a pair question over slices behind the C signature.
#[macro_export]
macro_rules! c_selects {
    ($selects:expr) => {{
        use $crate::library::{list, list_mut};
        unsafe extern "C" fn through(
            word: *const u8,
            word_len: usize,
            parents: *const u32,
            parents_len: usize,
            labels: *const u32,
            labels_len: usize,
            m: u64,
            n: u64,
            workspace: *mut u8,
            workspace_len: usize,
        ) -> u64 {
            let selects: fn(&[u8], (&[u32], &[u32]), (u64, u64), &mut [u8]) -> u64 = $selects;
            selects(
                list(word, word_len),
                (list(parents, parents_len), list(labels, labels_len)),
                (m, n),
                list_mut(workspace, workspace_len),
            )
        }
        through
    }};
}

/// The second implementation as a library.
pub const LIBRARY: Library = Library {
    name: "stand-in",
    plain_image: c_writer!(plain_image),
    minimal_image: c_writer!(minimal_image),
    normal_form: c_writer!(normal_form),
    selects: c_selects!(selects),
};
