//! The library's C signatures, and calls through them that are safe here.

use std::ptr::{null, null_mut};
use std::slice::{from_raw_parts, from_raw_parts_mut};

/// Writes an answer about a word into a room.
pub type Writer =
    unsafe extern "C" fn(word: *const u8, word_len: usize, room: *mut u8, room_len: usize) -> u64;

/// Answers the pair question and leaves the match table in the workspace.
pub type Selects = unsafe extern "C" fn(
    word: *const u8,
    word_len: usize,
    parents: *const u32,
    parents_len: usize,
    labels: *const u32,
    labels_len: usize,
    m: u64,
    n: u64,
    workspace: *mut u8,
    workspace_len: usize,
) -> u64;

/// A library: the archive, or something standing in for it.
#[derive(Clone, Copy)]
pub struct Library {
    /// Its name in the counts.
    pub name: &'static str,
    /// The plain image.
    pub plain_image: Writer,
    /// The minimal image.
    pub minimal_image: Writer,
    /// The normal form.
    pub normal_form: Writer,
    /// The pair question.
    pub selects: Selects,
}

/// The pointer that C has to a list: none if it is empty, as callers in C have
/// it, which the length 0 allows.
fn pointer<T>(list: &[T]) -> *const T {
    match list {
        [] => null(),
        _ => list.as_ptr(),
    }
}

fn pointer_mut<T>(list: &mut [T]) -> *mut T {
    match list {
        [] => null_mut(),
        _ => list.as_mut_ptr(),
    }
}

/// Calls a writer with lent slices.
pub fn write(writer: Writer, word: &[u8], room: &mut [u8]) -> u64 {
    // SAFETY: the pointers are those of slices, handed in with their lengths.
    unsafe { writer(pointer(word), word.len(), pointer_mut(room), room.len()) }
}

/// Calls the pair question with lent slices.
pub fn select(
    selects: Selects,
    word: &[u8],
    (parents, labels): (&[u32], &[u32]),
    (m, n): (u64, u64),
    workspace: &mut [u8],
) -> u64 {
    // SAFETY: the pointers are those of slices, handed in with their lengths.
    unsafe {
        selects(
            pointer(word),
            word.len(),
            pointer(parents),
            parents.len(),
            pointer(labels),
            labels.len(),
            m,
            n,
            pointer_mut(workspace),
            workspace.len(),
        )
    }
}

/// The list behind a pointer from C.
///
/// # Safety
/// The pointer leads to so many entries that stay as they are for as long as
/// the list is used; with the length 0 it may be anything.
pub unsafe fn list<'a, T>(pointer: *const T, length: usize) -> &'a [T] {
    match length {
        0 => &[],
        _ => from_raw_parts(pointer, length),
    }
}

/// The list to be written to behind a pointer from C.
///
/// # Safety
/// As for [`list`], and nothing else leads to the entries.
pub unsafe fn list_mut<'a, T>(pointer: *mut T, length: usize) -> &'a mut [T] {
    match length {
        0 => &mut [],
        _ => from_raw_parts_mut(pointer, length),
    }
}
