//! The corpus: a file of cases with their expected outcomes, for a program
//! that has no second implementation at hand. All numbers are little-endian,
//! every list comes after its length, and each case after its own, so that a
//! reader needs no memory but the buffers below.
//!
//! - The file: the eight bytes `GULPHCO1`, u32 number of cases, u32 length of
//!   the longest case, the cases.
//! - A case: u32 length of what follows; the word; the outcomes of plain image,
//!   minimal image and normal form; u32 number of questions, the questions.
//! - The word: u32 length, so many bytes.
//! - Each of the three outcomes: u32 room length, u64 result, and the answer's
//!   bytes if it is no refusal.
//! - A question: parents; labels; u64 m, u64 n, u32 workspace length, u64
//!   result, u32 checksum.
//! - Parents, labels: u32 length, so many u32.
//!
//! A result is the C call's: in its low u32 (written first) the place, or the
//! length of the answer, or 1 for yes and 0 for no; in its high u32 the
//! refusal number, 0 if answered.
//!
//! A room is lent from a buffer of [`ROOM_BUFFER`] bytes, a workspace from one
//! of [`WORKSPACE_BUFFER`], from the first byte on and in the length that the
//! case tells. Before each call all of the buffer is [`FILL`]. After it the
//! room's buffer holds the answer, if there is one, and [`FILL`] in all other
//! bytes. The checksum is FNV-1a of 32 bits over all bytes of the workspace's
//! buffer.
//!
//! No case is longer than [`LONGEST_CASE`], no list longer than [`MOST_ROWS`].

mod case;
mod check;
mod make;
mod reader;
mod told;

pub use check::check;
pub use make::make;

/// The first bytes of the file.
pub const BEGIN: &[u8; 8] = b"GULPHCO1";
/// What buffers are filled with before a call.
pub const FILL: u8 = 0xa5;
/// Bytes of the buffer that rooms are lent from.
pub const ROOM_BUFFER: usize = 2_064;
/// Bytes of the buffer that workspaces are lent from.
pub const WORKSPACE_BUFFER: usize = 32_784;
/// The most bytes of a case, without its own length.
pub const LONGEST_CASE: usize = 16_384;
/// The most entries of a list of parents or labels.
pub const MOST_ROWS: usize = 1_026;

/// FNV-1a of 32 bits.
pub fn checksum(bytes: &[u8]) -> u32 {
    const OFFSET: u32 = 0x811c_9dc5;
    const PRIME: u32 = 0x0100_0193;
    let mixed = |sum: u32, &byte: &u8| (sum ^ u32::from(byte)).wrapping_mul(PRIME);
    bytes.iter().fold(OFFSET, mixed)
}

#[cfg(test)]
mod tests {
    use super::checksum;

    #[test]
    fn the_checksum_is_fnv_1a() {
        assert_eq!(checksum(b""), 0x811c_9dc5);
        assert_eq!(checksum(b"a"), 0xe40c_292c);
        assert_eq!(checksum(b"foobar"), 0xbf9c_f968);
    }
}
