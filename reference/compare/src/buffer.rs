//! Buffers to be lent: filled with a pattern, and guarded on both sides, so
//! that a byte written outside of them is seen as well.

use crate::generator::Generator;
use std::ops::Range;

const GUARD: usize = 64;

#[derive(Clone, PartialEq, Eq)]
pub struct Buffer {
    bytes: Vec<u8>,
}

impl Buffer {
    /// A buffer to be lent with so many bytes. Mostly random; all bits clear
    /// or all set now and then, which shows a missed write best.
    pub fn patterned(length: usize, generator: &mut Generator) -> Buffer {
        let bytes = length + 2 * GUARD;
        let fill = match generator.below(8) {
            0 => Some(0x00),
            1 => Some(0xff),
            _ => None,
        };
        let random = || generator.next().to_le_bytes();
        let chunks = std::iter::repeat_with(random).take(bytes.div_ceil(8));
        let mut bytes: Vec<u8> = match fill {
            Some(byte) => vec![byte; bytes],
            None => chunks.flatten().collect(),
        };
        bytes.truncate(length + 2 * GUARD);
        Buffer { bytes }
    }

    fn lent(&self) -> Range<usize> {
        GUARD..self.bytes.len() - GUARD
    }

    /// The part that is lent.
    pub fn lend(&mut self) -> &mut [u8] {
        let lent = self.lent();
        &mut self.bytes[lent]
    }

    pub fn as_lent(&self) -> &[u8] {
        &self.bytes[self.lent()]
    }

    /// Where two buffers of one length differ, counted from the first lent
    /// byte, and what stands there in each.
    pub fn differences<'a>(
        &'a self,
        other: &'a Buffer,
    ) -> impl Iterator<Item = (isize, u8, u8)> + 'a {
        let pairs = self.bytes.iter().zip(&other.bytes).enumerate();
        pairs
            .filter(|(_, (one, other))| one != other)
            .map(|(place, (&one, &other))| (place as isize - GUARD as isize, one, other))
    }
}
