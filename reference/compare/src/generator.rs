//! A small seeded generator (splitmix64). Every word has a generator of its
//! own, so that any one of them can be made again alone.

const STEP: u64 = 0x9e37_79b9_7f4a_7c15;

/// Labels next to the borders of seven-bit groups, as label code L+1 and as
/// sign L+9, and the ends of the range.
const BORDER_LABELS: [u32; 24] = [
    0, 1, 2, 117, 118, 119, 126, 127, 128, 129, 254, 255, 256, 257, 16_374, 16_375, 16_376, 16_382,
    16_383, 16_384, 32_767, 32_768, 65_534, 65_535,
];
pub const LABELS: usize = 65_536;

pub struct Generator {
    state: u64,
    /// How often each kind of word has had its turn before.
    pub turn: usize,
}

impl Generator {
    /// The generator of the word with this index.
    pub fn of(seed: u64, index: u64, turn: usize) -> Generator {
        let mut own = Generator { state: seed, turn };
        own.state = own.next() ^ index.wrapping_mul(STEP).rotate_left(17);
        own
    }

    pub fn next(&mut self) -> u64 {
        self.state = self.state.wrapping_add(STEP);
        let mut mixed = self.state;
        mixed = (mixed ^ mixed >> 30).wrapping_mul(0xbf58_476d_1ce4_e5b9);
        mixed = (mixed ^ mixed >> 27).wrapping_mul(0x94d0_49bb_1331_11eb);
        mixed ^ mixed >> 31
    }

    pub fn below(&mut self, bound: usize) -> usize {
        (((self.next() >> 32) * bound as u64) >> 32) as usize
    }

    pub fn one_in(&mut self, times: usize) -> bool {
        self.below(times) == 0
    }

    pub fn pick<T: Copy>(&mut self, from: &[T]) -> T {
        from[self.below(from.len())]
    }

    /// 1 to `most`, small ones far more often: the second implementation is
    /// slow on large ones, and most errors show on small ones.
    pub fn size(&mut self, most: usize) -> usize {
        let halvings = self.below(most.ilog2() as usize + 1);
        1 + self.below(most >> halvings)
    }

    pub fn any_label(&mut self) -> u32 {
        match self.below(4) {
            0 => self.below(LABELS) as u32,
            1 => self.below(4) as u32,
            _ => self.pick(&BORDER_LABELS),
        }
    }

    /// The labels of one word: few, so that they often meet each other.
    pub fn labels(&mut self) -> Vec<u32> {
        let most = self.pick(&[1, 2, 4, 24]);
        let count = self.size(most);
        (0..count).map(|_| self.any_label()).collect()
    }
}
