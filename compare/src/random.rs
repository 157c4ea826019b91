//! Numbers that look random and follow from a seed (SplitMix64).

pub struct Random(u64);

impl Random {
    pub fn new(seed: u64) -> Random {
        Random(seed)
    }

    pub fn next(&mut self) -> u64 {
        self.0 = self.0.wrapping_add(0x9E37_79B9_7F4A_7C15);
        let mut mixed = self.0;
        mixed = (mixed ^ mixed >> 30).wrapping_mul(0xBF58_476D_1CE4_E5B9);
        mixed = (mixed ^ mixed >> 27).wrapping_mul(0x94D0_49BB_1331_11EB);
        mixed ^ mixed >> 31
    }

    /// A number below `bound`.
    pub fn below(&mut self, bound: usize) -> usize {
        (self.next() % bound as u64) as usize
    }

    /// True once in `times`.
    pub fn once_in(&mut self, times: usize) -> bool {
        self.below(times) == 0
    }

    pub fn byte(&mut self) -> u8 {
        self.next() as u8
    }

    pub fn bytes(&mut self, length: usize) -> Vec<u8> {
        (0..length).map(|_| self.byte()).collect()
    }

    /// One of the items.
    pub fn pick<T: Copy>(&mut self, items: &[T]) -> T {
        items[self.below(items.len())]
    }

    /// Bits of which about `ones` in eight are ones.
    pub fn bits(&mut self, length: usize, ones: usize) -> Vec<bool> {
        (0..length).map(|_| self.below(8) < ones).collect()
    }

    /// A number for an argument that is in range up to `most`: mostly such a one, else one above, some of them far above or in range if
    /// the higher half were cut off.
    pub fn argument(&mut self, most: u64) -> u64 {
        let inside = self.below(most as usize + 1) as u64;
        match self.below(24) {
            0 => most + 1,
            1 => most + 1 + self.below(300) as u64,
            2 => (1 << 32) + inside,
            3 => self.pick(&[u64::MAX, u64::MAX - 7, 1 << 63, (1 << 32) - 1]),
            4 => most,
            _ => inside,
        }
    }
}
