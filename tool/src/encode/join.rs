//! The bits of blocks joined bit by bit.

/// The bits that do not fill a byte yet, from its lowest place on, and how many they are.
#[derive(Default)]
pub struct Join {
    held: u16,
    count: u64,
}

impl Join {
    /// The bytes that are full when the `n` bits of a block stand behind those held. The spare bits of the block's last byte are 0.
    pub fn put(&mut self, block: &[u8], n: u64) -> Vec<u8> {
        let mut joined = Vec::with_capacity(block.len());
        let mut left = n;
        for byte in block {
            self.held |= u16::from(*byte) << self.count;
            self.count += left.min(8);
            left -= left.min(8);
            if self.count >= 8 {
                joined.push(self.held.to_le_bytes()[0]);
                self.held >>= 8;
                self.count -= 8;
            }
        }
        joined
    }

    /// The byte of the bits still held, its spare bits 0; none where no bit is held.
    pub fn end(self) -> Option<u8> {
        (self.count > 0).then(|| self.held.to_le_bytes()[0])
    }
}

#[cfg(test)]
mod tests {
    use super::*;

    #[test]
    fn bits_follow_each_other() {
        let mut join = Join::default();
        assert_eq!(join.put(&[0b1010_0101, 0b011], 11), [0b1010_0101]);
        assert_eq!(join.put(&[0b0000_0001], 1), [0; 0]);
        assert_eq!(join.put(&[0xF0, 0x0F], 12), [0b0000_1011, 0xFF]);
        assert_eq!(join.put(&[0x12, 0x34], 16), [0x12, 0x34]);
        assert_eq!(join.end(), None);
    }

    #[test]
    fn spare_bits_are_zeros() {
        let mut join = Join::default();
        assert_eq!(join.put(&[0xFF, 0b101], 11), [0xFF]);
        assert_eq!(join.end(), Some(0b101));
    }
}
