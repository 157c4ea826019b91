//! Numbers that look random, the same in every run (Xorshift).

pub struct Noise(u32);

impl Noise {
    pub fn new() -> Noise {
        Noise(2_463_534_242)
    }

    fn next(&mut self) -> u32 {
        self.0 ^= self.0 << 13;
        self.0 ^= self.0 >> 17;
        self.0 ^= self.0 << 5;
        self.0
    }

    /// A number below `end`.
    pub fn below(&mut self, end: usize) -> usize {
        self.next() as usize % end
    }

    /// Bytes of any values.
    pub fn bytes(&mut self, length: usize) -> Vec<u8> {
        (0..length).map(|_| (self.next() >> 11) as u8).collect()
    }

    /// Bytes as telemetry has them: small values, and any value in every fifth.
    pub fn telemetry(&mut self, length: usize) -> Vec<u8> {
        let bytes = self.bytes(length).into_iter().enumerate();
        bytes
            .map(|(place, byte)| if place % 5 == 0 { byte } else { byte >> 4 })
            .collect()
    }
}
