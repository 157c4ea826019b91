//! Bits in bytes: bit A0 of a byte is its lowest and comes first.

/// The bits of the bytes, in the order in which they are sent.
pub fn bits_of(bytes: &[u8]) -> Vec<bool> {
    bytes
        .iter()
        .flat_map(|byte| (0..8).map(move |place| byte >> place & 1 == 1))
        .collect()
}

/// The bytes that the bits fill; spare bits of the last byte are 0.
pub fn bytes_of(bits: &[bool]) -> Vec<u8> {
    let byte = |eight: &[bool]| {
        eight
            .iter()
            .rev()
            .fold(0, |byte, &bit| byte << 1 | u8::from(bit))
    };
    bits.chunks(8).map(byte).collect()
}

/// Bit `at` of the bytes.
pub fn bit_at(bytes: &[u8], at: u64) -> bool {
    bytes[(at / 8) as usize] >> (at % 8) & 1 == 1
}
