//! A short number for many bytes, by which two machines can compare their answers.

/// FNV-1a of 64 bits.
pub fn fnv_1a(bytes: &[u8]) -> u64 {
    let with = |digest: u64, byte: &u8| (digest ^ u64::from(*byte)).wrapping_mul(0x100_0000_01B3);
    bytes.iter().fold(0xCBF2_9CE4_8422_2325, with)
}

#[cfg(test)]
mod tests {
    use super::*;

    /// Published with FNV-1a.
    #[test]
    fn the_published_digests() {
        assert_eq!(fnv_1a(b""), 0xCBF2_9CE4_8422_2325);
        assert_eq!(fnv_1a(b"a"), 0xAF63_DC4C_8601_EC8C);
        assert_eq!(fnv_1a(b"foobar"), 0x8594_4171_F739_67E8);
    }
}
