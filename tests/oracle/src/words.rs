//! Replay lists as bytes: little-endian words of 64 bits, one after the other.

/// The bytes of a list of words.
pub fn to_bytes(words: &[u64]) -> Vec<u8> {
    words.iter().flat_map(|word| word.to_le_bytes()).collect()
}

/// The words of a list; zero bytes fill up the last one.
pub fn from_bytes(bytes: &[u8]) -> Vec<u64> {
    bytes.chunks(8).map(padded_word).collect()
}

/// Up to eight bytes as a word, filled up with zeros.
fn padded_word(bytes: &[u8]) -> u64 {
    let mut whole = [0; 8];
    whole[..bytes.len()].copy_from_slice(bytes);
    u64::from_le_bytes(whole)
}

#[cfg(test)]
mod tests {
    use super::*;

    #[test]
    fn words_and_bytes() {
        assert_eq!(to_bytes(&[0x0102, 3])[..3], [2, 1, 0]);
        assert_eq!(from_bytes(&to_bytes(&[7, u64::MAX])), [7, u64::MAX]);
        assert_eq!(from_bytes(&[1, 0, 0, 0, 0, 0, 0, 0, 5, 6]), [1, 0x0605]);
    }
}
