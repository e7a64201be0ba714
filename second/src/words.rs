//! Little-endian words and numbers in byte files.

pub const WORD: usize = 4;
pub const QUADWORD: usize = 16;

/// Word `index` of the bytes, which must reach that far.
pub fn word(bytes: &[u8], index: usize) -> u32 {
    let at = index * WORD;
    u32::from_le_bytes(bytes[at..at + 4].try_into().unwrap())
}

/// The 64-bit number in words `index` and `index + 1`.
pub fn number(bytes: &[u8], index: usize) -> u64 {
    word(bytes, index) as u64 | (word(bytes, index + 1) as u64) << 32
}

/// All whole quadwords of the bytes, bit 0 lowest.
pub fn quadwords(bytes: &[u8]) -> Vec<u128> {
    bytes
        .chunks_exact(QUADWORD)
        .map(|chunk| u128::from_le_bytes(chunk.try_into().unwrap()))
        .collect()
}

pub fn put_word(out: &mut Vec<u8>, word: u32) {
    out.extend_from_slice(&word.to_le_bytes());
}

pub fn put_number(out: &mut Vec<u8>, number: u64) {
    out.extend_from_slice(&number.to_le_bytes());
}

pub fn put_quadword(out: &mut Vec<u8>, quadword: u128) {
    out.extend_from_slice(&quadword.to_le_bytes());
}
