//! Runs of bits as lists of truth values.

/// Where bit `i` of a run lies: the byte, and the bit's number in that byte.
///
/// A word of bits is eight bytes with the heaviest first, so the lightest
/// eight bits of a word lie in its last byte.
pub fn place_of_bit(i: usize) -> (usize, usize) {
    (i / 64 * 8 + 7 - i % 64 / 8, i % 8)
}

/// The bytes of whole words that `bits` bits fill.
pub fn bytes_for_bits(bits: usize) -> usize {
    bits.div_ceil(64) * 8
}

/// Writes a run into whole words, with spare bits 0.
pub fn run_to_bytes(run: &[bool]) -> Vec<u8> {
    let mut bytes = Vec::with_capacity(bytes_for_bits(run.len()));
    for word in run.chunks(64) {
        let lightest_last = word.iter().rev();
        let number = lightest_last.fold(0, |number, bit| number * 2 + u64::from(*bit));
        bytes.extend(number.to_be_bytes());
    }
    bytes
}

/// Reads every bit of whole words, the spare ones too.
pub fn bytes_to_run(bytes: &[u8]) -> Vec<bool> {
    let mut run = Vec::with_capacity(bytes.len() * 8);
    for word in bytes.chunks(8) {
        for byte in word.iter().rev() {
            run.extend((0..8).map(|bit| byte >> bit & 1 == 1));
        }
    }
    run
}

/// The number that some bits of a run spell, the lightest first.
pub fn number_of_bits(bits: &[bool]) -> u32 {
    bits.iter()
        .rev()
        .fold(0, |number, bit| number * 2 + u32::from(*bit))
}
