//! Rooms too small by one, exact, zero and larger, filled with a pattern.

use super::random::Random;

/// A size of room for something that needs `needed` of it.
pub fn size(random: &mut Random, needed: usize) -> usize {
    match random.from_to(0, 11) {
        0 => 0,
        1 | 2 => needed.saturating_sub(1),
        3 => random.place(needed + 1),
        4..=7 => needed,
        8 => needed + 1,
        _ => needed + random.place(40),
    }
}

/// A room of bytes.
pub fn bytes(random: &mut Random, length: usize) -> Vec<u8> {
    match random.from_to(0, 3) {
        0 => vec![0; length],
        1 => vec![0xFF; length],
        2 => vec![0xA5; length],
        _ => random.bytes(length),
    }
}

/// A room of numbers.
pub fn numbers(random: &mut Random, length: usize) -> Vec<u32> {
    match random.from_to(0, 2) {
        0 => vec![0; length],
        1 => vec![u32::MAX; length],
        _ => (0..length).map(|_| random.bits() as u32).collect(),
    }
}
