//! A plain reader of list blocks that the library accepted.

use std::fmt;

use crate::card::four_bytes;

/// The bytes of a list block before its pointers or numbers.
pub const HEADER: usize = 13;

/// Zeros of the upper run for each pointer, or bits of the bitmap for each of its numbers, and the bytes of one.
const BITS_A_NUMBER: u32 = 256;
const NUMBER: usize = 4;

/// Bits and bytes in a word of bits.
const WORD_BITS: usize = 64;
const WORD: usize = 8;

/// How a list block holds its elements.
#[derive(Clone, Copy, Debug, PartialEq, Eq)]
pub enum Form {
    /// A lower and an upper run.
    Runs,
    /// A bit for each number below U.
    Bitmap,
}

impl fmt::Display for Form {
    fn fmt(&self, f: &mut fmt::Formatter<'_>) -> fmt::Result {
        f.write_str(match self {
            Form::Runs => "runs",
            Form::Bitmap => "bitmap",
        })
    }
}

/// The form of an accepted list block, told by its version.
pub fn form(block: &[u8]) -> Form {
    match block[4] {
        1 => Form::Runs,
        2 => Form::Bitmap,
        version => unreachable!("a list of version {version} was accepted"),
    }
}

/// The range U of a list block: its elements are below it.
pub fn range(block: &[u8]) -> u32 {
    four_bytes(block, 5)
}

/// The elements of an accepted list block, rising.
pub fn elements(block: &[u8]) -> Box<dyn Iterator<Item = u32> + '_> {
    match form(block) {
        Form::Runs => Box::new(elements_of_runs(block)),
        Form::Bitmap => Box::new(ones(behind_numbers(block, range(block)))),
    }
}

/// What lies behind a block's pointers or numbers, one for every 256 of so many bits.
fn behind_numbers(block: &[u8], bits: u32) -> &[u8] {
    &block[HEADER + NUMBER * (bits / BITS_A_NUMBER) as usize..]
}

fn elements_of_runs(block: &[u8]) -> impl Iterator<Item = u32> + '_ {
    let (u, n) = (range(block), four_bytes(block, 9));
    let width = u.checked_div(n).map_or(0, u32::ilog2);
    let zeros = if n == 0 { 0 } else { u >> width };
    let lower_bits = n as usize * width as usize;
    let (lower, upper) =
        behind_numbers(block, zeros).split_at(WORD * lower_bits.div_ceil(WORD_BITS));
    ones(upper).zip(0..).map(move |(bit, rank)| {
        let low = field(lower, rank as usize * width as usize, width);
        (bit - rank) << width | low
    })
}

/// The places of the ones of a run, rising.
fn ones(run: &[u8]) -> impl Iterator<Item = u32> + '_ {
    (0..run.len() / WORD).flat_map(move |word| {
        let bits = word_of_run(run, word);
        let set = (0..WORD_BITS).filter(move |bit| bits >> bit & 1 == 1);
        set.map(move |bit| (word * WORD_BITS + bit) as u32)
    })
}

/// The `width` bits of a run from a place on; they may cross two words.
fn field(run: &[u8], place: usize, width: u32) -> u32 {
    let word = place / WORD_BITS;
    let both = u128::from(word_of_run(run, word)) | u128::from(word_of_run(run, word + 1)) << 64;
    let mask = (1 << width) - 1;
    (both >> (place % WORD_BITS) & mask) as u32
}

/// A word of a run, 0 behind its end.
fn word_of_run(run: &[u8], word: usize) -> u64 {
    run[(word * WORD).min(run.len())..]
        .first_chunk()
        .map_or(0, |bytes| u64::from_be_bytes(*bytes))
}

#[cfg(test)]
mod tests {
    use super::*;

    fn assert_read_back(u: u32, list: &[u32]) {
        let block = jundefola::list_block(u, list).unwrap();
        assert_eq!(range(&block), u);
        assert_eq!(form(&block), Form::Runs);
        assert_eq!(elements(&block).collect::<Vec<u32>>(), list);
    }

    #[test]
    fn lists_are_read_back() {
        assert_read_back(44, &[3, 4, 7, 13, 14, 15, 21, 43]);
        assert_read_back(1, &[0]);
        assert_read_back(300, &(0..300).collect::<Vec<u32>>());
        assert_read_back(16_777_216, &[16_777_215]);
        assert_read_back(16_777_216, &[0, 1, 1_000_000, 16_000_000]);
    }

    #[test]
    fn lists_of_every_width_are_read_back() {
        for width in 0..=24 {
            let rising = (0..200).map(|i| (i << width) + i % (1 << width.min(3)));
            let list: Vec<u32> = rising.take_while(|element| element >> 24 == 0).collect();
            assert_read_back((list.len() as u32) << width, &list);
        }
    }

    /// The worked bitmaps of docs/FORMAT.md.
    #[test]
    fn bitmaps_are_read() {
        let pump = [0, 1, 2, 5, 8, 9, 12, 16, 18, 23, 28, 35, 39];
        let word = 0x8810851327_u64.to_be_bytes();
        let header = [0, 0, 0, 0x15, 2, 0, 0, 0, 40, 0, 0, 0, 13];
        let block = [&header[..], &word].concat();
        assert_eq!(form(&block), Form::Bitmap);
        assert_eq!(range(&block), 40);
        assert_eq!(elements(&block).collect::<Vec<u32>>(), pump);

        let header = [0, 0, 0, 0x39, 2, 0, 0, 1, 44, 0, 0, 1, 44];
        let last = 0xFFF_FFFF_FFFF_u64.to_be_bytes();
        let block = [&header[..], &[0, 0, 1, 0], &[0xFF; 32], &last].concat();
        assert!(elements(&block).eq(0..300));
    }

    #[test]
    fn empty_lists_are_read_back() {
        assert_read_back(0, &[]);
        assert_read_back(5, &[]);
        assert_read_back(16_777_216, &[]);
    }
}
