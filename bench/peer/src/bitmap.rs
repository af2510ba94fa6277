//! A list in the form of a bitmap: written, checked and read.

use crate::bits::{number, ones_in, put_number, put_word, select, sums, word};
use crate::shape::{Shape, LIST_HEADER};
use crate::write::put_header;

/// Writes the block of these pages below u; gives its size.
///
/// # Safety
/// The pages are strictly rising and below u, and there is one; the room has the block's size.
pub unsafe fn write_bitmap(u: u32, pages: &[u32], room: *mut u8) -> usize {
    let n = pages.len() as u32;
    let shape = Shape::of_bitmap(u, n);
    put_header(room, &shape, u, n);
    let bits = room.add(shape.upper_at());
    bits.write_bytes(0, 8 * shape.upper_words);
    let counts = room.add(LIST_HEADER - 4);
    let (mut k, mut ones) = (0, 0);
    for (rank, page) in pages.iter().enumerate() {
        let next = *page as usize / 64;
        if next != k {
            put_word(bits, k, ones);
            for i in k / 4 + 1..=next / 4 {
                put_number(counts.add(4 * i), rank as u32);
            }
            (k, ones) = (next, 0);
        }
        ones |= 1 << (page & 63);
    }
    put_word(bits, k, ones);
    for i in k / 4 + 1..=shape.pointers {
        put_number(counts.add(4 * i), n);
    }
    shape.size()
}

/// Writes the counts that the bits of a block give.
///
/// # Safety
/// The block has the size of this geometry.
pub unsafe fn put_counts_of_bits(shape: &Shape, block: *mut u8) {
    let bits = block.add(shape.upper_at());
    let mut ones = 0;
    for i in 0..shape.pointers {
        ones += ones_in(four_words(bits, i));
        put_number(block.add(LIST_HEADER + 4 * i), ones);
    }
}

/// Whether the counts are those of the bits, n of these are ones, and spare bits are zero.
///
/// # Safety
/// The block has the size of this geometry.
pub unsafe fn is_valid_bitmap(block: *const u8, shape: &Shape) -> bool {
    let bits = block.add(shape.upper_at());
    let (mut ones, mut differences) = (0, 0);
    for i in 0..shape.pointers {
        ones += ones_in(four_words(bits, i));
        differences |= ones ^ number(block.add(LIST_HEADER + 4 * i));
    }
    for k in 4 * shape.pointers..shape.upper_words {
        ones += word(bits, k).count_ones();
    }
    let spare = match shape.bits % 64 {
        0 => 0,
        used => word(bits, shape.upper_words - 1) >> used,
    };
    differences == 0 && spare == 0 && ones == shape.n
}

/// The four words from bit 256·i on, all of which there must be.
#[inline(always)]
unsafe fn four_words(bits: *const u8, i: usize) -> [u64; 4] {
    [0, 1, 2, 3].map(|j| word(bits, 4 * i + j))
}

/// The lowest bits of a word, so many, all where there are more.
#[inline(always)]
fn lowest(count: u32) -> u64 {
    match count {
        ..=63 => (1 << count) - 1,
        _ => u64::MAX,
    }
}

/// What is read of an accepted bitmap.
#[derive(Clone, Copy)]
pub struct Bitmap {
    pub bits: *const u8,
    /// Where count number 0 would lie.
    pub counts: *const u8,
    pub u: u32,
}

/// Where a search for a one ended: the ones from it on in its word, none where there is no such one, the number of that
/// word, and the words that were read.
pub struct Searched {
    pub ones: u64,
    pub k: u32,
    pub words: u32,
}

impl Bitmap {
    /// The first one at or after bit b, which is below U.
    #[inline(always)]
    pub unsafe fn first_from(&self, b: u32) -> Searched {
        let first = b >> 6;
        let mut k = first;
        let mut ones = word(self.bits, k as usize) & (u64::MAX << (b & 63));
        while ones == 0 && 64 * (k + 1) < self.u {
            k += 1;
            ones = word(self.bits, k as usize);
        }
        Searched {
            ones,
            k,
            words: k - first + 1,
        }
    }

    /// The ones before bit 256·i.
    #[inline(always)]
    pub unsafe fn count(&self, i: u32) -> u32 {
        match i {
            0 => 0,
            _ => number(self.counts.add(4 * i as usize)),
        }
    }

    /// The ones before this bit.
    #[inline(always)]
    pub unsafe fn rank(&self, bit: u32) -> u32 {
        let (i, within) = (bit / 256, bit % 256);
        let ones_of = |j: u32| {
            let below = lowest(within.saturating_sub(64 * j));
            word(self.bits, (4 * i + j) as usize) & below
        };
        let inside = match i < self.u / 256 {
            true => ones_in([0, 1, 2, 3].map(ones_of)),
            false => (0..=within / 64).map(|j| ones_of(j).count_ones()).sum(),
        };
        self.count(i) + inside
    }

    /// The bit of the one of this rank, which lies at or behind bit 256·i.
    #[inline(always)]
    pub unsafe fn one_behind(&self, i: u32, rank: u32) -> u32 {
        let mut left = rank - self.count(i);
        let mut k = 4 * i as usize;
        let mut ones = word(self.bits, k);
        let mut counts = sums(ones);
        while (counts >> 56) as u32 <= left {
            left -= (counts >> 56) as u32;
            k += 1;
            ones = word(self.bits, k);
            counts = sums(ones);
        }
        64 * k as u32 + select(ones, counts, left)
    }

    /// Lists every one's bit into a room of n numbers; gives the looks of a seek for 0, a seek for one more than each
    /// bit, and one that finds none.
    ///
    /// A seek starts in the word where the last one ended, or in the one behind it, if it ended at a word's last bit.
    pub unsafe fn list_all(&self, n: u32, mut room: *mut u32) -> u32 {
        let words = self.u.div_ceil(64);
        let mut passed_over = 0;
        for k in 0..words {
            let mut ones = word(self.bits, k as usize);
            passed_over += (ones >> 63) as u32;
            while ones != 0 {
                room.write(64 * k + ones.trailing_zeros());
                room = room.add(1);
                ones &= ones - 1;
            }
        }
        // A seek behind page U - 1 looks at nothing; where U ends a word, that word is passed over already.
        let at_the_end = *room.sub(1) + 1 == self.u && self.u % 64 != 0;
        n + words - passed_over - u32::from(at_the_end)
    }
}
