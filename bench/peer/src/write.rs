//! The writer of a list.

use crate::bits::{put_number, put_word, select, sums};
use crate::refusal;
use crate::shape::{Shape, GREATEST_BOUND, LIST_HEADER};

/// Neighbours compared before a list out of order is noticed.
const STRETCH: usize = 4_096;

/// Whether a list is strictly rising.
pub fn is_rising(list: &[u32]) -> bool {
    let mut rest = list;
    while rest.len() > 1 {
        let stretch = &rest[..rest.len().min(STRETCH)];
        if falls(stretch) != 0 {
            return false;
        }
        rest = &rest[stretch.len() - 1..];
    }
    true
}

/// The neighbours of a stretch that do not rise.
#[inline(always)]
pub fn falls(stretch: &[u32]) -> u32 {
    let after = stretch.get(1..).unwrap_or(&[]);
    let pairs = stretch.iter().zip(after);
    pairs.map(|(x, y)| u32::from(x >= y)).sum()
}

/// Whether a list is strictly rising and below u.
#[inline(always)]
pub fn is_valid(u: u32, list: &[u32]) -> bool {
    list.last().is_none_or(|last| *last < u) && is_rising(list)
}

/// The bytes of the runs of n elements below u.
#[inline(always)]
pub fn runs_size(u: u32, n: u32) -> usize {
    match n {
        0 => LIST_HEADER,
        _ => Shape::of_runs(u, n).size(),
    }
}

/// Writes the header of a block of n elements below u, which has this geometry.
#[inline(always)]
pub unsafe fn put_header(at: *mut u8, shape: &Shape, u: u32, n: u32) {
    put_number(at, shape.size() as u32);
    *at.add(4) = shape.form as u8;
    put_number(at.add(5), u);
    put_number(at.add(9), n);
}

/// Writes a list's block and gives its length.
pub fn write_list(u: u32, list: &[u32], room: &mut [u8]) -> Result<usize, u32> {
    if u > GREATEST_BOUND {
        return Err(refusal::LIMIT);
    }
    if !is_valid(u, list) {
        return Err(refusal::LISTS);
    }
    let n = list.len() as u32;
    if runs_size(u, n) > room.len() {
        return Err(refusal::ROOM);
    }
    unsafe {
        let mut writer = Writer::new(u, n, room.as_mut_ptr());
        writer.put(list);
        Ok(writer.finish())
    }
}

/// What takes the elements of a list, some at a time.
pub trait Elements {
    /// Takes the next elements.
    ///
    /// # Safety
    /// All elements put are strictly rising and below u, and not more than n.
    unsafe fn put(&mut self, elements: &[u32]);
}

/// A block of runs under way, in a room that is large enough.
///
/// The upper run is cleared at the start, so that only words with ones are stored.
pub struct Writer {
    room: *mut u8,
    size: usize,
    upper: *mut u8,
    /// Where the next lower word goes.
    lower: *mut u8,
    width: u32,
    /// The zeros before the last pointer.
    last_due: u32,
    /// The zeros before the next pointer.
    due: u32,
    /// The upper word under way, and the last bit in it.
    ones: u64,
    last_bit: u32,
    /// The last 64 bits of the lower run so far, and how many of them no word holds yet.
    window: u64,
    filled: u32,
    /// The elements so far.
    rank: u32,
}

impl Writer {
    /// Writes the header of a block of n elements below u.
    ///
    /// # Safety
    /// The room has the block's size.
    pub unsafe fn new(u: u32, n: u32, room: *mut u8) -> Writer {
        let shape = match n {
            0 => Shape::EMPTY,
            _ => Shape::of_runs(u, n),
        };
        put_header(room, &shape, u, n);
        let upper = room.add(shape.upper_at());
        upper.write_bytes(0, 8 * shape.upper_words);
        Writer {
            room,
            size: shape.size(),
            upper,
            lower: room.add(shape.lower_at()),
            width: shape.width,
            last_due: 256 * shape.pointers as u32,
            due: 256,
            ones: 0,
            last_bit: 63,
            window: 0,
            filled: 0,
            rank: 0,
        }
    }

    #[inline(always)]
    unsafe fn put_runs<const LOW: bool>(&mut self, elements: &[u32]) {
        let (upper, width) = (self.upper, self.width & 31);
        let (mut lower, mut window, mut filled) = (self.lower, self.window, self.filled);
        let (mut ones, mut last_bit) = (self.ones, self.last_bit);
        let mut rank = self.rank;
        for x in elements {
            let bit = if LOW { x >> width } else { *x } + rank;
            if bit > last_bit {
                put_word(upper, last_bit as usize / 64, ones);
                let first_bit = bit & !63;
                if first_bit >= self.due + rank {
                    self.put_pointers(ones, last_bit, rank, first_bit);
                }
                ones = 0;
                last_bit = bit | 63;
            }
            rank += 1;
            ones |= 1 << (bit & 63);
            if LOW {
                let before = window;
                window = push(window, *x, width);
                filled += width;
                if filled >= 64 {
                    filled -= 64;
                    put_word(lower, 0, push(before, *x, width - filled));
                    lower = lower.add(8);
                }
            }
        }
        (self.lower, self.window, self.filled) = (lower, window, filled);
        (self.ones, self.last_bit) = (ones, last_bit);
        self.rank = rank;
    }

    /// Writes the pointers up to bit `end`, of which the first may lie in the word that ends at `last_bit` and the
    /// others behind it; `rank` elements come before that word's end, and none behind.
    #[cold]
    #[inline(never)]
    unsafe fn put_pointers(&mut self, ones: u64, last_bit: u32, rank: u32, end: u32) {
        let zeros_behind = last_bit + 1 - rank;
        let limit = end - rank;
        if self.due <= zeros_behind.min(limit) {
            let zeros = !ones;
            let before = zeros_behind - zeros.count_ones();
            let place = select(zeros, sums(zeros), self.due - before - 1);
            self.put_pointer(last_bit - 63 + place + 1);
        }
        while self.due <= limit {
            self.put_pointer(self.due + rank);
        }
    }

    unsafe fn put_pointer(&mut self, pointer: u32) {
        put_number(
            self.room.add(LIST_HEADER - 4 + self.due as usize / 64),
            pointer,
        );
        self.due += 256;
    }

    /// Writes what is still under way; gives the block's size.
    ///
    /// # Safety
    /// All n elements have been put.
    pub unsafe fn finish(mut self) -> usize {
        if self.rank > 0 {
            put_word(self.upper, self.last_bit as usize / 64, self.ones);
        }
        if self.filled > 0 {
            put_word(self.lower, 0, self.window >> (64 - self.filled));
        }
        self.put_pointers(
            self.ones,
            self.last_bit,
            self.rank,
            self.last_due + self.rank,
        );
        self.size
    }
}

impl Elements for Writer {
    unsafe fn put(&mut self, elements: &[u32]) {
        match self.width {
            0 => self.put_runs::<false>(elements),
            _ => self.put_runs::<true>(elements),
        }
    }
}

/// The window after the lowest `width` bits of x have gone in from above.
#[inline(always)]
fn push(window: u64, x: u32, width: u32) -> u64 {
    ((u128::from(x) << 64 | u128::from(window)) >> (width & 63)) as u64
}
