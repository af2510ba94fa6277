//! A cursor on an accepted list: seeks by the step rule, and moves by rank.

use crate::bitmap::Bitmap;
use crate::bits::{number, select, sums, word};
use crate::shape::{known, Form, Shape, LIST_HEADER};

/// What a seek gives where it finds no element.
pub const NONE: u32 = u32::MAX;

/// Elements that are tried in turn before the wanted one is looked for further on.
const TRIED_IN_TURN: u32 = 8;

/// Zeros that are passed with the ones among them, one by one, before zeros are counted.
const WALKED: u32 = 2;

/// Ranks that are passed word by word before pointers are read.
const NEAR: u32 = 256;

/// Where a cursor stands; on a bitmap, whose bits are its pages, without zeros and rank.
#[derive(Clone, Copy)]
pub struct Place {
    /// The ones of the current word that lie behind the current element.
    rest: u64,
    /// The current element's bit, 0 if fresh.
    bit: u32,
    /// The zeros before that bit.
    high: u32,
    /// The current element plus 1, 0 if fresh.
    pub mark: u32,
    /// The current element's rank plus 1, 0 if fresh.
    pub passed: u32,
}

/// Whether an accepted list block is a bitmap.
#[inline(always)]
pub unsafe fn is_bitmap(block: *const u8) -> bool {
    *block.add(4) == Form::Bitmap as u8
}

/// A zero of the upper run.
struct Zero {
    /// The word it lies in.
    k: usize,
    /// The ones behind it in that word.
    ones_behind: u64,
    /// The bits of the run up to it, itself among them.
    bits_up_to: u32,
}

/// A cursor on a list; a bitmap's bits are its upper run, and its counts its pointers.
#[derive(Clone, Copy)]
pub struct Cursor {
    upper: *const u8,
    lower: *const u8,
    /// Where pointer number 0 would lie.
    pointers: *const u8,
    form: Form,
    /// U, 0 for an empty list.
    u: u32,
    pub n: u32,
    width: u32,
    bits: u32,
    pointer_count: u32,
    pub place: Place,
}

impl Cursor {
    /// A cursor on nothing.
    pub const NOWHERE: Cursor = Cursor {
        upper: std::ptr::null(),
        lower: std::ptr::null(),
        pointers: std::ptr::null(),
        form: Form::Runs,
        u: 0,
        n: 0,
        width: 0,
        bits: 0,
        pointer_count: 0,
        place: Place {
            rest: 0,
            bit: 0,
            high: 0,
            mark: 0,
            passed: 0,
        },
    };

    /// A fresh cursor on an accepted list block.
    #[inline(always)]
    pub unsafe fn on(block: *const u8) -> Cursor {
        match is_bitmap(block) {
            true => Cursor::on_bitmap(block),
            false => Cursor::on_runs(block),
        }
    }

    /// A fresh cursor on an accepted block of runs.
    #[inline(always)]
    pub unsafe fn on_runs(block: *const u8) -> Cursor {
        let (u, n) = (number(block.add(5)), number(block.add(9)));
        match n {
            0 => Cursor::NOWHERE,
            _ => Cursor::of_shape(block, &Shape::of_runs(u, n)),
        }
    }

    /// A fresh cursor on an accepted bitmap.
    #[inline(always)]
    pub unsafe fn on_bitmap(block: *const u8) -> Cursor {
        let (u, n) = (number(block.add(5)), number(block.add(9)));
        Cursor::of_shape(block, &Shape::of_bitmap(u, n))
    }

    #[inline(always)]
    unsafe fn of_shape(block: *const u8, shape: &Shape) -> Cursor {
        let upper = block.add(shape.upper_at());
        let mut cursor = Cursor {
            upper,
            lower: block.add(shape.lower_at()),
            pointers: block.add(LIST_HEADER - 4),
            form: shape.form,
            u: shape.u,
            n: shape.n,
            width: shape.width,
            bits: shape.bits,
            pointer_count: shape.pointers as u32,
            ..Cursor::NOWHERE
        };
        cursor.place.rest = word(upper, 0);
        cursor
    }

    /// Whether the list holds every number below its U.
    #[inline(always)]
    pub fn is_full(&self) -> bool {
        self.u == self.n
    }

    /// Whether the list is a bitmap, where that is not known beforehand.
    #[inline(always)]
    pub fn is_bitmap<const KNOWN: u8>(&self) -> bool {
        match KNOWN {
            known::RUNS => false,
            known::BITMAPS => true,
            _ => self.form == Form::Bitmap,
        }
    }

    #[inline(always)]
    fn bitmap(&self) -> Bitmap {
        Bitmap {
            bits: self.upper,
            counts: self.pointers,
            u: self.u,
        }
    }

    /// The current element's rank.
    #[inline(always)]
    pub unsafe fn rank<const KNOWN: u8>(&self) -> u32 {
        match self.is_bitmap::<KNOWN>() {
            false => self.place.passed - 1,
            true => self.bitmap().rank(self.place.mark - 1),
        }
    }

    /// The page of this rank, which must be below n, for a fresh cursor on a bitmap.
    #[inline(always)]
    pub unsafe fn page_in_bitmap(&self, rank: u32) -> u32 {
        let i = self.last_pointer_before::<{ known::BITMAPS }>(rank);
        self.bitmap().one_behind(i, rank)
    }

    #[inline(always)]
    unsafe fn pointer(&self, i: u32) -> u32 {
        number(self.pointers.add(4 * i as usize))
    }

    /// The low field of the element of this rank. A list without low fields reads its first upper word and masks all.
    #[inline(always)]
    unsafe fn low(&self, rank: u32) -> u32 {
        let at = rank * self.width;
        let from = at & 63;
        let end = at + self.width.saturating_sub(1);
        let first = word(self.lower, (at >> 6) as usize) >> from;
        let second = (word(self.lower, (end >> 6) as usize) << 1) << (63 - from);
        (first | second) as u32 & ((1 << self.width) - 1)
    }

    /// Seeks for b and adds the looks. A cursor that has answered none is not sought again.
    #[inline(always)]
    pub unsafe fn seek<const KNOWN: u8>(&mut self, b: u32, looks: &mut u32) -> u32 {
        if self.place.mark > b {
            return self.place.mark - 1;
        }
        if b >= self.u {
            return NONE;
        }
        if self.is_bitmap::<KNOWN>() {
            return self.seek_in_bitmap(b, looks);
        }
        let h = b >> self.width;
        let (mut ones, above, mut rank, need, start);
        if h >> 8 > self.place.high >> 8 {
            start = self.pointer(h >> 8);
            if start == self.bits {
                return NONE;
            }
            need = h & 255;
            rank = start - (h - need);
            above = u64::MAX << (start & 63);
            ones = word(self.upper, (start >> 6) as usize) & above;
        } else {
            start = self.place.bit;
            need = h - self.place.high;
            rank = self.place.passed;
            above = (u64::MAX - u64::from(rank != 0)) << (start & 63);
            ones = self.place.rest;
        }
        let first = start as usize >> 6;
        let mut k = first;
        if need > WALKED {
            let zero = self.zero(k, !ones & above, need);
            k = zero.k;
            ones = zero.ones_behind;
            rank = zero.bits_up_to - h;
        }
        let mut tried = 0;
        while rank < self.n {
            while ones == 0 {
                k += 1;
                ones = word(self.upper, k);
            }
            let bit = 64 * k as u32 + ones.trailing_zeros();
            ones &= ones - 1;
            let high = bit - rank;
            let element = high << self.width | self.low(rank);
            rank += 1;
            if element >= b {
                *looks += (k - first) as u32 + 1;
                self.place = Place {
                    rest: ones,
                    bit,
                    high,
                    mark: element + 1,
                    passed: rank,
                };
                return element;
            }
            tried += 1;
            if tried == TRIED_IN_TURN {
                (k, ones, rank) = self.further(bit, rank - 1, b);
                tried = 0;
            }
        }
        *looks += (self.bits - 1) / 64 - first as u32 + 1;
        NONE
    }

    /// Seeks for b, which is below U and above the current element.
    #[inline(always)]
    unsafe fn seek_in_bitmap(&mut self, b: u32, looks: &mut u32) -> u32 {
        let searched = self.bitmap().first_from(b);
        *looks += searched.words;
        match searched.ones {
            0 => NONE,
            ones => self.stand_in_bitmap(searched.k, ones),
        }
    }

    /// Stands on the lowest of these ones of a bitmap's word k.
    #[inline(always)]
    fn stand_in_bitmap(&mut self, k: u32, ones: u64) -> u32 {
        let page = 64 * k + ones.trailing_zeros();
        self.place.rest = ones & (ones - 1);
        self.place.bit = page;
        self.place.mark = page + 1;
        page
    }

    /// The seek for one more than the current page, or for 0 if fresh.
    #[inline(always)]
    unsafe fn next_in_bitmap(&mut self, looks: &mut u32) -> u32 {
        let place = self.place;
        if place.rest != 0 {
            *looks += 1;
            return self.stand_in_bitmap(place.bit >> 6, place.rest);
        }
        match place.mark < self.u {
            true => self.seek_in_bitmap(place.mark, looks),
            false => NONE,
        }
    }

    /// The word and the place in it of zero number `need`, from 1, where `zeros` are those of word k.
    #[inline(always)]
    unsafe fn zero(&self, mut k: usize, mut zeros: u64, mut need: u32) -> Zero {
        let mut counts = sums(zeros);
        while (counts >> 56) < u64::from(need) {
            need -= (counts >> 56) as u32;
            k += 1;
            zeros = !word(self.upper, k);
            counts = sums(zeros);
        }
        let place = select(zeros, counts, need - 1);
        Zero {
            k,
            ones_behind: !zeros & (!1 << place),
            bits_up_to: 64 * k as u32 + place + 1,
        }
    }

    /// From the bit of an element below b closer to b: the word, its ones that may be sought, the first one's rank.
    #[cold]
    #[inline(never)]
    unsafe fn further(&self, bit: u32, rank: u32, b: u32) -> (usize, u64, u32) {
        let h = b >> self.width;
        let need = h - (bit - rank);
        if need == 0 {
            return self.halve(bit, rank, b);
        }
        let k = bit as usize >> 6;
        let zeros = !word(self.upper, k) & (!1 << (bit & 63));
        let zero = self.zero(k, zeros, need);
        (zero.k, zero.ones_behind, zero.bits_up_to - h)
    }

    /// From the bit of an element below b in b's bucket to the first element of that bucket at or above b, or past
    /// the bucket: its word, the ones there from it on, and its rank.
    unsafe fn halve(&self, bit: u32, rank: u32, b: u32) -> (usize, u64, u32) {
        let length = self.run_of_ones(bit);
        let (mut below, mut not_below) = (rank, rank + length);
        let wanted = b & ((1 << self.width) - 1);
        while below + 1 < not_below {
            let middle = (below + not_below) / 2;
            if self.low(middle) < wanted {
                below = middle;
            } else {
                not_below = middle;
            }
        }
        // The last bit of the run is at least here, so this word exists; the search goes on behind `below`.
        let at = bit + (below - rank);
        let k = at as usize >> 6;
        (k, word(self.upper, k) & (!1 << (at & 63)), below + 1)
    }

    /// The number of ones that follow each other from this one on.
    unsafe fn run_of_ones(&self, bit: u32) -> u32 {
        let mut k = bit as usize >> 6;
        let mut zeros = !word(self.upper, k) & (u64::MAX << (bit & 63));
        while zeros == 0 {
            k += 1;
            if 64 * k as u32 >= self.bits {
                return self.bits - bit;
            }
            zeros = !word(self.upper, k);
        }
        (64 * k as u32 + zeros.trailing_zeros()).min(self.bits) - bit
    }

    /// The seek for one more than the current element, or for 0 if fresh.
    #[inline(always)]
    pub unsafe fn next<const KNOWN: u8>(&mut self, looks: &mut u32) -> u32 {
        if self.is_bitmap::<KNOWN>() {
            return self.next_in_bitmap(looks);
        }
        let place = self.place;
        if place.passed >= self.n {
            return self.seek_at_the_end(looks);
        }
        let h = place.mark >> self.width;
        let start = match h >> 8 > place.high >> 8 {
            true => self.pointer(h >> 8),
            false => place.bit,
        };
        let k = self.step();
        *looks += k - (start >> 6) + 1;
        self.place.mark - 1
    }

    #[cold]
    #[inline(never)]
    unsafe fn seek_at_the_end(&mut self, looks: &mut u32) -> u32 {
        let bound = self.place.mark;
        self.seek::<{ known::RUNS }>(bound, looks)
    }

    /// Moves to the next element, which there must be; gives its word's number.
    #[inline(always)]
    pub unsafe fn step(&mut self) -> u32 {
        let mut ones = self.place.rest;
        let mut k = self.place.bit >> 6;
        while ones == 0 {
            k += 1;
            ones = word(self.upper, k as usize);
        }
        self.stand(k, ones, self.place.passed);
        k
    }

    /// Stands on the lowest of these ones of word k, whose rank is given.
    #[inline(always)]
    unsafe fn stand(&mut self, k: u32, ones: u64, rank: u32) {
        let bit = 64 * k + ones.trailing_zeros();
        let high = bit - rank;
        let element = high << self.width | self.low(rank);
        self.place = Place {
            rest: ones & (ones - 1),
            bit,
            high,
            mark: element + 1,
            passed: rank + 1,
        };
    }

    /// Moves forward to the element of this rank, which must be below n and not before the current one.
    #[inline(always)]
    pub unsafe fn move_to(&mut self, rank: u32) {
        if rank == self.place.passed {
            self.step();
        } else if rank > self.place.passed {
            self.jump_to(rank);
        }
    }

    /// Moves to a rank further on.
    pub unsafe fn jump_to(&mut self, rank: u32) {
        let mut k = self.place.bit >> 6;
        let mut ones = self.place.rest;
        let mut passed = self.place.passed;
        if rank - passed > NEAR {
            let zeros = self.last_pointer_before::<{ known::RUNS }>(rank);
            if zeros > self.place.high / 256 {
                let start = self.pointer(zeros);
                k = start >> 6;
                ones = word(self.upper, k as usize) & (u64::MAX << (start & 63));
                passed = start - 256 * zeros;
            }
        }
        let mut counts = sums(ones);
        while (counts >> 56) as u32 <= rank - passed {
            passed += (counts >> 56) as u32;
            k += 1;
            ones = word(self.upper, k as usize);
            counts = sums(ones);
        }
        let place = select(ones, counts, rank - passed);
        self.stand(k, ones & (u64::MAX << place), rank);
    }

    /// The elements before pointer number i, which is at least 1.
    #[inline(always)]
    unsafe fn elements_before<const KNOWN: u8>(&self, i: u32) -> u32 {
        match self.is_bitmap::<KNOWN>() {
            false => self.pointer(i) - 256 * i,
            true => self.pointer(i),
        }
    }

    /// The greatest pointer number with at most `rank` elements before it, at or behind the current place: guessed
    /// as if ranks were spread evenly, then corrected in steps that double, then halved.
    unsafe fn last_pointer_before<const KNOWN: u8>(&self, rank: u32) -> u32 {
        let is_before = |i: u32| self.elements_before::<KNOWN>(i) <= rank;
        let current = self.place.high / 256;
        let share = rank as f32 / self.n as f32;
        let guess = (share * self.pointer_count as f32) as u32;
        let (mut before, mut behind) = (current, self.pointer_count + 1);
        let mut step = 1;
        if guess > current && is_before(guess) {
            before = guess;
            while before + step < behind && is_before(before + step) {
                before += step;
                step *= 2;
            }
            behind = behind.min(before + step);
        } else if guess > current {
            behind = guess;
            while behind > before + step && !is_before(behind - step) {
                behind -= step;
                step *= 2;
            }
            before = before.max(behind.saturating_sub(step));
        }
        while before + 1 < behind {
            let middle = (before + behind) / 2;
            if is_before(middle) {
                before = middle;
            } else {
                behind = middle;
            }
        }
        before
    }

    /// Lists every element into a room of n numbers, from a fresh cursor; gives the looks of a seek for 0, a seek
    /// for one more than each element, and one that finds none.
    pub unsafe fn list_all(&mut self, room: *mut u32) -> u32 {
        if self.is_bitmap::<{ known::NOTHING }>() {
            return self.bitmap().list_all(self.n, room);
        }
        let mut looks = match self.width {
            0 => self.list::<false>(room),
            _ => self.list::<true>(room),
        };
        self.next::<{ known::RUNS }>(&mut looks);
        looks
    }

    /// Lists every element and stands on the last; gives the looks up to there.
    ///
    /// A seek starts in the word where the last one ended, so the looks are the seeks and the words gone on, less
    /// the words that pointers pass.
    #[inline(always)]
    unsafe fn list<const LOW: bool>(&mut self, room: *mut u32) -> u32 {
        let (width, n, upper) = (self.width & 31, self.n, self.upper);
        let mask = (1_u64 << width) - 1;
        let to_pointer = ((256_u64 << width) - 1) as u32;
        let mut lower = self.lower;
        let (mut fields, mut held) = (0_u64, 0_u32);
        let (mut k, mut rank, mut passed_over) = (0_usize, 0_u32, 0);
        let mut ones = word(upper, 0);
        loop {
            while ones != 0 {
                let bit = 64 * k as u32 + ones.trailing_zeros();
                ones &= ones - 1;
                let mut element = bit - rank;
                if LOW {
                    let low;
                    if held >= width {
                        low = fields & mask;
                        fields >>= width;
                        held -= width;
                    } else {
                        let next = word(lower, 0);
                        lower = lower.add(8);
                        low = (fields | next << held) & mask;
                        fields = next >> (width - held);
                        held += 64 - width;
                    }
                    element = element << width | low as u32;
                }
                room.add(rank as usize).write(element);
                rank += 1;
                if (element + 1) & to_pointer == 0 && rank < n {
                    let start = self.pointer((element + 1) >> (width + 8));
                    passed_over += (start >> 6) - k as u32;
                }
                if rank == n {
                    self.stand_on(bit, element, rank - 1);
                    return k as u32 + n - passed_over;
                }
            }
            k += 1;
            ones = word(upper, k);
        }
    }

    /// Stands on the last element.
    unsafe fn stand_on(&mut self, bit: u32, element: u32, rank: u32) {
        self.place = Place {
            rest: 0,
            bit,
            high: bit - rank,
            mark: element + 1,
            passed: rank + 1,
        };
    }
}
