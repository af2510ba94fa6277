//! The checks of lists and terms, in place.

use crate::bitmap::is_valid_bitmap;
use crate::bits::{number, select, sums, word};
use crate::refusal;
use crate::shape::{is_edition, Form, Shape, GREATEST_BOUND, LIST_HEADER, TERM_VERSION};

/// Bytes of a term's header and of the three headers in it.
pub const TERM_HEADER: usize = 44;

/// Bytes before a term's first list.
pub const TERM_OPENING: usize = 5;

/// What a container asks of accepted runs.
#[derive(Clone, Copy)]
struct Facts {
    u: u32,
    n: u32,
    /// The last element plus 1, or 0.
    end: u32,
}

/// Bytes and stated length of a block with this header; gives its version.
#[inline(always)]
pub fn check_opening(block: &[u8], header: usize) -> Result<u8, u32> {
    if block.len() < header {
        return Err(refusal::SHORT);
    }
    let stated = unsafe { number(block.as_ptr()) };
    if stated as usize != block.len() {
        return Err(refusal::LENGTH);
    }
    Ok(block[4])
}

/// Cuts the next part off what remains of a container.
#[inline(always)]
pub fn next_part<'a>(rest: &mut &'a [u8], header: usize) -> Result<&'a [u8], u32> {
    if rest.len() < header {
        return Err(refusal::SHORT);
    }
    let stated = unsafe { number(rest.as_ptr()) } as usize;
    if stated < header || stated > rest.len() {
        return Err(refusal::LENGTH);
    }
    let (part, after) = rest.split_at(stated);
    *rest = after;
    Ok(part)
}

/// Checks a list block that stands alone, which is of the old form.
pub fn check_list(block: &[u8]) -> Result<(), u32> {
    if check_opening(block, LIST_HEADER)? != Form::Runs as u8 {
        return Err(refusal::VERSION);
    }
    let (u, n) = bounds(block)?;
    check_as_runs(block, u, n).map(|_| ())
}

/// U and n of a block with a header, if they can be.
#[inline(always)]
fn bounds(block: &[u8]) -> Result<(u32, u32), u32> {
    let at = block.as_ptr();
    let (u, n) = unsafe { (number(at.add(5)), number(at.add(9))) };
    if u > GREATEST_BOUND {
        return Err(refusal::LIMIT);
    }
    match n > u {
        true => Err(refusal::LAYOUT),
        false => Ok((u, n)),
    }
}

/// Checks a block that is to be runs, behind its n.
fn check_as_runs(block: &[u8], u: u32, n: u32) -> Result<Facts, u32> {
    if n == 0 {
        return match block.len() {
            LIST_HEADER => Ok(Facts { u, n, end: 0 }),
            _ => Err(refusal::LAYOUT),
        };
    }
    let shape = Shape::of_runs(u, n);
    if block.len() != shape.size() {
        return Err(refusal::LAYOUT);
    }
    let at = block.as_ptr();
    let end = unsafe {
        match shape.width {
            0 => check_upper(at, &shape),
            _ => check_runs(at, &shape),
        }
    };
    end.map(|end| Facts { u, n, end }).ok_or(refusal::RUNS)
}

/// Checks a block that is to be a bitmap, behind its n.
fn check_as_bitmap(block: &[u8], u: u32, n: u32) -> Result<(), u32> {
    let shape = Shape::of_bitmap(u, n);
    if block.len() != shape.size() {
        return Err(refusal::LAYOUT);
    }
    let valid = unsafe { is_valid_bitmap(block.as_ptr(), &shape) };
    valid.then_some(()).ok_or(refusal::RUNS)
}

/// The form that a list block in a term tells.
#[inline(always)]
fn told_form(block: &[u8]) -> Result<Form, u32> {
    Form::told_by(check_opening(block, LIST_HEADER)?).ok_or(refusal::VERSION)
}

/// Checks the pages of a term in an edition; gives U and n.
fn check_pages(edition: u32, block: &[u8]) -> Result<(u32, u32), u32> {
    let form = told_form(block)?;
    let (u, n) = bounds(block)?;
    if form != Form::of_pages(edition, u, n) {
        return Err(refusal::VERSION);
    }
    match form {
        Form::Runs => check_as_runs(block, u, n).map(|_| ())?,
        Form::Bitmap => check_as_bitmap(block, u, n)?,
    }
    Ok((u, n))
}

/// Checks the counts or the positions of a term.
fn check_numbers(block: &[u8]) -> Result<Facts, u32> {
    let form = told_form(block)?;
    let (u, n) = bounds(block)?;
    match form {
        Form::Runs => check_as_runs(block, u, n),
        Form::Bitmap => Err(refusal::VERSION),
    }
}

/// Checks runs and pointers of a block without low fields; gives the last element plus 1. Such a list rises where no
/// two ones are neighbours, so whole words are tested.
unsafe fn check_upper(block: *const u8, shape: &Shape) -> Option<u32> {
    let upper = block.add(shape.upper_at());
    let mut pointers = Pointers::of(block, shape);
    let (mut ones, mut carry, mut neighbours) = (0, 0, 0);
    for k in 0..shape.upper_words {
        let x = word(upper, k);
        neighbours |= x & (x << 1 | carry);
        carry = x >> 63;
        let before = ones;
        ones += x.count_ones();
        if !pointers.pass(x, 64 * k as u32, before, ones) {
            return None;
        }
    }
    if ones != shape.n || neighbours != 0 {
        return None;
    }
    end_of_runs(block, shape)
}

/// Checks runs and pointers of a block with low fields; gives the last element plus 1.
unsafe fn check_runs(block: *const u8, shape: &Shape) -> Option<u32> {
    let upper = block.add(shape.upper_at());
    let mut lower = block.add(shape.lower_at());
    let mut pointers = Pointers::of(block, shape);
    let width = shape.width;
    let mask = (1_u64 << width) - 1;
    let (mut fields, mut held) = (0_u64, 0_u32);
    // One more than the word's first bit, less the ones so far: what makes a place in the word a high part plus 1.
    let mut lift = 1_u64;
    let (mut last, mut bad) = (0_u64, false);
    for k in 0..shape.upper_words {
        let x = word(upper, k);
        let first = 64 * k as u32;
        let before = first + 1 - lift as u32;
        let mut left = x;
        while left != 0 {
            let high = lift.wrapping_add(u64::from(left.trailing_zeros()));
            left &= left - 1;
            let low;
            if held >= width {
                low = fields & mask;
                fields >>= width;
                held -= width;
            } else {
                // More ones than n need more fields than there are.
                if lower == upper {
                    return None;
                }
                let next = word(lower, 0);
                lower = lower.add(8);
                low = (fields | next << held) & mask;
                fields = next >> (width - held);
                held += 64 - width;
            }
            lift = lift.wrapping_sub(1);
            let element = high << 24 | low;
            bad |= element <= last;
            last = element;
        }
        let behind = first.wrapping_add(1).wrapping_sub(lift as u32);
        if !pointers.pass(x, first, before, behind) {
            return None;
        }
        lift = lift.wrapping_add(64);
    }
    let ones = (64 * shape.upper_words as u64 + 1).wrapping_sub(lift);
    if ones != u64::from(shape.n) || bad {
        return None;
    }
    end_of_runs(block, shape)
}

/// The pointers still to be checked.
struct Pointers {
    at: *const u8,
    left: usize,
    /// The zeros before the next pointer, the greatest number if there is none.
    due: u32,
}

impl Pointers {
    #[inline(always)]
    unsafe fn of(block: *const u8, shape: &Shape) -> Pointers {
        Pointers {
            at: block.add(LIST_HEADER),
            left: shape.pointers,
            due: if shape.pointers == 0 { u32::MAX } else { 256 },
        }
    }

    /// Checks the pointer that leads into this word at bit `bit`, if one does; told are the ones before and behind.
    ///
    /// Spare bits count as zeros here, but those of n ones come behind the zeros that have pointers.
    #[inline(always)]
    unsafe fn pass(&mut self, x: u64, bit: u32, before: u32, behind: u32) -> bool {
        if bit + 64 - behind < self.due {
            return true;
        }
        let zero = self.due - 1 - (bit - before);
        let is_right = number(self.at) == bit + select(!x, sums(!x), zero) + 1;
        self.at = self.at.add(4);
        self.left -= 1;
        self.due = if self.left == 0 {
            u32::MAX
        } else {
            self.due + 256
        };
        is_right
    }
}

/// The last element plus 1 of runs with n ones in order, if it is below U and spare bits are zero.
unsafe fn end_of_runs(block: *const u8, shape: &Shape) -> Option<u32> {
    let (lower, upper) = (block.add(shape.lower_at()), block.add(shape.upper_at()));
    if !spare_bits_are_zero(lower, upper, shape) {
        return None;
    }
    let last = last_element(lower, upper, shape);
    (last < shape.u).then_some(last + 1)
}

/// Whether both runs' spare bits are zero.
unsafe fn spare_bits_are_zero(lower: *const u8, upper: *const u8, shape: &Shape) -> bool {
    let upper_used = shape.bits % 64;
    let lower_used = shape.n * shape.width % 64;
    (upper_used == 0 || word(upper, shape.upper_words - 1) >> upper_used == 0)
        && (lower_used == 0 || word(lower, shape.lower_words - 1) >> lower_used == 0)
}

/// The last element of runs with n ones.
unsafe fn last_element(lower: *const u8, upper: *const u8, shape: &Shape) -> u32 {
    let mut k = shape.upper_words - 1;
    let mut x = word(upper, k);
    while x == 0 {
        k -= 1;
        x = word(upper, k);
    }
    let bit = 64 * k as u32 + x.ilog2();
    let high = bit - (shape.n - 1);
    if shape.width == 0 {
        return high;
    }
    let end = (shape.n * shape.width - 1) as usize;
    let begin = end + 1 - shape.width as usize;
    let first = word(lower, begin / 64) >> (begin % 64);
    let second = (word(lower, end / 64) << 1) << (63 - begin % 64);
    high << shape.width | ((first | second) & ((1 << shape.width) - 1)) as u32
}

/// Checks a term block of an edition; gives its pages' U.
pub fn check_term(edition: u32, block: &[u8]) -> Result<u32, u32> {
    let version = check_opening(block, TERM_HEADER)?;
    if version != TERM_VERSION || !is_edition(edition) {
        return Err(refusal::VERSION);
    }
    let mut rest = &block[TERM_OPENING..];
    let (pages_u, pages_n) = check_pages(edition, next_part(&mut rest, LIST_HEADER)?)?;
    let counts = check_numbers(next_part(&mut rest, LIST_HEADER)?)?;
    let positions = check_numbers(next_part(&mut rest, LIST_HEADER)?)?;
    if !rest.is_empty() {
        return Err(refusal::LAYOUT);
    }
    let agree = counts.n == pages_n
        && counts.u == counts.end
        && positions.n == counts.u
        && positions.u == positions.end;
    agree.then_some(pages_u).ok_or(refusal::PARTS)
}
