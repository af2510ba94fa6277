//! The writer of a term.

use crate::bitmap::write_bitmap;
use crate::bits::put_number;
use crate::check::TERM_OPENING;
use crate::refusal;
use crate::shape::{is_edition, Form, Shape, GREATEST_BOUND, TERM_VERSION};
use crate::write::{falls, is_valid, runs_size, Elements, Writer};
use std::mem::MaybeUninit;

/// What the writer is lent of one word.
pub struct Word<'a> {
    pub pages: &'a [u32],
    pub counts: &'a [u32],
    pub positions: &'a [u32],
}

/// Writes a term's block in an edition and gives its length.
pub fn write_term(edition: u32, n: u32, word: &Word, room: &mut [u8]) -> Result<usize, u32> {
    if !is_edition(edition) {
        return Err(refusal::VERSION);
    }
    if n > GREATEST_BOUND {
        return Err(refusal::LIMIT);
    }
    if word.pages.len() != word.counts.len() || !is_valid(n, word.pages) {
        return Err(refusal::LISTS);
    }
    let positions_u = positions_bound(word).ok_or(refusal::LISTS)?;
    if positions_u > u64::from(GREATEST_BOUND) {
        return Err(refusal::LIMIT);
    }
    let positions_u = positions_u as u32;
    let (pages_n, positions_n) = (word.pages.len() as u32, word.positions.len() as u32);
    let shape = Shape::of_pages(edition, n, pages_n);
    let size = TERM_OPENING
        + shape.size()
        + runs_size(positions_n, pages_n)
        + runs_size(positions_u, positions_n);
    if size > room.len() {
        return Err(refusal::ROOM);
    }
    unsafe {
        let mut at = room.as_mut_ptr();
        put_number(at, size as u32);
        *at.add(4) = TERM_VERSION;
        at = at.add(TERM_OPENING);
        at = at.add(write_pages(shape.form, n, word.pages, at));
        let mut counts = Writer::new(positions_n, pages_n, at);
        put_counts(word.counts, 0, &mut counts);
        at = at.add(counts.finish());
        let mut positions = Writer::new(positions_u, positions_n, at);
        put_positions(word, 0, &mut positions);
        positions.finish();
    }
    Ok(size)
}

/// Writes the block of the pages in this form; gives its size.
unsafe fn write_pages(form: Form, n: u32, pages: &[u32], room: *mut u8) -> usize {
    match form {
        Form::Runs => {
            let mut writer = Writer::new(n, pages.len() as u32, room);
            writer.put(pages);
            writer.finish()
        }
        Form::Bitmap => write_bitmap(n, pages, room),
    }
}

/// The positions' U, if counts and positions are valid.
pub fn positions_bound(word: &Word) -> Option<u64> {
    let positions = word.positions;
    let (mut end, mut bound) = (0_usize, 0_u64);
    // Positions may fall from one page to the next, and only there.
    let mut falls_between = 0_usize;
    for count in word.counts {
        let begin = end;
        end += *count as usize;
        if end == begin || end > positions.len() {
            return None;
        }
        bound += u64::from(positions[end - 1]) + 1;
        falls_between += usize::from(begin > 0 && positions[begin - 1] >= positions[begin]);
    }
    (end == positions.len() && falls_in(positions) == falls_between).then_some(bound)
}

/// The neighbours of a list that do not rise.
fn falls_in(list: &[u32]) -> usize {
    let stretches = list.chunks(1 << 20);
    let seams = (1..stretches.len()).map(|i| i << 20);
    let within: usize = stretches.map(|stretch| falls(stretch) as usize).sum();
    within + seams.filter(|i| list[i - 1] >= list[*i]).count()
}

/// Elements that are worked out before they are written.
const STRETCH: usize = 256;

const NOT_WORKED_OUT: [MaybeUninit<u32>; STRETCH] = [const { MaybeUninit::uninit() }; STRETCH];

/// Elements that have all been worked out.
#[inline(always)]
unsafe fn worked_out(elements: &[MaybeUninit<u32>]) -> &[u32] {
    &*(elements as *const [MaybeUninit<u32>] as *const [u32])
}

/// Writes the counts list, behind so many positions.
pub unsafe fn put_counts(counts: &[u32], before: u32, writer: &mut impl Elements) {
    let mut elements = NOT_WORKED_OUT;
    let mut sum = before;
    for stretch in counts.chunks(STRETCH) {
        for (element, count) in elements.iter_mut().zip(stretch) {
            sum += count;
            element.write(sum - 1);
        }
        writer.put(worked_out(&elements[..stretch.len()]));
    }
}

/// Writes the positions list, the first page's on this base.
pub unsafe fn put_positions(word: &Word, first_base: u32, writer: &mut impl Elements) {
    let mut elements = NOT_WORKED_OUT;
    let mut lasts = Lasts::of(word.counts);
    let mut base = first_base;
    for stretch in word.positions.chunks(STRETCH) {
        let parts = elements.chunks_mut(64).zip(stretch.chunks(64));
        for (elements, positions) in parts {
            let mut last = lasts.next_64();
            for (element, position) in elements.iter_mut().zip(positions) {
                let x = base + position;
                element.write(x);
                // The base of the next page, where this position is a page's last; without a branch.
                let turn = 0_u32.wrapping_sub(last as u32 & 1);
                base ^= (base ^ (x + 1)) & turn;
                last >>= 1;
            }
        }
        writer.put(worked_out(&elements[..stretch.len()]));
    }
}

/// Which positions are the last on their page, 64 at a time.
struct Lasts<'a> {
    counts: &'a [u32],
    /// The positions passed.
    at: usize,
    /// The first page whose last position is not passed, and the number of that position.
    page: usize,
    last: usize,
}

impl<'a> Lasts<'a> {
    fn of(counts: &'a [u32]) -> Lasts<'a> {
        Lasts {
            counts,
            at: 0,
            page: 0,
            last: counts.first().map_or(0, |count| *count as usize - 1),
        }
    }

    #[inline(always)]
    fn next_64(&mut self) -> u64 {
        let mut lasts = 0;
        while self.last < self.at + 64 {
            lasts |= 1 << (self.last - self.at);
            self.page += 1;
            let count = self.counts.get(self.page);
            self.last = count.map_or(usize::MAX, |count| self.last + *count as usize);
        }
        self.at += 64;
        lasts
    }
}
