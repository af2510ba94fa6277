//! The starts of a phrase on a page.

use crate::bits::number;
use crate::check::TERM_OPENING;
use crate::cursor::{Cursor, Place, NONE};
use crate::shape::known;

/// Positions that are tried in turn before one is sought.
const TRIED_IN_TURN: u32 = 8;

/// The positions of one word of a phrase, page after page.
#[derive(Clone, Copy)]
pub struct Places {
    counts: Cursor,
    positions: Cursor,
    /// A place of the positions' cursor at or before this page's first position.
    before: Place,
    /// How far behind a start the word stands.
    offset: u32,
    /// What is added to a start to get this word's element on this page.
    base: u32,
    /// The elements up to this page's last one.
    end: u32,
}

impl Places {
    /// The positions of no word.
    pub const NOWHERE: Places = Places {
        counts: Cursor::NOWHERE,
        positions: Cursor::NOWHERE,
        before: Cursor::NOWHERE.place,
        offset: 0,
        base: 0,
        end: 0,
    };

    /// The positions of an accepted term that stands so far behind a phrase's start.
    pub unsafe fn of(term: *const u8, offset: u32) -> Places {
        let pages = term.add(TERM_OPENING);
        let counts = pages.add(number(pages) as usize);
        let positions = counts.add(number(counts) as usize);
        let positions = Cursor::on_runs(positions);
        Places {
            counts: Cursor::on_runs(counts),
            positions,
            before: positions.place,
            offset,
            ..Places::NOWHERE
        }
    }

    /// The elements before and up to the last one of the page of this rank.
    #[inline(always)]
    unsafe fn span(&mut self, rank: u32) -> (u32, u32) {
        if self.counts.is_full() {
            return (rank, rank + 1);
        }
        if rank > 0 {
            self.counts.move_to(rank - 1);
        }
        let begin = self.counts.place.mark;
        self.counts.step();
        (begin, self.counts.place.mark)
    }

    /// The number of positions on the page of this rank.
    #[inline(always)]
    pub unsafe fn count(&mut self, rank: u32) -> u32 {
        let (begin, end) = self.span(rank);
        end - begin
    }

    /// Makes ready for the page of this rank.
    #[inline(always)]
    unsafe fn turn_to(&mut self, rank: u32) {
        let (begin, end) = self.span(rank);
        if self.positions.place.passed > begin {
            self.positions.place = self.before;
        }
        if begin > 0 {
            self.positions.move_to(begin - 1);
        }
        self.before = self.positions.place;
        self.base = self.before.mark + self.offset;
        self.end = end;
    }

    /// The first start at or above this one at which this word allows a phrase, or `NONE`.
    #[inline(always)]
    unsafe fn seek(&mut self, start: u32) -> u32 {
        let bound = self.base + start;
        for _ in 0..TRIED_IN_TURN {
            if self.positions.place.mark > bound {
                return self.positions.place.mark - 1 - self.base;
            }
            if self.positions.place.passed == self.end {
                return NONE;
            }
            self.positions.step();
        }
        self.seek_further(bound)
    }

    #[cold]
    #[inline(never)]
    unsafe fn seek_further(&mut self, bound: u32) -> u32 {
        let element = self.positions.seek::<{ known::RUNS }>(bound, &mut 0);
        if element == NONE || self.positions.place.passed > self.end {
            // Behind this page no start is sought on it.
            return NONE;
        }
        element - self.base
    }
}

/// The number of starts on a page; `words` stand in the order in which they are tried, and `rank_of` gives the page's
/// rank among the pages of the word at a place.
#[inline(always)]
pub unsafe fn starts(words: &mut [Places], rank_of: impl Fn(usize) -> u32) -> u32 {
    let (mut found, mut start, mut ready) = (0, 0, 0);
    'starts: loop {
        for i in 0..words.len() {
            let word = words.get_unchecked_mut(i);
            if i == ready {
                word.turn_to(rank_of(i));
                ready += 1;
            }
            let next = word.seek(start);
            if next != start {
                if next == NONE {
                    return found;
                }
                start = next;
                continue 'starts;
            }
        }
        found += 1;
        start += 1;
    }
}
