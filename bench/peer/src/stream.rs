//! The writer of a term run by run: all that is kept between calls is the session's numbers and the room.

use crate::bitmap::put_counts_of_bits;
use crate::bits::{put_number, select, sums, word};
use crate::check::TERM_OPENING;
use crate::shape::{is_edition, Form, Shape, GREATEST_BOUND, LIST_HEADER, TERM_VERSION};
use crate::term::{positions_bound, put_counts, put_positions, Word};
use crate::write::{is_valid, put_header, Elements};
use crate::{refusal, Stream, Streamed};

/// The mark of a session that goes on.
const LIVE: u32 = 1;

const OVER: Stream = Stream {
    mark: 0,
    version: 0,
    n: 0,
    pages: 0,
    positions: 0,
    u: 0,
    laid: 0,
    filled: 0,
    page: 0,
    base: 0,
};

fn streamed(refusal: u32, stream: Stream) -> Streamed {
    Streamed {
        refusal,
        length: 0,
        stream,
    }
}

/// The geometry of the block that a session writes.
struct Plan {
    pages: Shape,
    counts: Shape,
    positions: Shape,
}

impl Plan {
    #[inline(always)]
    fn of(stream: &Stream) -> Plan {
        match stream.pages {
            0 => Plan {
                pages: Shape::EMPTY,
                counts: Shape::EMPTY,
                positions: Shape::EMPTY,
            },
            pages => Plan {
                pages: Shape::of_pages(stream.version, stream.n, pages),
                counts: Shape::of_runs(stream.positions, pages),
                positions: Shape::of_runs(stream.u, stream.positions),
            },
        }
    }

    fn counts_at(&self) -> usize {
        TERM_OPENING + self.pages.size()
    }

    fn positions_at(&self) -> usize {
        self.counts_at() + self.counts.size()
    }

    fn size(&self) -> usize {
        self.positions_at() + self.positions.size()
    }

    /// Lays a run in stretches of elements, which are worked out first.
    unsafe fn lay_many(&self, stream: &Stream, run: &Word, at: *mut u8) {
        let mut pages = Adder::new(&self.pages, at.add(TERM_OPENING), stream.laid);
        match self.pages.form {
            Form::Runs => pages.put(run.pages),
            Form::Bitmap => pages.add_all::<false, true>(run.pages),
        }
        pages.finish();
        let mut counts = Adder::new(&self.counts, at.add(self.counts_at()), stream.laid);
        put_counts(run.counts, stream.filled, &mut counts);
        counts.finish();
        let third = at.add(self.positions_at());
        let mut positions = Adder::new(&self.positions, third, stream.filled);
        put_positions(run, stream.base, &mut positions);
        positions.finish();
    }

    /// Lays a run one element after the other.
    #[inline(always)]
    unsafe fn lay_few<const BITMAP: bool>(&self, stream: &Stream, run: &Word, at: *mut u8) {
        let mut pages = Adder::new(&self.pages, at.add(TERM_OPENING), stream.laid);
        let mut counts = Adder::new(&self.counts, at.add(self.counts_at()), stream.laid);
        let third = at.add(self.positions_at());
        let mut positions = Adder::new(&self.positions, third, stream.filled);
        let (mut sum, mut base, mut rest) = (stream.filled, stream.base, run.positions);
        for (page, count) in run.pages.iter().zip(run.counts) {
            let (on_page, after) = rest.split_at(*count as usize);
            match BITMAP {
                true => pages.add::<false, true>(*page),
                false => pages.add::<true, false>(*page),
            }
            sum += count;
            counts.add::<true, false>(sum - 1);
            let mut last = base;
            for position in on_page {
                last = base + position;
                positions.add::<true, false>(last);
            }
            (base, rest) = (last + 1, after);
        }
        pages.finish();
        counts.finish();
        positions.finish();
    }
}

/// The refusal of an announcement, its room aside.
#[inline(always)]
fn announcement(stream: &Stream) -> u32 {
    if !is_edition(stream.version) {
        return refusal::VERSION;
    }
    if stream.n > GREATEST_BOUND || stream.u > GREATEST_BOUND {
        return refusal::LIMIT;
    }
    let word = stream.pages <= stream.n && stream.pages <= stream.positions;
    let empty = stream.pages == 0 && stream.u > 0;
    match word && stream.positions <= stream.u && !empty {
        true => 0,
        false => refusal::LISTS,
    }
}

/// What is announced of a term.
pub struct Announced {
    /// The edition of its index.
    pub version: u32,
    pub n: u32,
    pub pages: u32,
    pub positions: u32,
    pub u: u32,
}

/// Writes the headers of a term's block, and clears the rest of it.
pub fn begin_term(announced: &Announced, room: &mut [u8]) -> Streamed {
    let Announced {
        version,
        n,
        pages,
        positions,
        u,
    } = *announced;
    let stream = Stream {
        mark: LIVE,
        version,
        n,
        pages,
        positions,
        u,
        ..OVER
    };
    let refused = announcement(&stream);
    if refused != 0 {
        return streamed(refused, OVER);
    }
    let plan = Plan::of(&stream);
    let size = plan.size();
    if size > room.len() {
        return streamed(refusal::ROOM, OVER);
    }
    room[..size].fill(0);
    unsafe {
        let at = room.as_mut_ptr();
        put_number(at, size as u32);
        *at.add(4) = TERM_VERSION;
        put_header(at.add(TERM_OPENING), &plan.pages, n, pages);
        put_header(at.add(plan.counts_at()), &plan.counts, positions, pages);
        put_header(at.add(plan.positions_at()), &plan.positions, u, positions);
    }
    streamed(0, stream)
}

/// The block of a live session whose room is large enough, or what the call gives at once.
#[inline(always)]
fn open(stream: &Stream, room: &[u8]) -> Result<Plan, Streamed> {
    let within = stream.laid <= stream.pages && stream.filled <= stream.positions;
    if stream.mark != LIVE || !within || announcement(stream) != 0 {
        return Err(streamed(refusal::LISTS, OVER));
    }
    let plan = Plan::of(stream);
    match plan.size() > room.len() {
        true => Err(streamed(refusal::ROOM, *stream)),
        false => Ok(plan),
    }
}

/// The pages of a run that is tested one number after the other, as it is too short for more at a time.
const FEW: usize = 8;

/// The positions' U of a run of few pages, if its counts and positions are valid.
#[inline(always)]
fn bound_of_few(run: &Word) -> Option<u64> {
    let (mut rest, mut bound) = (run.positions, 0_u64);
    for count in run.counts {
        let (page, after) = rest.split_at_checked(*count as usize)?;
        let last = page.last()?;
        if !page.is_sorted_by(|x, y| x < y) {
            return None;
        }
        bound += u64::from(*last) + 1;
        rest = after;
    }
    rest.is_empty().then_some(bound)
}

/// The base behind a run, if the run may follow.
#[inline(always)]
fn base_behind(stream: &Stream, run: &Word) -> Option<u32> {
    let follows = run.pages.first().is_none_or(|first| *first >= stream.page)
        && run.pages.len() <= (stream.pages - stream.laid) as usize
        && run.positions.len() <= (stream.positions - stream.filled) as usize
        && run.pages.len() == run.counts.len();
    if !follows {
        return None;
    }
    let (valid, bound) = match run.pages.len() {
        ..=FEW => (
            run.pages.is_sorted_by(|x, y| x < y) && run.pages.last().is_none_or(|x| *x < stream.n),
            bound_of_few(run)?,
        ),
        _ => (is_valid(stream.n, run.pages), positions_bound(run)?),
    };
    if !valid {
        return None;
    }
    let base = u64::from(stream.base) + bound;
    (base <= u64::from(stream.u)).then_some(base as u32)
}

/// Sets the ones of a run's elements.
pub fn put_postings(stream: Stream, run: &Word, room: &mut [u8]) -> Streamed {
    let plan = match open(&stream, room) {
        Ok(plan) => plan,
        Err(given) => return given,
    };
    let Some(base) = base_behind(&stream, run) else {
        room[..plan.size()].fill(0);
        return streamed(refusal::LISTS, OVER);
    };
    let Some(last) = run.pages.last() else {
        return streamed(0, stream);
    };
    // Safety: the block fits in the room, and every element has its place in it.
    unsafe {
        let at = room.as_mut_ptr();
        match (run.pages.len(), plan.pages.form) {
            (..=FEW, Form::Runs) => plan.lay_few::<false>(&stream, run, at),
            (..=FEW, Form::Bitmap) => plan.lay_few::<true>(&stream, run, at),
            _ => plan.lay_many(&stream, run, at),
        }
    }
    let next = Stream {
        laid: stream.laid + run.pages.len() as u32,
        filled: stream.filled + run.positions.len() as u32,
        page: last + 1,
        base,
        ..stream
    };
    streamed(0, next)
}

/// Writes the pointers and a bitmap's counts, if all that was announced is there.
pub fn end_term(stream: Stream, room: &mut [u8]) -> Streamed {
    let plan = match open(&stream, room) {
        Ok(plan) => plan,
        Err(given) => return given,
    };
    let laid = (stream.laid, stream.filled, stream.base);
    if laid != (stream.pages, stream.positions, stream.u) {
        room[..plan.size()].fill(0);
        return streamed(refusal::LISTS, OVER);
    }
    let at = room.as_mut_ptr();
    // Safety: the block fits in the room.
    unsafe {
        match plan.pages.form {
            Form::Runs => put_pointers(&plan.pages, at.add(TERM_OPENING)),
            Form::Bitmap => put_counts_of_bits(&plan.pages, at.add(TERM_OPENING)),
        }
        put_pointers(&plan.counts, at.add(plan.counts_at()));
        put_pointers(&plan.positions, at.add(plan.positions_at()));
    }
    Streamed {
        length: plan.size(),
        ..streamed(0, OVER)
    }
}

/// Writes the pointers that the upper run of a block gives; those it lacks zeros for are the run's end.
unsafe fn put_pointers(shape: &Shape, block: *mut u8) {
    let upper = block.add(shape.upper_at());
    let pointers = block.add(LIST_HEADER);
    let (mut number, mut before) = (0, 0);
    let mut k = 0;
    while number < shape.pointers && k < shape.upper_words {
        let zeros = !word(upper, k) & used_bits(shape.bits, k);
        let sums = sums(zeros);
        let count = (sums >> 56) as u32;
        let due = 256 * (number as u32 + 1);
        if before + count >= due {
            let place = select(zeros, sums, due - before - 1);
            put_number(pointers.add(4 * number), 64 * k as u32 + place + 1);
            number += 1;
        }
        before += count;
        k += 1;
    }
    for lacking in number..shape.pointers {
        put_number(pointers.add(4 * lacking), shape.bits);
    }
}

/// The bits of word number k that belong to a run of so many bits.
#[inline(always)]
fn used_bits(bits: u32, k: usize) -> u64 {
    match bits as usize - 64 * k {
        used @ ..=63 => (1 << used) - 1,
        _ => u64::MAX,
    }
}

/// Adds a one to a word of a run, or several.
#[inline(always)]
unsafe fn add_ones(run: *mut u8, k: usize, ones: u64) {
    let at = run.add(8 * k).cast::<[u8; 8]>();
    at.write((u64::from_be_bytes(at.read()) | ones).to_be_bytes());
}

/// Elements on their way into a block, whose ones are added to those that stand there.
#[derive(Clone, Copy)]
struct Adder {
    upper: *mut u8,
    lower: *mut u8,
    width: u32,
    /// The number of the next element.
    rank: u32,
    /// The upper word under way.
    upper_word: usize,
    upper_ones: u64,
    /// The lower word under way, and how many of its bits come before the next element's.
    lower_word: usize,
    lower_ones: u64,
    filled: u32,
}

impl Adder {
    #[inline(always)]
    unsafe fn new(shape: &Shape, block: *mut u8, rank: u32) -> Adder {
        let bit = rank as usize * shape.width as usize;
        Adder {
            upper: block.add(shape.upper_at()),
            lower: block.add(shape.lower_at()),
            width: shape.width,
            rank,
            upper_word: 0,
            upper_ones: 0,
            lower_word: bit / 64,
            lower_ones: 0,
            filled: bit as u32 % 64,
        }
    }

    /// Adds the ones of the next element; without LOW the width is known to be 0, and in a BITMAP its bit is itself.
    #[inline(always)]
    unsafe fn add<const LOW: bool, const BITMAP: bool>(&mut self, x: u32) {
        let width = self.width & 31;
        let high = if LOW { x >> width } else { x };
        let bit = if BITMAP { x } else { high + self.rank };
        self.rank += 1;
        let word = bit as usize / 64;
        if word != self.upper_word {
            add_ones(self.upper, self.upper_word, self.upper_ones);
            (self.upper_word, self.upper_ones) = (word, 0);
        }
        self.upper_ones |= 1 << (bit & 63);
        if LOW {
            let low = u64::from(x) & ((1 << width) - 1);
            self.lower_ones |= low << (self.filled & 63);
            self.filled += width;
            if self.filled >= 64 {
                add_ones(self.lower, self.lower_word, self.lower_ones);
                self.lower_word += 1;
                self.filled -= 64;
                self.lower_ones = low >> ((width - self.filled) & 63);
            }
        }
    }

    /// Adds elements, with all that is under way at hand.
    #[inline(always)]
    unsafe fn add_all<const LOW: bool, const BITMAP: bool>(&mut self, elements: &[u32]) {
        let mut own = *self;
        for x in elements {
            own.add::<LOW, BITMAP>(*x);
        }
        *self = own;
    }

    /// Adds what is still under way.
    #[inline(always)]
    unsafe fn finish(self) {
        add_ones(self.upper, self.upper_word, self.upper_ones);
        if self.lower_ones != 0 {
            add_ones(self.lower, self.lower_word, self.lower_ones);
        }
    }
}

impl Elements for Adder {
    unsafe fn put(&mut self, elements: &[u32]) {
        match self.width {
            0 => self.add_all::<false, false>(elements),
            _ => self.add_all::<true, false>(elements),
        }
    }
}
