//! A word written run by run: the room holds its block under way, as bytes in which bits are set one by one.

use super::bitmap::{self, BITS_PER_NUMBER};
use super::bits::{bytes_for_bits, bytes_to_run, place_of_bit};
use super::bytes::push_number;
use super::edition::{Edition, Form, Place};
use super::list::{places_after_zeros, Shape, LIST_HEADER};
use super::term::{Term, TERM_OPENING};
use super::{refusal, GREATEST_BOUND};
use std::ops::Range;

/// What is announced of a word.
#[repr(C)]
#[derive(Clone, Copy, Debug, Default, PartialEq, Eq)]
pub struct Announced {
    /// The version of the index that it is for.
    pub version: u32,
    /// N.
    pub card_pages: u32,
    /// The number of its pages.
    pub pages: u32,
    /// The number of its positions.
    pub positions: u32,
    /// The positions' U.
    pub bound: u32,
}

/// A session, as the host carries it from call to call.
#[repr(C)]
#[derive(Clone, Copy, Debug, Default, PartialEq, Eq)]
pub struct Stream {
    /// 1 in a session that goes on.
    pub mark: u32,
    /// What was announced.
    pub announced: Announced,
    /// The pages laid so far.
    pub laid: u32,
    /// The positions laid so far.
    pub filled: u32,
    /// The least page that the next run may begin with.
    pub page: u32,
    /// The base of the next page's positions.
    pub base: u32,
}

/// What each call of a session gives.
#[repr(C)]
#[derive(Clone, Copy, Debug, PartialEq, Eq)]
pub struct Streamed {
    /// The refusal, 0 if none.
    pub refusal: u32,
    /// The block's length at a finished close, else 0.
    pub length: usize,
    /// The session for the next call.
    pub stream: Stream,
}

/// The postings of some pages, as the writer of a term is handed those of a whole word.
#[derive(Clone, Debug, Default, PartialEq, Eq)]
pub struct Run {
    /// The pages.
    pub pages: Vec<u32>,
    /// The number of positions on each.
    pub counts: Vec<u32>,
    /// The positions, page after page.
    pub positions: Vec<u32>,
}

/// The mark of a session that goes on.
pub const GOING_ON: u32 = 1;

impl Announced {
    /// Refusal 3, 4 or 10, unless there is a word of these numbers.
    pub fn check(self) -> Result<(), u32> {
        Edition::of_version(self.version)?;
        if self.card_pages > GREATEST_BOUND || self.bound > GREATEST_BOUND {
            return Err(refusal::LIMIT);
        }
        let has_word = match self.pages {
            0 => self.positions == 0 && self.bound == 0,
            pages => pages <= self.card_pages.min(self.positions) && self.positions <= self.bound,
        };
        has_word.then_some(()).ok_or(refusal::INPUT)
    }

    /// The lists of a run by themselves, as those of a word of this index.
    pub fn run_alone(self, run: &Run) -> Result<Term, u32> {
        let edition = Edition::of_version(self.version)?;
        let Run {
            pages,
            counts,
            positions,
        } = run;
        Term::from_inputs(edition, self.card_pages, pages, counts, positions)
    }

    /// The length of the block, if there is a word of these numbers.
    pub fn block_length(self) -> Option<usize> {
        let parts = self.parts().ok()?;
        Some(parts[2].end())
    }

    /// The number of pointers in the block of such a word.
    pub fn pointers(self) -> usize {
        let parts = self.parts().into_iter().flatten();
        let in_runs = parts.filter(|part| part.form == Form::Runs);
        in_runs.map(|part| part.numbers().len() / 4).sum()
    }

    /// Where its pages are a bitmap: the place of the map in the block.
    pub fn bitmap(self) -> Option<Range<usize>> {
        let [pages, ..] = self.parts().ok()?;
        (pages.form == Form::Bitmap).then(|| pages.upper())
    }

    /// The lists of pages, counts and positions, one behind the other, or refusal 3, 4 or 10.
    fn parts(self) -> Result<[Part; 3], u32> {
        self.check()?;
        let edition = Edition::of_version(self.version)?;
        let part = |start, place, bound, count| {
            let form = edition.form(place, bound, count as usize);
            Part::at(start, form, bound, count)
        };
        let pages = part(TERM_OPENING, Place::Pages, self.card_pages, self.pages);
        let counts = part(pages.end(), Place::Counts, self.positions, self.pages);
        let positions = part(counts.end(), Place::Positions, self.bound, self.positions);
        Ok([pages, counts, positions])
    }
}

/// A list of the block under way: its form, U, n, and where it begins in the room.
struct Part {
    start: usize,
    form: Form,
    bound: u32,
    count: u32,
    shape: Shape,
}

impl Part {
    fn at(start: usize, form: Form, bound: u32, count: u32) -> Part {
        let empty = Shape { width: 0, zeros: 0 };
        let shape = match count {
            0 => empty,
            _ => Shape::of(bound, count as usize),
        };
        Part {
            start,
            form,
            bound,
            count,
            shape,
        }
    }

    /// The pointers, or the numbers of a bitmap.
    fn numbers(&self) -> Range<usize> {
        let start = self.start + LIST_HEADER;
        let count = match self.form {
            Form::Runs => self.shape.pointers(),
            Form::Bitmap => bitmap::numbers(self.bound),
        };
        start..start + 4 * count
    }

    fn lower(&self) -> Range<usize> {
        let start = self.numbers().end;
        let bits = match self.form {
            Form::Runs => self.count as usize * self.shape.width as usize,
            Form::Bitmap => 0,
        };
        start..start + bytes_for_bits(bits)
    }

    /// The upper run, or the map.
    fn upper(&self) -> Range<usize> {
        let start = self.lower().end;
        start..start + bytes_for_bits(self.upper_bits())
    }

    fn upper_bits(&self) -> usize {
        match self.form {
            Form::Runs => self.count as usize + self.shape.zeros,
            Form::Bitmap => self.bound as usize,
        }
    }

    fn end(&self) -> usize {
        self.upper().end
    }

    /// Length, version, U and n.
    fn header(&self) -> Vec<u8> {
        let mut header = Vec::new();
        push_number(&mut header, (self.end() - self.start) as u32);
        header.push(self.form.version());
        push_number(&mut header, self.bound);
        push_number(&mut header, self.count);
        header
    }

    /// Sets the ones of an element, by its number among all.
    fn set(&self, room: &mut [u8], number: usize, element: u32) {
        if self.form == Form::Bitmap {
            return set_bit(&mut room[self.upper()], element as usize);
        }
        let width = self.shape.width;
        for bit in (0..width).filter(|bit| element >> bit & 1 == 1) {
            let place = number * width as usize + bit as usize;
            set_bit(&mut room[self.lower()], place);
        }
        let place = (element >> width) as usize + number;
        set_bit(&mut room[self.upper()], place);
    }

    /// Writes the pointers, or the numbers, that the bits in the room give.
    fn put_numbers(&self, room: &mut [u8]) {
        let run = bytes_to_run(&room[self.upper()]);
        let run = &run[..self.upper_bits()];
        let numbers = match self.form {
            Form::Runs => self.pointers_in(run),
            Form::Bitmap => ones_up_to_each_number(run),
        };
        let mut bytes = Vec::new();
        numbers
            .iter()
            .for_each(|number| push_number(&mut bytes, *number));
        room[self.numbers()].copy_from_slice(&bytes);
    }

    /// The pointers of an upper run, the run's end where its zeros are too few.
    fn pointers_in(&self, run: &[bool]) -> Vec<u32> {
        let mut places = places_after_zeros(run);
        places.resize(self.shape.pointers(), run.len() as u32);
        places
    }
}

/// How many of the first 256 bits of a map are ones, of the first 512, and so on.
fn ones_up_to_each_number(map: &[bool]) -> Vec<u32> {
    let mut ones = 0;
    let whole = map.chunks_exact(BITS_PER_NUMBER as usize);
    let up_to = whole.map(|bits| {
        ones += bits.iter().filter(|bit| **bit).count() as u32;
        ones
    });
    up_to.collect()
}

fn set_bit(run: &mut [u8], place: usize) {
    let (byte, bit) = place_of_bit(place);
    run[byte] |= 1 << bit;
}

impl Stream {
    /// A session that is over.
    pub const OVER: Stream = Stream::of_numbers([0; 10]);

    /// The session of ten numbers in their order.
    pub const fn of_numbers(numbers: [u32; 10]) -> Stream {
        let [mark, version, card_pages, pages, positions, bound, laid, filled, page, base] =
            numbers;
        Stream {
            mark,
            announced: Announced {
                version,
                card_pages,
                pages,
                positions,
                bound,
            },
            laid,
            filled,
            page,
            base,
        }
    }

    /// Its ten numbers in their order.
    pub fn numbers(self) -> [u32; 10] {
        let Announced {
            version,
            card_pages,
            pages,
            positions,
            bound,
        } = self.announced;
        let Stream {
            mark,
            laid,
            filled,
            page,
            base,
            ..
        } = self;
        [
            mark, version, card_pages, pages, positions, bound, laid, filled, page, base,
        ]
    }

    /// Whether the session goes on: its announcement is a good one, and no more is laid than announced.
    pub fn goes_on(self) -> bool {
        let within = self.laid <= self.announced.pages && self.filled <= self.announced.positions;
        self.mark == GOING_ON && self.announced.check().is_ok() && within
    }

    /// The lists in a room that is long enough, or what a call gives before it reads anything else.
    fn open(self, room: &[u8]) -> Result<[Part; 3], Streamed> {
        let parts = match self.announced.parts() {
            Ok(parts) if self.goes_on() => parts,
            _ => return Err(ended(refusal::INPUT)),
        };
        match room.len() < parts[2].end() {
            true => Err(going_on(refusal::ROOM, self)),
            false => Ok(parts),
        }
    }

    /// The run as the next part of the word, each element as it stands in the word's own lists.
    ///
    /// The base behind the run is at most U, also where the run is empty and the host made up the base.
    fn next_part(self, run: &Run) -> Option<Term> {
        let mut term = self.announced.run_alone(run).ok()?;
        let in_order = run.pages.iter().all(|page| *page >= self.page);
        let pages = self.laid as usize + run.pages.len();
        let positions = self.filled as usize + run.positions.len();
        let end = u64::from(self.base) + u64::from(term.positions.bound);
        let fits = pages <= self.announced.pages as usize
            && positions <= self.announced.positions as usize
            && end <= u64::from(self.announced.bound);
        (in_order && fits).then(|| {
            let (counts, positions) = (&mut term.counts.elements, &mut term.positions.elements);
            counts.iter_mut().for_each(|x| *x += self.filled);
            positions.iter_mut().for_each(|x| *x += self.base);
            term
        })
    }

    /// The session behind a part of the word that has been laid.
    fn behind(self, laid: &Term) -> Stream {
        let last_page = laid.pages.elements.last();
        let last_position = laid.positions.elements.last();
        Stream {
            laid: self.laid + laid.pages.elements.len() as u32,
            filled: self.filled + laid.positions.elements.len() as u32,
            page: last_page.map_or(self.page, |page| page + 1),
            base: last_position.map_or(self.base, |element| element + 1),
            ..self
        }
    }

    /// Whether everything announced has been laid.
    fn is_whole(self) -> bool {
        let laid = (self.laid, self.filled, self.base);
        let Announced {
            pages,
            positions,
            bound,
            ..
        } = self.announced;
        laid == (pages, positions, bound)
    }
}

fn ended(refusal: u32) -> Streamed {
    going_on(refusal, Stream::OVER)
}

fn going_on(refusal: u32, stream: Stream) -> Streamed {
    Streamed {
        refusal,
        length: 0,
        stream,
    }
}

/// Announces a word: writes the headers of its block and clears the rest of it.
pub fn begin_term(announced: Announced, room: &mut [u8]) -> Streamed {
    let parts = match announced.parts() {
        Ok(parts) => parts,
        Err(refusal) => return ended(refusal),
    };
    let length = parts[2].end();
    if room.len() < length {
        return ended(refusal::ROOM);
    }
    let mut opening = Vec::new();
    push_number(&mut opening, length as u32);
    opening.push(1);
    room[..length].fill(0);
    room[..TERM_OPENING].copy_from_slice(&opening);
    for part in parts {
        room[part.start..part.start + LIST_HEADER].copy_from_slice(&part.header());
    }
    let stream = Stream {
        mark: GOING_ON,
        announced,
        ..Stream::OVER
    };
    going_on(0, stream)
}

/// Lays a run of postings behind those that are laid.
pub fn put_postings(stream: Stream, run: &Run, room: &mut [u8]) -> Streamed {
    let parts = match stream.open(room) {
        Ok(parts) => parts,
        Err(given) => return given,
    };
    let Some(term) = stream.next_part(run) else {
        room[..parts[2].end()].fill(0);
        return ended(refusal::INPUT);
    };
    let lists = [&term.pages, &term.counts, &term.positions];
    let laid = [stream.laid, stream.laid, stream.filled];
    for ((part, list), before) in parts.iter().zip(lists).zip(laid) {
        for (number, element) in list.elements.iter().enumerate() {
            part.set(room, before as usize + number, *element);
        }
    }
    going_on(0, stream.behind(&term))
}

/// Closes a word: writes the pointers and a bitmap's numbers, if all that was announced has been laid.
pub fn end_term(stream: Stream, room: &mut [u8]) -> Streamed {
    let parts = match stream.open(room) {
        Ok(parts) => parts,
        Err(given) => return given,
    };
    let length = parts[2].end();
    if !stream.is_whole() {
        room[..length].fill(0);
        return ended(refusal::INPUT);
    }
    parts.iter().for_each(|part| part.put_numbers(room));
    Streamed {
        refusal: 0,
        length,
        stream: Stream::OVER,
    }
}
