//! The peer of the benchmark: the format of both editions written by hand to be fast, without proofs.
//!
//! It answers and refuses exactly as the library does, allocates nothing in a call, and builds no directory of a
//! card. It shares no code with the library. The calls are those of include/jundefola.h with the prefix `peer_`.

mod ask;
mod bitmap;
mod bits;
mod card;
mod check;
mod common;
mod cursor;
mod phrase;
mod screen;
mod shape;
mod stream;
mod term;
mod words;
mod write;

use std::slice;

/// The numbers of refusal.
mod refusal {
    pub const SHORT: u32 = 1;
    pub const LENGTH: u32 = 2;
    pub const VERSION: u32 = 3;
    pub const LIMIT: u32 = 4;
    pub const LAYOUT: u32 = 5;
    pub const RUNS: u32 = 6;
    pub const PARTS: u32 = 7;
    pub const QUESTION: u32 = 8;
    pub const ROOM: u32 = 9;
    pub const LISTS: u32 = 10;
}

/// What a writer reports.
#[repr(C)]
#[derive(Clone, Copy, Debug, PartialEq, Eq)]
pub struct Written {
    /// The refusal, 0 if none.
    pub refusal: u32,
    /// The bytes written, 0 on a refusal.
    pub length: usize,
}

/// What asking reports.
#[repr(C)]
#[derive(Clone, Copy, Debug, PartialEq, Eq)]
pub struct Asked {
    /// The refusal, 0 if none.
    pub refusal: u32,
    /// The questions answered whole.
    pub answered: usize,
    /// The numbers of the room that they use.
    pub used: usize,
}

/// What a screen reports.
#[repr(C)]
#[derive(Clone, Copy, Debug, PartialEq, Eq)]
pub struct Screened {
    /// The refusal, 0 if none.
    pub refusal: u32,
    /// The pages found.
    pub found: usize,
    /// 1 where as many were found as were asked for.
    pub full: u32,
    /// The bound of the next screen where this one is full, else 0.
    pub next: u32,
}

/// A session that writes a term run by run, as the host carries it.
#[repr(C)]
#[derive(Clone, Copy, Debug, PartialEq, Eq)]
pub struct Stream {
    /// 1 in a session that goes on.
    pub mark: u32,
    /// The edition of the index, as announced.
    pub version: u32,
    /// The pages of the card, as announced.
    pub n: u32,
    /// The pages announced.
    pub pages: u32,
    /// The positions announced.
    pub positions: u32,
    /// The positions' U announced.
    pub u: u32,
    /// The pages laid.
    pub laid: u32,
    /// The positions laid.
    pub filled: u32,
    /// The least page that may follow.
    pub page: u32,
    /// The base of the next page.
    pub base: u32,
}

/// What a call of a session reports.
#[repr(C)]
#[derive(Clone, Copy, Debug, PartialEq, Eq)]
pub struct Streamed {
    /// The refusal, 0 if none.
    pub refusal: u32,
    /// The block's length at a finished close, else 0.
    pub length: usize,
    /// The session for the next call.
    pub stream: Stream,
}

impl From<Result<usize, u32>> for Written {
    fn from(result: Result<usize, u32>) -> Written {
        match result {
            Ok(length) => Written { refusal: 0, length },
            Err(refusal) => Written { refusal, length: 0 },
        }
    }
}

fn number<T>(result: Result<T, u32>) -> u32 {
    result.err().unwrap_or(0)
}

/// A lent slice; its address may be null where it is empty.
unsafe fn lent<'a, T>(at: *const T, length: usize) -> &'a [T] {
    match length {
        0 => &[],
        _ => slice::from_raw_parts(at, length),
    }
}

/// A lent room; its address may be null where it is empty.
unsafe fn lent_room<'a, T>(at: *mut T, length: usize) -> &'a mut [T] {
    match length {
        0 => &mut [],
        _ => slice::from_raw_parts_mut(at, length),
    }
}

/// # Safety
/// Each address comes with its number of elements, and a room overlaps nothing.
#[no_mangle]
pub unsafe extern "C" fn peer_write_list(
    u: u32,
    list: *const u32,
    list_len: usize,
    room: *mut u8,
    room_len: usize,
) -> Written {
    write::write_list(u, lent(list, list_len), lent_room(room, room_len)).into()
}

/// # Safety
/// The address comes with its number of bytes.
#[no_mangle]
pub unsafe extern "C" fn peer_check_list(block: *const u8, block_len: usize) -> u32 {
    number(check::check_list(lent(block, block_len)))
}

/// # Safety
/// Each address comes with its number of elements, and a room overlaps nothing.
#[no_mangle]
pub unsafe extern "C" fn peer_write_term(
    version: u32,
    n: u32,
    pages: *const u32,
    pages_len: usize,
    counts: *const u32,
    counts_len: usize,
    positions: *const u32,
    positions_len: usize,
    room: *mut u8,
    room_len: usize,
) -> Written {
    let word = term::Word {
        pages: lent(pages, pages_len),
        counts: lent(counts, counts_len),
        positions: lent(positions, positions_len),
    };
    term::write_term(version, n, &word, lent_room(room, room_len)).into()
}

/// # Safety
/// The address comes with its number of bytes.
#[no_mangle]
pub unsafe extern "C" fn peer_begin_term(
    version: u32,
    n: u32,
    pages: u32,
    positions: u32,
    u: u32,
    room: *mut u8,
    room_len: usize,
) -> Streamed {
    let announced = stream::Announced {
        version,
        n,
        pages,
        positions,
        u,
    };
    stream::begin_term(&announced, lent_room(room, room_len))
}

/// # Safety
/// Each address comes with its number of elements, and a room overlaps nothing.
#[no_mangle]
pub unsafe extern "C" fn peer_put_postings(
    stream: Stream,
    pages: *const u32,
    pages_len: usize,
    counts: *const u32,
    counts_len: usize,
    positions: *const u32,
    positions_len: usize,
    room: *mut u8,
    room_len: usize,
) -> Streamed {
    let run = term::Word {
        pages: lent(pages, pages_len),
        counts: lent(counts, counts_len),
        positions: lent(positions, positions_len),
    };
    stream::put_postings(stream, &run, lent_room(room, room_len))
}

/// # Safety
/// The address comes with its number of bytes.
#[no_mangle]
pub unsafe extern "C" fn peer_end_term(stream: Stream, room: *mut u8, room_len: usize) -> Streamed {
    stream::end_term(stream, lent_room(room, room_len))
}

/// # Safety
/// The address comes with its number of bytes.
#[no_mangle]
pub unsafe extern "C" fn peer_check_term(version: u32, block: *const u8, block_len: usize) -> u32 {
    number(check::check_term(version, lent(block, block_len)))
}

/// # Safety
/// The address comes with its number of bytes.
#[no_mangle]
pub unsafe extern "C" fn peer_close_index(
    buffer: *mut u8,
    buffer_len: usize,
    used: usize,
    version: u32,
    n: u32,
    t: u32,
) -> Written {
    card::close_index(lent_room(buffer, buffer_len), used, version, n, t).into()
}

/// # Safety
/// The address comes with its number of bytes.
#[no_mangle]
pub unsafe extern "C" fn peer_check_index(card: *const u8, card_len: usize) -> u32 {
    number(card::check_index(lent(card, card_len)))
}

/// # Safety
/// Each address comes with its number of elements, and a room overlaps nothing.
#[no_mangle]
pub unsafe extern "C" fn peer_ask(
    card: *const u8,
    card_len: usize,
    questions: *const u32,
    questions_len: usize,
    room: *mut u32,
    room_len: usize,
) -> Asked {
    let questions = lent(questions, questions_len);
    ask::ask(lent(card, card_len), questions, lent_room(room, room_len))
}

/// # Safety
/// Each address comes with its number of elements, and a room overlaps nothing.
#[no_mangle]
pub unsafe extern "C" fn peer_screen(
    card: *const u8,
    card_len: usize,
    bound: u32,
    r: u32,
    words: *const u32,
    words_len: usize,
    pages: *mut u32,
    pages_len: usize,
    counts: *mut u32,
    counts_len: usize,
) -> Screened {
    let wanted = screen::Wanted {
        bound,
        count: r,
        words: lent(words, words_len),
    };
    let rooms = screen::Rooms {
        pages: lent_room(pages, pages_len),
        counts: lent_room(counts, counts_len),
    };
    screen::screen(lent(card, card_len), &wanted, rooms)
}
