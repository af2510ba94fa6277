//! The library's C interface.

use second::host_calls::{Asked, HostCalls, Written};
use second::plain::screen::{Screened, Wanted};
use second::plain::stream::{Announced, Run, Stream, Streamed};
use second::screen_calls::ScreenCalls;
use second::stream_calls::StreamCalls;
use std::ptr;

#[link(name = "jundefola", kind = "static")]
extern "C" {
    fn jf_write_list(
        u: u32,
        list: *const u32,
        list_len: usize,
        room: *mut u8,
        room_len: usize,
    ) -> Written;
    fn jf_check_list(block: *const u8, block_len: usize) -> u32;
    fn jf_write_term(
        version: u32,
        n: u32,
        pages: *const u32,
        pages_len: usize,
        counts: *const u32,
        counts_len: usize,
        positions: *const u32,
        positions_len: usize,
        room: *mut u8,
        room_len: usize,
    ) -> Written;
    fn jf_begin_term(
        version: u32,
        n: u32,
        pages: u32,
        positions: u32,
        u: u32,
        room: *mut u8,
        room_len: usize,
    ) -> Streamed;
    fn jf_put_postings(
        stream: Stream,
        pages: *const u32,
        pages_len: usize,
        counts: *const u32,
        counts_len: usize,
        positions: *const u32,
        positions_len: usize,
        room: *mut u8,
        room_len: usize,
    ) -> Streamed;
    fn jf_end_term(stream: Stream, room: *mut u8, room_len: usize) -> Streamed;
    fn jf_check_term(version: u32, block: *const u8, block_len: usize) -> u32;
    fn jf_close_index(
        buffer: *mut u8,
        buffer_len: usize,
        used: usize,
        version: u32,
        n: u32,
        t: u32,
    ) -> Written;
    fn jf_check_index(card: *const u8, card_len: usize) -> u32;
    fn jf_ask(
        card: *const u8,
        card_len: usize,
        questions: *const u32,
        questions_len: usize,
        room: *mut u32,
        room_len: usize,
    ) -> Asked;
    fn jf_screen(
        card: *const u8,
        card_len: usize,
        bound: u32,
        r: u32,
        words: *const u32,
        words_len: usize,
        pages: *mut u32,
        pages_len: usize,
        counts: *mut u32,
        counts_len: usize,
    ) -> Screened;
}

/// The library in its archive, as one side of the comparison.
pub struct Archive;

/// The address of a lent list; null if it is empty, as a C host may have it.
fn address<T>(list: &[T]) -> *const T {
    match list.is_empty() {
        true => ptr::null(),
        false => list.as_ptr(),
    }
}

/// The address of a lent room; null if it is empty, as a C host may have it.
fn room_address<T>(room: &mut [T]) -> *mut T {
    match room.is_empty() {
        true => ptr::null_mut(),
        false => room.as_mut_ptr(),
    }
}

// Safety of each call: every address comes with the length of the slice that
// it was taken from, and the slice outlives the call.
impl HostCalls for Archive {
    fn write_list(&self, bound: u32, list: &[u32], room: &mut [u8]) -> Written {
        let (at, size) = (room_address(room), room.len());
        unsafe { jf_write_list(bound, address(list), list.len(), at, size) }
    }

    fn check_list(&self, block: &[u8]) -> u32 {
        unsafe { jf_check_list(address(block), block.len()) }
    }

    fn write_term(
        &self,
        version: u32,
        card_pages: u32,
        pages: &[u32],
        counts: &[u32],
        positions: &[u32],
        room: &mut [u8],
    ) -> Written {
        let (at, size) = (room_address(room), room.len());
        unsafe {
            jf_write_term(
                version,
                card_pages,
                address(pages),
                pages.len(),
                address(counts),
                counts.len(),
                address(positions),
                positions.len(),
                at,
                size,
            )
        }
    }

    fn check_term(&self, version: u32, block: &[u8]) -> u32 {
        unsafe { jf_check_term(version, address(block), block.len()) }
    }

    fn close_index(
        &self,
        buffer: &mut [u8],
        used: usize,
        version: u32,
        card_pages: u32,
        term_count: u32,
    ) -> Written {
        let (at, size) = (room_address(buffer), buffer.len());
        unsafe { jf_close_index(at, size, used, version, card_pages, term_count) }
    }

    fn check_index(&self, card: &[u8]) -> u32 {
        unsafe { jf_check_index(address(card), card.len()) }
    }

    fn ask(&self, card: &[u8], questions: &[u32], room: &mut [u32]) -> Asked {
        let (at, size) = (room_address(room), room.len());
        unsafe {
            jf_ask(
                address(card),
                card.len(),
                address(questions),
                questions.len(),
                at,
                size,
            )
        }
    }
}

impl ScreenCalls for Archive {
    fn screen(
        &self,
        card: &[u8],
        wanted: &Wanted,
        pages: &mut [u32],
        counts: &mut [u32],
    ) -> Screened {
        let (pages_at, pages_size) = (room_address(pages), pages.len());
        let (counts_at, counts_size) = (room_address(counts), counts.len());
        unsafe {
            jf_screen(
                address(card),
                card.len(),
                wanted.bound,
                wanted.most,
                address(&wanted.words),
                wanted.words.len(),
                pages_at,
                pages_size,
                counts_at,
                counts_size,
            )
        }
    }
}

impl StreamCalls for Archive {
    fn begin_term(&self, announced: Announced, room: &mut [u8]) -> Streamed {
        let (at, size) = (room_address(room), room.len());
        let Announced {
            version,
            card_pages,
            pages,
            positions,
            bound,
        } = announced;
        unsafe { jf_begin_term(version, card_pages, pages, positions, bound, at, size) }
    }

    fn put_postings(&self, stream: Stream, run: &Run, room: &mut [u8]) -> Streamed {
        let (at, size) = (room_address(room), room.len());
        unsafe {
            jf_put_postings(
                stream,
                address(&run.pages),
                run.pages.len(),
                address(&run.counts),
                run.counts.len(),
                address(&run.positions),
                run.positions.len(),
                at,
                size,
            )
        }
    }

    fn end_term(&self, stream: Stream, room: &mut [u8]) -> Streamed {
        let (at, size) = (room_address(room), room.len());
        unsafe { jf_end_term(stream, at, size) }
    }
}
