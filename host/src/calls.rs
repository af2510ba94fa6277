//! The archive's calls made safe, slices in and a typed report out; all of the crate's `unsafe` is here.

use std::mem;

use crate::Refusal;

/// The report of a writer, as the archive returns it.
#[repr(C)]
struct RawWritten {
    refusal: u32,
    length: usize,
}

/// The report of a session's call, as the archive returns it.
#[repr(C)]
struct RawStreamed {
    refusal: u32,
    length: usize,
    stream: Stream,
}

/// The report of asking, as the archive returns it.
#[repr(C)]
struct RawAsked {
    refusal: u32,
    answered: usize,
    used: usize,
}

/// The report of a screen, as the archive returns it.
#[repr(C)]
struct RawScreened {
    refusal: u32,
    found: usize,
    full: u32,
    next: u32,
}

extern "C" {
    fn jf_write_list(
        u: u32,
        list: *const u32,
        list_len: usize,
        room: *mut u8,
        room_len: usize,
    ) -> RawWritten;
    fn jf_check_list(block: *const u8, block_len: usize) -> u32;
    fn jf_write_term(
        version: u32,
        n: u32,
        pages: *const u32,
        pages_len: usize,
        counts: *const u32,
        counts_len: usize,
        positions: *const u32,
        positions_len: usize,
        room: *mut u8,
        room_len: usize,
    ) -> RawWritten;
    fn jf_begin_term(
        version: u32,
        n: u32,
        pages: u32,
        positions: u32,
        u: u32,
        room: *mut u8,
        room_len: usize,
    ) -> RawStreamed;
    fn jf_put_postings(
        stream: Stream,
        pages: *const u32,
        pages_len: usize,
        counts: *const u32,
        counts_len: usize,
        positions: *const u32,
        positions_len: usize,
        room: *mut u8,
        room_len: usize,
    ) -> RawStreamed;
    fn jf_end_term(stream: Stream, room: *mut u8, room_len: usize) -> RawStreamed;
    fn jf_check_term(version: u32, block: *const u8, block_len: usize) -> u32;
    fn jf_close_index(
        buffer: *mut u8,
        buffer_len: usize,
        used: usize,
        version: u32,
        n: u32,
        t: u32,
    ) -> RawWritten;
    fn jf_check_index(card: *const u8, card_len: usize) -> u32;
    fn jf_ask(
        card: *const u8,
        card_len: usize,
        questions: *const u32,
        questions_len: usize,
        room: *mut u32,
        room_len: usize,
    ) -> RawAsked;
    fn jf_screen(
        card: *const u8,
        card_len: usize,
        bound: u32,
        r: u32,
        words: *const u32,
        words_len: usize,
        pages: *mut u32,
        pages_len: usize,
        counts: *mut u32,
        counts_len: usize,
    ) -> RawScreened;
}

/// A session: where the writing of a word in runs stands. [`begin_term`] opens it, and each later call moves it on.
///
/// Its numbers are the library's own. The default is a session that is over.
#[repr(C)]
#[derive(Clone, Debug, Default, PartialEq, Eq)]
pub struct Stream {
    mark: u32,
    version: u32,
    n: u32,
    pages: u32,
    positions: u32,
    u: u32,
    laid: u32,
    filled: u32,
    page: u32,
    base: u32,
}

/// What asking reports.
#[derive(Clone, Copy, Debug, PartialEq, Eq)]
pub struct Asked {
    /// Why the run of questions ended early; none where all were answered.
    pub refusal: Option<Refusal>,
    /// How many questions were answered, whole and in order.
    pub answered: usize,
    /// How many numbers of the room their answers take.
    pub used: usize,
}

/// What a screen reports.
#[derive(Clone, Copy, Debug, PartialEq, Eq)]
pub struct Screened {
    /// How many pages were found.
    pub found: usize,
    /// The bound of the next screen, which is the last page plus 1; none where this one is not full.
    pub next: Option<u32>,
}

/// Writes the block of a list of strictly rising numbers, each below `u`, as runs to the start of the room; gives its
/// length.
///
/// [`list_room`](crate::list_room) tells how many bytes are enough. A refusal leaves the room as it was.
///
/// ```
/// use jundefola::{write_list, Refusal};
/// let mut room = [0; 32];
/// assert_eq!(write_list(44, &[3, 4, 7, 13, 14, 15, 21, 43], &mut room), Ok(29));
/// assert_eq!(write_list(44, &[4, 3], &mut room), Err(Refusal::Lists));
/// ```
pub fn write_list(u: u32, list: &[u32], room: &mut [u8]) -> Result<usize, Refusal> {
    // SAFETY: both slices are lent for the call, and the room is lent alone.
    length(unsafe { jf_write_list(u, list.as_ptr(), list.len(), room.as_mut_ptr(), room.len()) })
}

/// Checks the block of a list as runs, which has to fill the bytes given; a bitmap is [`Refusal::Version`].
pub fn check_list(block: &[u8]) -> Result<(), Refusal> {
    // SAFETY: the slice is lent for the call.
    accepted(unsafe { jf_check_list(block.as_ptr(), block.len()) })
}

/// Writes the term block of one word, for a card of this version with `n` pages, to the start of the room; gives its
/// length.
///
/// The version is that of an [`Edition`](crate::Edition), or any number: one that is not known is [`Refusal::Version`],
/// before all else. The word's pages rise and are below `n`; each has a count of at least 1; the positions follow page
/// after page and rise within a page. [`term_room`](crate::term_room) tells how many bytes are enough. A refusal leaves
/// the room as it was.
///
/// ```
/// use jundefola::{write_term, Edition, Refusal};
/// let mut room = [0; 100];
/// assert_eq!(write_term(Edition::Two, 3, &[1], &[2], &[0, 2], &mut room), Ok(84));
/// assert_eq!(write_term(7_u32, 3, &[1], &[2], &[0, 2], &mut room), Err(Refusal::Version));
/// ```
pub fn write_term(
    version: impl Into<u32>,
    n: u32,
    pages: &[u32],
    counts: &[u32],
    positions: &[u32],
    room: &mut [u8],
) -> Result<usize, Refusal> {
    // SAFETY: the slices are lent for the call, and the room is lent alone.
    length(unsafe {
        jf_write_term(
            version.into(),
            n,
            pages.as_ptr(),
            pages.len(),
            counts.as_ptr(),
            counts.len(),
            positions.as_ptr(),
            positions.len(),
            room.as_mut_ptr(),
            room.len(),
        )
    })
}

/// Announces a word that is written in runs, for a card of this version: so many of its `n` pages, so many positions,
/// and the positions' U.
///
/// All headers are written to the start of the room and the rest of the block is cleared;
/// [`term_room`](crate::term_room) tells how many bytes are enough. [`Refusal::Version`] (one that is not known),
/// [`Refusal::Limit`] (`n` or `u`), [`Refusal::Lists`] (numbers that no word has) and [`Refusal::Room`], in this order,
/// leave the room as it was.
///
/// [`TermWriter`](crate::TermWriter) holds session and room together, so that no other hand changes the room.
pub fn begin_term(
    version: impl Into<u32>,
    n: u32,
    pages: u32,
    positions: u32,
    u: u32,
    room: &mut [u8],
) -> Result<Stream, Refusal> {
    // SAFETY: the room is lent alone for the call.
    let begun = unsafe {
        jf_begin_term(
            version.into(),
            n,
            pages,
            positions,
            u,
            room.as_mut_ptr(),
            room.len(),
        )
    };
    accepted(begun.refusal).map(|()| begun.stream)
}

/// Lays the next run of a word's postings behind those in the room, which is lent as the last call left it.
///
/// The lists are those of [`write_term`], cut between two pages; a run may be empty. [`Refusal::Room`] leaves the room
/// and the session as they were. Bad postings are [`Refusal::Lists`]: the session is then over and its block all zero.
/// A session that is over is [`Refusal::Lists`] too, and leaves the room as it was.
pub fn put_postings(
    stream: &mut Stream,
    pages: &[u32],
    counts: &[u32],
    positions: &[u32],
    room: &mut [u8],
) -> Result<(), Refusal> {
    // SAFETY: the slices are lent for the call, and the room is lent alone.
    let put = unsafe {
        jf_put_postings(
            mem::take(stream),
            pages.as_ptr(),
            pages.len(),
            counts.as_ptr(),
            counts.len(),
            positions.as_ptr(),
            positions.len(),
            room.as_mut_ptr(),
            room.len(),
        )
    };
    *stream = put.stream;
    accepted(put.refusal)
}

/// Closes a word written in runs: writes its pointers and a bitmap's numbers, and gives the length of its block.
///
/// It refuses as [`put_postings`] does, with totals in place of postings: they are bad where the announced pages,
/// positions or U are not reached.
pub fn end_term(stream: &mut Stream, room: &mut [u8]) -> Result<usize, Refusal> {
    // SAFETY: the room is lent alone for the call.
    let ended = unsafe { jf_end_term(mem::take(stream), room.as_mut_ptr(), room.len()) };
    *stream = ended.stream;
    accepted(ended.refusal).map(|()| ended.length)
}

/// Checks a term block of a card of this version, which has to fill the bytes given.
///
/// The version is that of an [`Edition`](crate::Edition), or any number: one that is not known is [`Refusal::Version`],
/// behind [`Refusal::Short`] and [`Refusal::Length`] of the block as a whole.
pub fn check_term(version: impl Into<u32>, block: &[u8]) -> Result<(), Refusal> {
    // SAFETY: the slice is lent for the call.
    accepted(unsafe { jf_check_term(version.into(), block.as_ptr(), block.len()) })
}

/// Makes a card of this version of the `t` term blocks that lie in the buffer from byte
/// [`CARD_HEADER`](crate::CARD_HEADER) up to byte `used`; gives its length, which is `used`.
///
/// The version is that of an [`Edition`](crate::Edition), or any number: one that is not known is [`Refusal::Version`],
/// behind [`Refusal::Room`] and [`Refusal::Short`] of `used`. The blocks are checked as those of a card of this
/// version, and only the header is written. A refusal leaves the buffer as it was.
pub fn close_index(
    buffer: &mut [u8],
    used: usize,
    version: impl Into<u32>,
    n: u32,
    t: u32,
) -> Result<usize, Refusal> {
    // SAFETY: the buffer is lent alone for the call.
    length(unsafe {
        jf_close_index(
            buffer.as_mut_ptr(),
            buffer.len(),
            used,
            version.into(),
            n,
            t,
        )
    })
}

/// Checks a card, which has to fill the bytes given and states its version itself.
pub fn check_index(card: &[u8]) -> Result<(), Refusal> {
    // SAFETY: the slice is lent for the call.
    accepted(unsafe { jf_check_index(card.as_ptr(), card.len()) })
}

/// Checks a card and the questions, then answers them in turn into the room.
///
/// On [`Refusal::Room`] the answers before it stand, and one goes on from the first question that is not answered, with
/// more room. [`ask_all`](crate::ask_all) does so, and takes and gives typed values.
pub fn ask(card: &[u8], questions: &[u32], room: &mut [u32]) -> Asked {
    // SAFETY: the slices are lent for the call, and the room is lent alone.
    let asked = unsafe {
        jf_ask(
            card.as_ptr(),
            card.len(),
            questions.as_ptr(),
            questions.len(),
            room.as_mut_ptr(),
            room.len(),
        )
    };
    Asked {
        refusal: accepted(asked.refusal).err(),
        answered: asked.answered,
        used: asked.used,
    }
}

/// Checks a card, then finds the first `r` pages at or above the bound that all of the terms have, or fewer where no
/// more are left: they go to the front of `pages`, and the seeks and looks that finding them took to `counts`.
///
/// [`Refusal::Question`] is a bad `r` or bad terms: `r` is 1 to [`MAX_SCREEN`](crate::MAX_SCREEN), and there are 1 to 8
/// terms. [`Refusal::Room`] is too little room: `r` numbers are enough for the pages, and
/// [`SCREEN_COUNTS`](crate::SCREEN_COUNTS) for the counts. A refusal leaves both rooms as they were.
///
/// [`Screens`](crate::Screens) has the rooms, and goes from screen to screen.
pub fn screen(
    card: &[u8],
    bound: u32,
    r: u32,
    terms: &[u32],
    pages: &mut [u32],
    counts: &mut [u32],
) -> Result<Screened, Refusal> {
    // SAFETY: the slices are lent for the call, and each room is lent alone.
    let screened = unsafe {
        jf_screen(
            card.as_ptr(),
            card.len(),
            bound,
            r,
            terms.as_ptr(),
            terms.len(),
            pages.as_mut_ptr(),
            pages.len(),
            counts.as_mut_ptr(),
            counts.len(),
        )
    };
    accepted(screened.refusal).map(|()| Screened {
        found: screened.found,
        next: (screened.full == 1).then_some(screened.next),
    })
}

fn length(written: RawWritten) -> Result<usize, Refusal> {
    accepted(written.refusal).map(|()| written.length)
}

fn accepted(number: u32) -> Result<(), Refusal> {
    if number == 0 {
        return Ok(());
    }
    Err(Refusal::from_number(number).unwrap_or_else(|| {
        panic!("the archive refused with {number}, which is no number of a refusal")
    }))
}

#[cfg(test)]
mod tests {
    use super::*;
    use crate::{term_block, Edition};

    const FILL: u8 = 0xA5;

    /// The session of a word on two of 44 pages, with the first, page 4, laid at position 5.
    fn live() -> Stream {
        Stream {
            mark: 1,
            version: 2,
            n: 44,
            pages: 2,
            positions: 3,
            u: 9,
            laid: 1,
            filled: 1,
            page: 5,
            base: 6,
        }
    }

    /// What both later calls answer to a session, and the session and the room behind them.
    fn answers(stream: &Stream, bytes: usize) -> [(Option<Refusal>, Stream, Vec<u8>); 2] {
        let (mut put, mut put_room) = (stream.clone(), vec![FILL; bytes]);
        let put_refusal = put_postings(&mut put, &[15], &[2], &[0, 2], &mut put_room).err();
        let (mut end, mut end_room) = (stream.clone(), vec![FILL; bytes]);
        let end_refusal = end_term(&mut end, &mut end_room).err();
        [(put_refusal, put, put_room), (end_refusal, end, end_room)]
    }

    #[test]
    fn the_structs_are_laid_as_in_the_header() {
        assert_eq!((size_of::<Stream>(), align_of::<Stream>()), (40, 4));
        assert_eq!(mem::offset_of!(Stream, version), 4);
        assert_eq!(mem::offset_of!(Stream, base), 36);
        assert_eq!(mem::offset_of!(RawStreamed, length), size_of::<usize>());
        assert_eq!(mem::offset_of!(RawStreamed, stream), 2 * size_of::<usize>());
        assert_eq!(mem::offset_of!(RawScreened, found), size_of::<usize>());
        assert_eq!(mem::offset_of!(RawScreened, full), 2 * size_of::<usize>());
        assert_eq!(
            mem::offset_of!(RawScreened, next),
            4 + 2 * size_of::<usize>()
        );
    }

    #[test]
    fn a_session_is_the_announcement_and_how_far_it_is_laid() {
        let mut room = [FILL; 200];
        for edition in Edition::ALL {
            let mut stream = begin_term(edition, 44, 2, 3, 9, &mut room).unwrap();
            put_postings(&mut stream, &[4], &[1], &[5], &mut room).unwrap();
            let version = edition.version();
            assert_eq!(stream, Stream { version, ..live() });
        }
    }

    #[test]
    fn a_session_that_is_not_live_is_refused_in_any_room() {
        let wrong: [fn(&mut Stream); 14] = [
            |stream| stream.mark = 0,
            |stream| stream.mark = u32::MAX,
            |stream| stream.version = 0,
            |stream| stream.version = 3,
            |stream| stream.version = u32::MAX,
            |stream| stream.n = 16_777_217,
            |stream| stream.u = 16_777_217,
            |stream| stream.n = 1,
            |stream| stream.pages = 4,
            |stream| stream.u = 2,
            |stream| (stream.pages, stream.laid) = (0, 0),
            |stream| {
                (stream.pages, stream.positions) = (0, 0);
                (stream.laid, stream.filled) = (0, 0);
            },
            |stream| stream.laid = 3,
            |stream| stream.filled = 4,
        ];
        for change in wrong {
            let mut stream = live();
            change(&mut stream);
            for bytes in [0, 200] {
                let over = (Some(Refusal::Lists), Stream::default(), vec![FILL; bytes]);
                let expected = [over.clone(), over];
                assert_eq!(answers(&stream, bytes), expected, "{stream:?}");
            }
        }
    }

    /// Sessions that no call gave, but that are live: their postings, or totals, are refused.
    #[test]
    fn a_live_session_of_any_numbers_is_answered() {
        let strange: [fn(&mut Stream); 4] = [
            |stream| stream.page = u32::MAX,
            |stream| stream.base = u32::MAX,
            |stream| stream.laid = 2,
            |stream| stream.filled = 3,
        ];
        let block = term_block(Edition::Two, 44, &[4, 15], &[1, 2], &[5, 0, 2]);
        let length = block.unwrap().len();
        let cleared = [&vec![0; length][..], &[FILL; 3]].concat();
        for change in strange {
            let mut stream = live();
            change(&mut stream);
            let over = (Some(Refusal::Lists), Stream::default(), cleared.clone());
            let expected = [over.clone(), over];
            assert_eq!(answers(&stream, length + 3), expected, "{stream:?}");
            let short = (Some(Refusal::Room), stream.clone(), vec![FILL; length - 1]);
            let expected = [short.clone(), short];
            assert_eq!(answers(&stream, length - 1), expected, "{stream:?}");
        }
    }
}
