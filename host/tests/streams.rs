//! Words written in runs: every way of cutting gives the block of the whole word, and each refusal leaves the room and
//! the session as it should.

use jundefola::{
    begin_term, close_index, end_term, put_postings, term_block, term_room, Announcement,
    CardWriter, Edition, Refusal, Stream, TermWriter, CARD_HEADER,
};

const FILL: u8 = 0xA5;
const LIMIT: u32 = 16_777_216;
const LONG_N: u32 = 6_001;

/// The postings of some pages, as the writers take them.
#[derive(Clone, Debug, Default)]
struct Postings {
    pages: Vec<u32>,
    counts: Vec<u32>,
    positions: Vec<u32>,
}

impl Postings {
    fn new(pages: &[u32], counts: &[u32], positions: &[u32]) -> Postings {
        Postings {
            pages: pages.to_vec(),
            counts: counts.to_vec(),
            positions: positions.to_vec(),
        }
    }

    /// These postings and a page behind them.
    fn with(&self, page: u32, positions: &[u32]) -> Postings {
        Postings {
            pages: [&self.pages[..], &[page]].concat(),
            counts: [&self.counts[..], &[positions.len() as u32]].concat(),
            positions: [&self.positions, positions].concat(),
        }
    }

    /// The postings of the first pages, and of those behind them.
    fn cut(&self, pages: usize) -> [Postings; 2] {
        let positions = self.counts[..pages].iter().sum::<u32>() as usize;
        let (first_pages, pages_behind) = self.pages.split_at(pages);
        let (first_counts, counts_behind) = self.counts.split_at(pages);
        let (first_positions, positions_behind) = self.positions.split_at(positions);
        [
            Postings::new(first_pages, first_counts, first_positions),
            Postings::new(pages_behind, counts_behind, positions_behind),
        ]
    }

    /// The runs that cuts in front of these pages make, counted from 0.
    fn runs(&self, cuts: impl IntoIterator<Item = usize>) -> Vec<Postings> {
        let mut runs = Vec::new();
        let mut rest = self.clone();
        let mut before = 0;
        for cut in cuts {
            let [run, behind] = rest.cut(cut - before);
            runs.push(run);
            rest = behind;
            before = cut;
        }
        runs.push(rest);
        runs
    }

    fn announced(&self) -> Announcement {
        let mut announced = Announcement::default();
        announced.add(&self.counts, &self.positions);
        announced
    }

    /// The block of the whole word.
    fn block(&self, edition: Edition, n: u32) -> Vec<u8> {
        term_block(edition, n, &self.pages, &self.counts, &self.positions).unwrap()
    }

    fn put_into(&self, writer: &mut TermWriter) -> Result<(), Refusal> {
        writer.put(&self.pages, &self.counts, &self.positions)
    }

    fn put_raw(&self, stream: &mut Stream, room: &mut [u8]) -> Result<(), Refusal> {
        put_postings(stream, &self.pages, &self.counts, &self.positions, room)
    }
}

/// Writes a word in these runs and compares it with the word written at once, in both editions; three bytes lie behind
/// the block.
fn assert_written(n: u32, whole: &Postings, runs: &[Postings]) {
    for edition in Edition::ALL {
        let block = whole.block(edition, n);
        let mut room = vec![FILL; block.len() + 3];
        let mut writer = TermWriter::begin(edition, n, whole.announced(), &mut room).unwrap();
        for run in runs {
            run.put_into(&mut writer).unwrap();
        }
        assert_eq!(writer.finish(), Ok(block.len()));
        assert_eq!(room, [&block[..], &[FILL; 3]].concat(), "{runs:?}");
    }
}

/// Each word on pages below 4 that stands on each of them nowhere, or at one of these sets of positions.
fn small_words() -> Vec<Postings> {
    let places: [&[u32]; 4] = [&[0], &[70], &[0, 1], &[3, 4, 300]];
    let mut words = vec![Postings::default()];
    for page in 0..4 {
        for word in words.clone() {
            words.extend(places.map(|positions| word.with(page, positions)));
        }
    }
    words
}

/// A word of a card with `LONG_N` pages that has pointers in each of its lists.
fn long_word() -> Postings {
    let places = |i: u32| (0..1 + i % 3).map(move |j| 5 * j + i % 7);
    Postings {
        pages: (0..2_000).map(|i| 3 * i + i % 2).collect(),
        counts: (0..2_000).map(|i| 1 + i % 3).collect(),
        positions: (0..2_000).flat_map(places).collect(),
    }
}

/// A cut is made, or not, in front of each page and behind the last: at either end it gives an empty run.
#[test]
fn small_words_cut_in_all_ways() {
    let words = small_words();
    assert_eq!(words.len(), 5 * 5 * 5 * 5);
    for word in words {
        let places = word.pages.len() + 1;
        for cuts in 0..1_u32 << places {
            let runs = word.runs((0..places).filter(|place| cuts >> place & 1 == 1));
            assert_written(4, &word, &runs);
        }
    }
}

#[test]
fn empty_runs_change_nothing() {
    for word in small_words().iter().step_by(7) {
        let each_twice = (0..=word.pages.len()).flat_map(|place| [place, place]);
        assert_written(4, word, &word.runs(each_twice));
    }
}

#[test]
fn a_long_word_in_runs_of_many_lengths() {
    let word = long_word();
    let pages = word.pages.len();
    for length in [1, 2, 63, 64, 65, 255, 256, 257, 1_000, pages] {
        assert_written(LONG_N, &word, &word.runs((length..pages).step_by(length)));
    }
}

#[test]
fn a_long_word_cut_in_two() {
    let word = long_word();
    for cut in (0..=word.pages.len()).step_by(37) {
        assert_written(LONG_N, &word, &word.cut(cut));
    }
}

#[test]
fn n_and_u_at_their_limit() {
    let word = Postings::new(&[0, LIMIT - 1], &[1, 1], &[0, LIMIT - 2]);
    assert_eq!(word.announced().u, LIMIT);
    assert_written(LIMIT, &word, &word.cut(1));
}

/// S9's block behind the announcement and behind its one run, which leaves nothing to the close.
#[test]
fn the_headers_come_first() {
    let word = Postings::new(&[1], &[2], &[0, 2]);
    let block = word.block(Edition::Two, 3);
    let mut headers = block.clone();
    for run in [18..26, 26..34, 47..55, 55..63, 76..84] {
        headers[run].fill(0);
    }
    let mut room = vec![FILL; block.len()];
    let mut stream = begin_term(Edition::Two, 3, 1, 2, 3, &mut room).unwrap();
    assert_eq!(room, headers);
    word.put_raw(&mut stream, &mut room).unwrap();
    assert_eq!(room, block);
}

/// The table of docs/FORMAT.md: the lower and the upper run of the pages of S12's second word, page by page.
#[test]
fn bits_not_reached_are_0() {
    let runs = |room: &[u8]| {
        [(18, room[25]), (26, room[33])].map(|(at, last)| {
            assert_eq!(room[at..at + 7], [0; 7]);
            last
        })
    };
    let mut room = vec![FILL; term_room(2, 2)];
    let mut stream = begin_term(Edition::Two, 44, 2, 2, 2, &mut room).unwrap();
    assert_eq!(runs(&room), [0, 0]);
    put_postings(&mut stream, &[4], &[1], &[0], &mut room).unwrap();
    assert_eq!(runs(&room), [0x04, 0x01]);
    put_postings(&mut stream, &[15], &[1], &[0], &mut room).unwrap();
    assert_eq!(runs(&room), [0xF4, 0x03]);
}

/// The pointers of runs, and the numbers of a bitmap, by the byte at which each list starts.
#[test]
fn the_pointers_and_numbers_come_last() {
    let word = Postings::new(&(0..300).collect::<Vec<_>>(), &[1; 300], &[0; 300]);
    for (edition, last) in [
        (
            Edition::One,
            [(5, 512_u32), (5 + 97, 512), (5 + 97 + 97, 512)],
        ),
        (Edition::Two, [(5, 256), (5 + 57, 512), (5 + 57 + 97, 512)]),
    ] {
        let block = word.block(edition, 300);
        let mut room = vec![FILL; block.len()];
        let mut stream = begin_term(edition, 300, 300, 300, 300, &mut room).unwrap();
        word.put_raw(&mut stream, &mut room).unwrap();
        for (list, _) in last {
            assert_eq!(room[list + 13..list + 17], [0; 4]);
        }
        assert_eq!(end_term(&mut stream, &mut room), Ok(block.len()));
        for (list, number) in last {
            assert_eq!(room[list + 13..list + 17], number.to_be_bytes());
        }
        assert_eq!(room, block);
    }
}

#[test]
fn an_announcement_is_refused_with_the_room_unchanged() {
    use Refusal::{Limit, Lists, Room};
    let refused = [
        (LIMIT + 1, 0, 0, 0, Limit),
        (3, 1, 1, LIMIT + 1, Limit),
        (0, u32::MAX, 0, u32::MAX, Limit),
        (0, 1, 1, 1, Lists),
        (3, 2, 1, 1, Lists),
        (3, 1, 2, 1, Lists),
        (3, 0, 1, 1, Lists),
        (3, 0, 0, 1, Lists),
        (LIMIT, LIMIT, LIMIT, LIMIT, Room),
    ];
    for (n, pages, positions, u, refusal) in refused {
        let announced = Announcement {
            pages,
            positions,
            u,
        };
        for bytes in [0, 100] {
            let mut room = vec![FILL; bytes];
            let writer = TermWriter::begin(Edition::Two, n, announced, &mut room);
            assert_eq!(writer.err(), Some(refusal), "{n} {announced:?}");
            assert_eq!(room, vec![FILL; bytes]);
        }
    }
}

#[test]
fn an_unknown_version_is_refused_before_all_else() {
    for version in [0, 3, 256, u32::MAX] {
        for (n, pages, positions, u) in [(3, 1, 2, 3), (LIMIT + 1, 0, 0, 0), (0, 1, 1, 1)] {
            for bytes in [0, 200] {
                let mut room = vec![FILL; bytes];
                let begun = begin_term(version, n, pages, positions, u, &mut room);
                assert_eq!(begun, Err(Refusal::Version), "{version} {n}");
                assert_eq!(room, vec![FILL; bytes]);
            }
        }
    }
}

#[test]
fn an_announcement_needs_the_room_of_the_block() {
    let mut room = [FILL; 84];
    assert_eq!(
        begin_term(Edition::Two, 3, 1, 2, 3, &mut room[..83]),
        Err(Refusal::Room)
    );
    assert_eq!(room, [FILL; 84]);
    assert!(begin_term(Edition::Two, 3, 1, 2, 3, &mut room).is_ok());
}

/// Lends a check the session of a word on pages 4 and 15 of 44, behind the first of them, and its room, which has three
/// bytes more than the block.
fn with_first_page(check: impl Fn(&mut Stream, &mut [u8])) {
    let length = term_block(Edition::Two, 44, &[4, 15], &[1, 2], &[5, 0, 2])
        .unwrap()
        .len();
    let mut room = vec![FILL; length + 3];
    let mut stream = begin_term(Edition::Two, 44, 2, 3, 9, &mut room).unwrap();
    let first = Postings::new(&[4], &[1], &[5]);
    first.put_raw(&mut stream, &mut room).unwrap();
    check(&mut stream, &mut room);
}

/// The room behind a 10: the block is all zero, and what lies behind it is as it was.
fn assert_cleared(stream: &Stream, room: &[u8]) {
    let (block, behind) = room.split_at(room.len() - 3);
    assert!(block.iter().all(|byte| *byte == 0));
    assert_eq!(behind, [FILL; 3]);
    assert_eq!(*stream, Stream::default());
}

/// Every call of a session that is over is 10, in any room, and leaves it as it was.
fn assert_over(stream: &mut Stream) {
    for bytes in [0, 43, 200] {
        let mut room = vec![FILL; bytes];
        let word = Postings::new(&[15], &[2], &[0, 2]);
        assert_eq!(word.put_raw(stream, &mut room), Err(Refusal::Lists));
        let nothing = Postings::default();
        assert_eq!(nothing.put_raw(stream, &mut room), Err(Refusal::Lists));
        assert_eq!(end_term(stream, &mut room), Err(Refusal::Lists));
        assert_eq!(room, vec![FILL; bytes]);
        assert_eq!(*stream, Stream::default());
    }
}

#[test]
fn bad_postings_clear_the_block_and_end_the_session() {
    let run = Postings::new;
    let bad = [
        ("the same page again", run(&[4], &[2], &[0, 2])),
        ("a lower page", run(&[3], &[2], &[0, 2])),
        ("a page not below n", run(&[44], &[2], &[0, 2])),
        ("a page without a count", run(&[15], &[], &[])),
        ("a count without a page", run(&[], &[1], &[0])),
        ("a count of 0", run(&[15], &[0], &[])),
        ("fewer positions than counted", run(&[15], &[2], &[0])),
        ("more positions than counted", run(&[15], &[1], &[0, 2])),
        (
            "counts past 32 bits",
            run(&[15, 16], &[u32::MAX, 3], &[0, 2]),
        ),
        ("equal positions", run(&[15], &[2], &[2, 2])),
        ("a falling position", run(&[15], &[2], &[2, 0])),
        (
            "more pages than announced",
            run(&[15, 16], &[1, 1], &[0, 1]),
        ),
        (
            "more positions than announced",
            run(&[15], &[3], &[0, 1, 2]),
        ),
        ("a position past the announced u", run(&[15], &[2], &[0, 3])),
    ];
    for (what, postings) in bad {
        with_first_page(|stream, room| {
            let put = postings.put_raw(stream, room);
            assert_eq!(put, Err(Refusal::Lists), "{what}");
            assert_cleared(stream, room);
            assert_over(stream);
        });
    }
}

#[test]
fn a_position_past_the_limit_is_past_the_announcement() {
    with_first_page(|stream, room| {
        let run = Postings::new(&[15], &[1], &[u32::MAX]);
        assert_eq!(run.put_raw(stream, room), Err(Refusal::Lists));
        assert_cleared(stream, room);
    });
}

#[test]
fn totals_that_are_not_reached_clear_the_block() {
    let nothing = Postings::default();
    let page_missing = nothing.with(4, &[0, 1, 8]);
    let position_missing = nothing.with(4, &[5]).with(15, &[2]);
    let u_missing = nothing.with(4, &[5]).with(15, &[0, 1]);
    for word in [nothing, page_missing, position_missing, u_missing] {
        let length = term_block(Edition::Two, 44, &[4, 15], &[1, 2], &[5, 0, 2])
            .unwrap()
            .len();
        let mut room = vec![FILL; length + 3];
        let mut stream = begin_term(Edition::Two, 44, 2, 3, 9, &mut room).unwrap();
        word.put_raw(&mut stream, &mut room).unwrap();
        assert_eq!(end_term(&mut stream, &mut room), Err(Refusal::Lists));
        assert_cleared(&stream, &room);
        assert_over(&mut stream);
    }
}

#[test]
fn a_finished_word_takes_nothing_more() {
    with_first_page(|stream, room| {
        let rest = Postings::new(&[15], &[2], &[0, 2]);
        rest.put_raw(stream, room).unwrap();
        let length = room.len() - 3;
        assert_eq!(end_term(stream, room), Ok(length));
        let block = term_block(Edition::Two, 44, &[4, 15], &[1, 2], &[5, 0, 2]).unwrap();
        assert_eq!(room[..length], block);
        assert_over(stream);
    });
}

/// A room shorter than the block is 9 before bad postings are read, and the session goes on, at the close too.
#[test]
fn a_short_room_ends_no_session() {
    with_first_page(|stream, room| {
        let block = term_block(Edition::Two, 44, &[4, 15], &[1, 2], &[5, 0, 2]).unwrap();
        let rest = Postings::new(&[15], &[2], &[0, 2]);
        let bad = Postings::new(&[4], &[0], &[9, 9]);
        let before = (stream.clone(), room.to_vec());
        for bytes in [0, 4, block.len() - 1] {
            let short = &mut room[..bytes];
            assert_eq!(rest.put_raw(stream, short), Err(Refusal::Room));
            assert_eq!(bad.put_raw(stream, short), Err(Refusal::Room));
            assert_eq!(end_term(stream, short), Err(Refusal::Room));
        }
        assert_eq!((stream.clone(), room.to_vec()), before);

        rest.put_raw(stream, room).unwrap();
        let before = (stream.clone(), room.to_vec());
        let short = &mut room[..block.len() - 1];
        assert_eq!(end_term(stream, short), Err(Refusal::Room));
        assert_eq!((stream.clone(), room.to_vec()), before);

        assert_eq!(end_term(stream, room), Ok(block.len()));
        assert_eq!(room[..block.len()], block);
    });
}

#[test]
fn the_room_may_move_between_calls() {
    let word = Postings::new(&[4, 15], &[1, 2], &[5, 0, 2]);
    let block = word.block(Edition::Two, 44);
    let mut room = vec![FILL; block.len()];
    let mut stream = begin_term(Edition::Two, 44, 2, 3, 9, &mut room).unwrap();
    for run in word.cut(1) {
        room = [&room[..], &[FILL]].concat();
        run.put_raw(&mut stream, &mut room).unwrap();
    }
    assert_eq!(end_term(&mut stream, &mut room), Ok(block.len()));
    assert_eq!(room, [&block[..], &[FILL; 2]].concat());
}

/// The table of docs/FORMAT.md: the bitmap of pump's pages, cut in front of page 12, and no number.
#[test]
fn bits_of_a_bitmap_are_set_run_by_run() {
    let pages = [0, 1, 2, 5, 8, 9, 12, 16, 18, 23, 28, 35, 39];
    let word = Postings::new(&pages, &[1; 13], &[0; 13]);
    let mut room = vec![FILL; word.block(Edition::Two, 40).len()];
    let mut stream = begin_term(Edition::Two, 40, 13, 13, 13, &mut room).unwrap();
    let header = [0, 0, 0, 0x15, 2, 0, 0, 0, 40, 0, 0, 0, 13];
    let assert_map = |room: &[u8], map: u64| {
        assert_eq!(room[5..26], [&header[..], &map.to_be_bytes()].concat());
    };
    assert_map(&room, 0);
    for (run, map) in word.cut(6).iter().zip([0x327, 0x88_1085_1327]) {
        run.put_raw(&mut stream, &mut room).unwrap();
        assert_map(&room, map);
    }
    end_term(&mut stream, &mut room).unwrap();
    assert_map(&room, 0x88_1085_1327);
}

/// The close counts the ones that are there, spare bits aside, as far as a number reaches.
#[test]
fn numbers_are_taken_from_the_bits_that_are_there() {
    let pages: Vec<u32> = (0..300).step_by(2).collect();
    let word = Postings::new(&pages, &[1; 150], &[0; 150]);
    let mut expected = word.block(Edition::Two, 300);
    // the map starts behind the term's header, the list's header and one number: bit 1, bit 299 and a spare bit
    let map = 5 + 13 + 4;
    let host_bits = [(map + 7, 1 << 1), (map + 34, 1 << 3), (map + 32, 1 << 7)];
    let number = 5 + 13..map;
    expected[number].copy_from_slice(&129_u32.to_be_bytes());
    let mut room = vec![FILL; expected.len()];
    let mut stream = begin_term(Edition::Two, 300, 150, 150, 150, &mut room).unwrap();
    for (at, bit) in host_bits {
        room[at] |= bit;
        expected[at] |= bit;
    }
    word.put_raw(&mut stream, &mut room).unwrap();
    assert_eq!(end_term(&mut stream, &mut room), Ok(expected.len()));
    assert_eq!(room, expected);
}

/// A one that the host sets stays: the block is then not that of the word.
#[test]
fn ones_are_set_into_what_is_there() {
    let word = Postings::new(&[1], &[2], &[0, 2]);
    let mut expected = word.block(Edition::Two, 3);
    expected[76] |= 0x80;
    let mut room = vec![0; expected.len()];
    let mut stream = begin_term(Edition::Two, 3, 1, 2, 3, &mut room).unwrap();
    room[76] = 0x80;
    word.put_raw(&mut stream, &mut room).unwrap();
    assert_eq!(end_term(&mut stream, &mut room), Ok(expected.len()));
    assert_eq!(room, expected);
}

#[test]
fn a_writer_goes_no_further_behind_bad_postings() {
    let mut room = [FILL; 100];
    let word = Postings::new(&[1], &[2], &[0, 2]);
    let mut writer = TermWriter::begin(Edition::Two, 3, word.announced(), &mut room).unwrap();
    assert_eq!(writer.put(&[3], &[1], &[0]), Err(Refusal::Lists));
    assert_eq!(word.put_into(&mut writer), Err(Refusal::Lists));
    assert_eq!(writer.finish(), Err(Refusal::Lists));
    assert_eq!(room[..84], [0; 84]);
    assert_eq!(room[84..], [FILL; 16]);
}

#[test]
fn a_word_that_is_refused_gives_its_room_back() {
    let mut room = [FILL; 100];
    let word = Postings::new(&[1], &[2], &[0, 2]);
    let mut writer = TermWriter::begin(Edition::Two, 3, word.announced(), &mut room).unwrap();
    assert_eq!(writer.put(&[3], &[1], &[0]), Err(Refusal::Lists));
    let (writer, behind) = writer.split();
    assert_eq!(behind.len(), 100);
    let (writer, behind) = writer.split();
    assert_eq!(behind.len(), 0);
    assert_eq!(writer.finish(), Err(Refusal::Lists));
}

/// The words announced, one behind the other in the room.
fn begin_all<'a>(n: u32, words: &[Postings], mut room: &'a mut [u8]) -> Vec<TermWriter<'a>> {
    let mut writers = Vec::new();
    for word in words {
        let begun = TermWriter::begin(Edition::Two, n, word.announced(), room).unwrap();
        let (writer, behind) = begun.split();
        writers.push(writer);
        room = behind;
    }
    writers
}

/// Words written side by side into one buffer, a chapter of each at a time, make the card of the words written whole.
#[test]
fn a_card_a_chapter_at_a_time() {
    let far = Postings::new(&[0, 2_500, 6_000], &[1, 2, 1], &[9, 0, 2, 7]);
    let words = [long_word(), Postings::default(), far];
    let mut card = vec![FILL; 40_000];
    let mut writers = begin_all(LONG_N, &words, &mut card[CARD_HEADER..]);
    let ends = [700, 1_400, 4_000];
    let chapters = words.each_ref().map(|word| {
        let cuts = ends.map(|end| word.pages.partition_point(|page| *page < end));
        word.runs(cuts)
    });
    for chapter in 0..=ends.len() {
        for (writer, runs) in writers.iter_mut().zip(&chapters) {
            runs[chapter].put_into(writer).unwrap();
        }
    }
    let lengths = writers.into_iter().map(|writer| writer.finish().unwrap());
    let used = CARD_HEADER + lengths.sum::<usize>();
    assert_eq!(
        close_index(&mut card, used, Edition::Two, LONG_N, 3),
        Ok(used)
    );

    let mut whole = CardWriter::new(Edition::Two, LONG_N);
    for Postings {
        pages,
        counts,
        positions,
    } in &words
    {
        whole.add(pages, counts, positions).unwrap();
    }
    assert_eq!(card[..used], whole.close().unwrap());
    assert!(card[used..].iter().all(|byte| *byte == FILL));
}

#[test]
fn an_announcement_counts_runs_as_it_counts_the_word() {
    let word = long_word();
    let mut in_runs = Announcement::default();
    for run in word.runs([0, 1, 300, 300, 2_000]) {
        in_runs.add(&run.counts, &run.positions);
    }
    assert_eq!(in_runs, word.announced());
    assert_eq!(Postings::default().announced(), Announcement::default());
}

#[test]
fn numbers_past_32_bits_are_refused() {
    let mut announced = Announcement::default();
    announced.add(&[1, 1], &[u32::MAX, u32::MAX]);
    assert_eq!((announced.pages, announced.positions), (2, 2));
    assert_eq!(announced.u, u32::MAX);
    let mut room = [FILL; 200];
    let writer = TermWriter::begin(Edition::Two, 3, announced, &mut room);
    assert_eq!(writer.err(), Some(Refusal::Limit));
}
