//! Dense words in both editions: when their pages are a bitmap and which bytes it has, the same answers with other
//! looks, and what is refused of a form in the wrong place or of a version that is not known.

mod cards;

use cards::card_of_pages;
use jundefola::{
    ask, ask_all, check_index, check_list, check_term, close_index, list_block, term_block,
    write_term, Answer, CardWriter, Edition, Question, Refusal, Screens, CARD_HEADER,
};

const FILL: u8 = 0xA5;
const LIMIT: u32 = 16_777_216;
const UNKNOWN: [u32; 4] = [0, 3, 257, u32::MAX];

/// The pages of "pump" in samples/manual.txt, whose manual has 40.
const PUMP: [u32; 13] = [0, 1, 2, 5, 8, 9, 12, 16, 18, 23, 28, 35, 39];

/// Whether n pages below u take more bits in two runs than there are numbers below u.
fn is_dense(u: u32, n: u32) -> bool {
    let width = (u / n).ilog2();
    n + (u >> width) + n * width > u
}

/// The bitmap block of a list by the byte table of docs/FORMAT.md.
fn bitmap_block(u: u32, list: &[u32]) -> Vec<u8> {
    let mut map = vec![0_u64; u.div_ceil(64) as usize];
    for page in list {
        map[*page as usize / 64] |= 1 << (page % 64);
    }
    let below = |bound: u32| list.iter().filter(|page| **page < bound).count() as u32;
    let length = 13 + 4 * (u / 256) + 8 * u.div_ceil(64);
    let mut block = [&length.to_be_bytes()[..], &[2], &u.to_be_bytes()].concat();
    block.extend((list.len() as u32).to_be_bytes());
    block.extend((1..=u / 256).flat_map(|i| below(256 * i).to_be_bytes()));
    block.extend(map.iter().flat_map(|word| word.to_be_bytes()));
    block
}

/// A term block of these lists.
fn term_of(lists: [&[u8]; 3]) -> Vec<u8> {
    let lists = lists.concat();
    let length = 5 + lists.len() as u32;
    [&length.to_be_bytes()[..], &[1], &lists].concat()
}

/// The lists of counts and of positions of a word that stands at position 0 of so many pages.
fn full_list(n: u32) -> Vec<u8> {
    list_block(n, &(0..n).collect::<Vec<u32>>()).unwrap()
}

/// The term block of a word that stands at position 0 of these pages.
fn term_on(edition: Edition, n: u32, pages: &[u32]) -> Vec<u8> {
    let ones = vec![1; pages.len()];
    term_block(edition, n, pages, &ones, &vec![0; pages.len()]).unwrap()
}

/// The first pages, and pages that lie far apart, so many below u.
fn lists_of(u: u32, n: u32) -> [Vec<u32>; 2] {
    let spread = (0..n).map(|i| (u64::from(i) * u64::from(u) / u64::from(n)) as u32);
    [(0..n).collect(), spread.collect()]
}

/// Bytes as hexadecimal text.
fn hex(bytes: &[u8]) -> String {
    bytes.iter().map(|byte| format!("{byte:02X}")).collect()
}

/// The worked bitmaps of docs/FORMAT.md.
#[test]
fn the_bytes_of_a_bitmap() {
    let pump = term_on(Edition::Two, 40, &PUMP);
    let expected = "00000015 02 00000028 0000000D 0000008810851327";
    assert_eq!(hex(&pump[5..26]), expected.replace(' ', ""));
    let full = term_on(Edition::Two, 300, &(0..300).collect::<Vec<u32>>());
    let words = "FFFFFFFFFFFFFFFF".repeat(4);
    let expected = format!("00000039 02 0000012C 0000012C 00000100 {words} 00000FFFFFFFFFFF");
    assert_eq!(hex(&full[5..62]), expected.replace(' ', ""));
}

/// Numbers of pages at and beside the density's edge, for all small U and for those at and beside whole words and
/// multiples of 256.
#[test]
fn pages_are_a_bitmap_where_they_are_dense() {
    let large = [
        63, 64, 65, 127, 255, 256, 257, 511, 512, 513, 767, 768, 1_000,
    ];
    for u in (1..=40_u32).chain(large) {
        let edge = (u + 2) / 4;
        for n in [
            1,
            edge.saturating_sub(1),
            edge,
            edge + 1,
            edge + 2,
            u / 2,
            u,
        ] {
            if !(1..=u).contains(&n) {
                continue;
            }
            assert_eq!(is_dense(u, n), 4 * n > u + 1);
            for list in lists_of(u, n) {
                let runs = list_block(u, &list).unwrap();
                let rest = full_list(n);
                let old = term_of([&runs, &rest, &rest]);
                assert_eq!(term_on(Edition::One, u, &list), old);
                let bitmap = term_of([&bitmap_block(u, &list), &rest, &rest]);
                let (right, wrong) = if is_dense(u, n) {
                    (bitmap, old)
                } else {
                    (old, bitmap)
                };
                assert_eq!(term_on(Edition::Two, u, &list), right, "{n} of {u}");
                assert_eq!(check_term(Edition::Two, &right), Ok(()));
                assert_eq!(check_term(Edition::Two, &wrong), Err(Refusal::Version));
            }
        }
    }
}

#[test]
fn equality_keeps_the_runs() {
    for (u, pages, version) in [
        (8, &[1, 6][..], 1),
        (7, &[1, 6], 1),
        (6, &[1, 5], 2),
        (3, &[1], 1),
        (2, &[1], 2),
        (1, &[0], 2),
        (40, &PUMP[..10], 1),
        (40, &PUMP[..11], 2),
    ] {
        assert_eq!(term_on(Edition::Two, u, pages)[9], version, "{u}");
    }
}

#[test]
fn counts_and_positions_are_runs_however_dense() {
    let pages = [0, 1, 2, 3, 4, 5, 6, 7];
    let rest = full_list(8);
    assert!(is_dense(8, 8));
    let expected = term_of([&bitmap_block(8, &pages), &rest, &rest]);
    assert_eq!(term_on(Edition::Two, 8, &pages), expected);
}

#[test]
fn sizes_of_dense_pages() {
    for (n, pages, runs, bitmap) in [
        (40, PUMP.to_vec(), 29, 21),
        (256, (0..256).collect(), 13 + 4 + 64, 13 + 4 + 32),
        (300, (0..300).collect(), 97, 57),
        (
            65_536,
            (0..65_536).collect(),
            13 + 1_024 + 16_384,
            13 + 1_024 + 8_192,
        ),
    ] {
        let rest = 5 + 2 * full_list(pages.len() as u32).len();
        assert_eq!(term_on(Edition::One, n, &pages).len() - rest, runs);
        assert_eq!(term_on(Edition::Two, n, &pages).len() - rest, bitmap);
    }
}

#[test]
fn a_card_without_dense_words_differs_in_its_version_alone() {
    let words: [&[u32]; 3] = [&[3, 4, 7, 13, 14, 15, 21, 43], &[4, 15], &[]];
    let old = card_of_pages(Edition::One, 44, &words);
    let mut new = card_of_pages(Edition::Two, 44, &words);
    assert_eq!((old[4], new[4]), (1, 2));
    assert_eq!((check_index(&old), check_index(&new)), (Ok(()), Ok(())));
    new[4] = 1;
    assert_eq!(new, old);
}

const MANY: u32 = 700;

/// Pages of a manual of 700: all, three in four, two in three, every second, some with wide gaps, few, one and none.
fn many_words() -> Vec<Vec<u32>> {
    let those = |has: fn(&u32) -> bool| (0..MANY).filter(has).collect();
    vec![
        those(|_| true),
        those(|page| page % 4 != 1),
        those(|page| page % 3 != 0),
        those(|page| page % 2 == 1),
        those(|page| page % 300 < 100),
        those(|page| page % 50 == 7),
        vec![256],
        vec![],
    ]
}

/// A card of these words in this edition, each at two or three of the positions 0 to 2 on each of its pages.
fn card_of_words(edition: Edition, words: &[Vec<u32>]) -> Vec<u8> {
    let mut writer = CardWriter::new(edition, MANY);
    for (number, pages) in (0..).zip(words) {
        let positions: Vec<u32> = (0..3).filter(|place| (number + place) % 4 != 0).collect();
        let counts = vec![positions.len() as u32; pages.len()];
        writer
            .add(pages, &counts, &positions.repeat(pages.len()))
            .unwrap();
    }
    writer.close().unwrap()
}

/// Common pages and phrases of each two and some three words, and each word's ranks and bounds.
fn many_questions(words: u32) -> Vec<Question> {
    let each = 0..words;
    let pairs: Vec<[u32; 2]> = each
        .clone()
        .flat_map(|first| (0..words).map(move |second| [first, second]))
        .collect();
    let common = pairs.iter().map(|pair| Question::Common(pair.to_vec()));
    let phrases = pairs.iter().map(|pair| Question::phrase(*pair));
    let three = pairs
        .iter()
        .map(|pair| Question::Common(vec![2, pair[0], pair[1]]));
    let ranks = each.clone().flat_map(|term| {
        let ranks = (0..=MANY).step_by(23);
        ranks.map(move |rank| Question::Rank { term, rank })
    });
    let bounds = each.flat_map(|term| {
        let bounds = (0..=MANY + 1).chain([u32::MAX]);
        bounds.map(move |bound| Question::Bound { term, bound })
    });
    common
        .chain(phrases)
        .chain(three)
        .chain(ranks)
        .chain(bounds)
        .collect()
}

/// An answer with its looks left out.
fn without_looks(answer: Answer) -> Answer {
    match answer {
        Answer::Common { seeks, pages, .. } => Answer::Common {
            seeks,
            looks: 0,
            pages,
        },
        other => other,
    }
}

#[test]
fn both_editions_give_the_same_answers() {
    let words = many_words();
    let questions = many_questions(words.len() as u32);
    let [old, new] = Edition::ALL.map(|edition| {
        let card = card_of_words(edition, &words);
        ask_all(&card, &questions).unwrap()
    });
    assert!(old
        .iter()
        .map(without_looks)
        .eq(new.iter().map(without_looks)));
    assert_ne!(old, new);
}

#[test]
fn both_editions_show_the_same_screens() {
    let words = many_words();
    let cards = Edition::ALL.map(|edition| card_of_words(edition, &words));
    for terms in [&[0][..], &[1, 2], &[2, 3, 4], &[4, 5], &[0, 6], &[1, 7]] {
        for (rows, bound) in [(1, 650), (7, 0), (64, 0), (64, 301), (3, 699), (5, 700)] {
            let [old, new] = cards.each_ref().map(|card| {
                let screens = Screens::new(card, terms, rows).starting_at(bound);
                let shown = screens.map(|screen| {
                    let screen = screen.unwrap();
                    (screen.pages, screen.seeks, screen.next)
                });
                shown.collect::<Vec<_>>()
            });
            assert_eq!(old, new, "{terms:?} {rows} {bound}");
        }
    }
}

/// What kind 3 answers for a dense word and one on a single page, which leads, in both editions.
fn common_with_one(n: u32, dense: &[u32], page: u32) -> [Vec<u32>; 2] {
    Edition::ALL.map(|edition| {
        let card = card_of_pages(edition, n, &[dense, &[page]]);
        let mut room = [0; 8];
        let asked = ask(&card, &[3, 2, 0, 1], &mut room);
        assert_eq!((asked.refusal, asked.answered), (None, 1));
        room[..asked.used].to_vec()
    })
}

/// The lead's own looks are one for its page and, where its last seek is for less than U, one more.
#[test]
fn a_bitmap_takes_looks_from_the_bound_on() {
    let full: Vec<u32> = (0..300).collect();
    for (page, runs, bitmap) in [
        (299, 1 + 2, 1 + 1),
        (255, 1 + 8 + 1, 1 + 1 + 1),
        (0, 1 + 1 + 1, 1 + 1 + 1),
    ] {
        let expected = [runs, bitmap].map(|looks| vec![3, 3, looks, page]);
        assert_eq!(common_with_one(300, &full, page), expected);
    }
    let with_gap: Vec<u32> = (0..100).chain(200..300).collect();
    let expected = [1 + 5 + 1, 1 + 3 + 1].map(|looks| vec![2, 3, looks]);
    assert_eq!(common_with_one(300, &with_gap, 100), expected);
    let first: Vec<u32> = (0..200).collect();
    let expected = [1 + 8, 1 + 2].map(|looks| vec![2, 2, looks]);
    assert_eq!(common_with_one(300, &first, 250), expected);
}

/// A block with some of its bytes set.
fn with_bytes(block: &[u8], at: usize, bytes: &[u8]) -> Vec<u8> {
    let mut changed = block.to_vec();
    changed[at..at + bytes.len()].copy_from_slice(bytes);
    changed
}

/// Pages that are dense below 300, as a bitmap: its U is at byte 5, its n at 9, its number at 13 and its bits at 17.
fn dense_bitmap() -> Vec<u8> {
    bitmap_block(300, &(0..200).collect::<Vec<u32>>())
}

#[test]
fn a_form_in_the_wrong_place_is_refused() {
    let refused = |edition: Edition, lists: [&[u8]; 3]| {
        let refusal = check_term(edition, &term_of(lists)).unwrap_err();
        assert_eq!(refusal, Refusal::Version);
    };
    let (runs, bitmap) = (full_list(8), bitmap_block(8, &[0, 1, 2, 3, 4, 5, 6, 7]));
    assert_eq!(
        check_term(Edition::One, &term_of([&runs, &runs, &runs])),
        Ok(())
    );
    assert_eq!(
        check_term(Edition::Two, &term_of([&bitmap, &runs, &runs])),
        Ok(())
    );
    refused(Edition::One, [&bitmap, &runs, &runs]);
    refused(Edition::Two, [&runs, &runs, &runs]);
    for edition in Edition::ALL {
        let pages = if edition == Edition::One {
            &runs
        } else {
            &bitmap
        };
        refused(edition, [pages, &bitmap, &runs]);
        refused(edition, [pages, &runs, &bitmap]);
        for version in [0, 3, 255] {
            refused(edition, [&with_bytes(pages, 4, &[version]), &runs, &runs]);
            refused(edition, [pages, &with_bytes(&runs, 4, &[version]), &runs]);
            refused(edition, [pages, &runs, &with_bytes(&runs, 4, &[version])]);
        }
        let (empty, sparse) = (bitmap_block(8, &[]), bitmap_block(8, &[1, 6]));
        let (none, two) = (full_list(0), full_list(2));
        refused(edition, [&empty, &none, &none]);
        refused(edition, [&sparse, &two, &two]);
    }
}

#[test]
fn a_wrong_form_comes_behind_the_limit_and_n_and_before_the_length() {
    let rest = full_list(200);
    let bitmap = dense_bitmap();
    let over = (LIMIT + 1).to_be_bytes();
    let longer = [with_bytes(&bitmap, 3, &[bitmap[3] + 8]), vec![0; 8]].concat();
    for (pages, in_old, in_new) in [
        (
            with_bytes(&bitmap, 5, &over),
            Refusal::Limit,
            Refusal::Limit,
        ),
        (
            with_bytes(&bitmap, 9, &301_u32.to_be_bytes()),
            Refusal::Layout,
            Refusal::Layout,
        ),
        (longer.clone(), Refusal::Version, Refusal::Layout),
        (
            with_bytes(&longer, 17, &[0]),
            Refusal::Version,
            Refusal::Layout,
        ),
        (
            with_bytes(&with_bytes(&bitmap, 5, &over), 4, &[3]),
            Refusal::Version,
            Refusal::Version,
        ),
    ] {
        let term = term_of([&pages, &rest, &rest]);
        assert_eq!(check_term(Edition::One, &term), Err(in_old));
        assert_eq!(check_term(Edition::Two, &term), Err(in_new));
    }
}

#[test]
fn wrong_bits_and_numbers_are_refused_as_runs() {
    let rest = full_list(200);
    let bitmap = dense_bitmap();
    // of the last word, which has 44 bits, byte 49 has spare bits alone
    for (at, bytes) in [
        (13, &201_u32.to_be_bytes()[..]),
        (13, &[0, 0, 0, 199]),
        (13, &[0, 0, 0, 0]),
        (13, &[1, 0, 0, 200]),
        (17, &[0x7F]),
        (9, &[0, 0, 0, 201]),
        (49, &[0x80]),
        (51, &[0x10]),
        (51, &[0x08]),
        (56, &[1]),
    ] {
        let pages = with_bytes(&bitmap, at, bytes);
        let term = term_of([&pages, &rest, &rest]);
        assert_eq!(check_term(Edition::Two, &term), Err(Refusal::Runs), "{at}");
    }
    assert_eq!(
        check_term(Edition::Two, &term_of([&bitmap, &rest, &rest])),
        Ok(())
    );
}

/// Density is that of the block's own U: pages below 8 are dense, and would not be below N = 40.
#[test]
fn pages_of_another_u_are_7() {
    let term = term_on(Edition::Two, 8, &[0, 1, 2, 3]);
    assert_eq!(term[9], 2);
    let used = CARD_HEADER + term.len();
    let mut buffer = [&[FILL; CARD_HEADER], &term[..]].concat();
    let closed = close_index(&mut buffer, used, Edition::Two, 40, 1);
    assert_eq!(closed, Err(Refusal::Parts));
    assert_eq!(buffer[..CARD_HEADER], [FILL; CARD_HEADER]);
    assert_eq!(close_index(&mut buffer, used, Edition::Two, 8, 1), Ok(used));
    assert_eq!(check_index(&buffer), Ok(()));
    buffer[8] = 40;
    assert_eq!(check_index(&buffer), Err(Refusal::Parts));
}

#[test]
fn a_card_is_closed_in_the_edition_of_its_terms() {
    for (edition, other) in [(Edition::One, Edition::Two), (Edition::Two, Edition::One)] {
        let term = term_on(edition, 8, &[0, 1, 2, 3]);
        let used = CARD_HEADER + term.len();
        let mut buffer = [&[FILL; CARD_HEADER], &term[..]].concat();
        let refused = close_index(&mut buffer, used, other, 8, 1);
        assert_eq!(refused, Err(Refusal::Version));
        assert_eq!(buffer[..CARD_HEADER], [FILL; CARD_HEADER]);
        assert_eq!(close_index(&mut buffer, used, edition, 8, 1), Ok(used));
        assert_eq!(u32::from(buffer[4]), edition.version());
        assert_eq!(check_index(&buffer), Ok(()));
        for version in [other.version() as u8, 0, 3] {
            buffer[4] = version;
            assert_eq!(check_index(&buffer), Err(Refusal::Version));
        }
    }
}

#[test]
fn a_bitmap_alone_is_no_list() {
    let bitmap = dense_bitmap();
    assert_eq!(check_list(&bitmap), Err(Refusal::Version));
    let over = with_bytes(&bitmap, 5, &(LIMIT + 1).to_be_bytes());
    assert_eq!(check_list(&over), Err(Refusal::Version));
    assert_eq!(check_list(&bitmap[1..]), Err(Refusal::Length));
    assert_eq!(check_list(&bitmap[..12]), Err(Refusal::Short));
}

#[test]
fn a_writer_refuses_an_unknown_version_before_all_else() {
    for version in UNKNOWN {
        for (n, pages) in [(3, 1), (LIMIT + 1, 1), (3, 3)] {
            for bytes in [0, 200] {
                let mut room = vec![FILL; bytes];
                let written = write_term(version, n, &[pages], &[1], &[0], &mut room);
                assert_eq!(written, Err(Refusal::Version));
                assert_eq!(room, vec![FILL; bytes]);
            }
        }
    }
}

#[test]
fn a_check_refuses_an_unknown_version_behind_1_and_2() {
    let term = term_on(Edition::Two, 8, &[0, 1, 2, 3]);
    for version in UNKNOWN {
        assert_eq!(check_term(version, &term[..43]), Err(Refusal::Short));
        assert_eq!(check_term(version, &term[1..]), Err(Refusal::Length));
        assert_eq!(check_term(version, &term), Err(Refusal::Version));
        let over = with_bytes(&term, 10, &(LIMIT + 1).to_be_bytes());
        assert_eq!(check_term(version, &over), Err(Refusal::Version));
    }
    for edition in Edition::ALL {
        let other = with_bytes(&term, 4, &[2]);
        assert_eq!(check_term(edition, &other), Err(Refusal::Version));
    }
}

#[test]
fn a_closing_refuses_an_unknown_version_behind_9_and_1_and_before_4() {
    for version in UNKNOWN {
        let mut buffer = [FILL; CARD_HEADER];
        let mut close = |used, n, t| close_index(&mut buffer, used, version, n, t);
        assert_eq!(close(12, LIMIT + 1, 0), Err(Refusal::Room));
        assert_eq!(close(10, LIMIT + 1, 0), Err(Refusal::Short));
        assert_eq!(close(11, LIMIT + 1, 0), Err(Refusal::Version));
        assert_eq!(close(11, 0, 4_097), Err(Refusal::Version));
        assert_eq!(close(11, 0, 0), Err(Refusal::Version));
        assert_eq!(buffer, [FILL; CARD_HEADER]);
    }
    let mut buffer = [FILL; CARD_HEADER];
    for edition in Edition::ALL {
        let over = close_index(&mut buffer, 11, edition, LIMIT + 1, 0);
        assert_eq!(over, Err(Refusal::Limit));
    }
    assert_eq!(buffer, [FILL; CARD_HEADER]);
}
