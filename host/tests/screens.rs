//! Screens of common pages, against plain reading of the lists, and what is refused.

mod cards;

use cards::card_of_pages;
use jundefola::{
    ask_all, screen, Answer, Edition, Question, Refusal, Screen, Screened, Screens, MAX_SCREEN,
    SCREEN_COUNTS,
};

const FILL: u32 = 0xA5A5_A5A5;

/// The pages of this small manual, and its words' pages; words 0 and 1 share 4, 15 and 43, and word 2 is on none.
const N: u32 = 44;
const WORDS: [&[u32]; 3] = [&[3, 4, 7, 13, 14, 15, 21, 43], &[4, 15, 20, 43], &[]];

/// A card of one word on 200 pages, which is three screens of 64 and some.
fn long_card() -> Vec<u8> {
    let pages: Vec<u32> = (0..200).map(|i| 5 * i).collect();
    card_of_pages(Edition::Two, 1000, &[&pages])
}

/// A screen in rooms of these lengths: the report, and both rooms behind it.
fn in_rooms(
    card: &[u8],
    (bound, r, terms): (u32, u32, &[u32]),
    lengths: [usize; 2],
) -> (Result<Screened, Refusal>, [Vec<u32>; 2]) {
    let [mut pages, mut counts] = lengths.map(|length| vec![FILL; length]);
    let report = screen(card, bound, r, terms, &mut pages, &mut counts);
    (report, [pages, counts])
}

/// The pages at or above a bound that the words of the small manual share, by reading their lists.
fn shared_from(bound: u32, terms: &[u32]) -> Vec<u32> {
    let has = |page: &u32| {
        let mut lists = terms.iter().map(|&term| WORDS[term as usize]);
        lists.all(|list| list.contains(page))
    };
    (bound..N).filter(has).collect()
}

/// What kind 3 answers: the pages, the seeks and the looks.
fn common(card: &[u8], terms: &[u32]) -> (Vec<u32>, u32, u32) {
    let answers = ask_all(card, &[Question::Common(terms.to_vec())]).unwrap();
    let Some(Answer::Common {
        seeks,
        looks,
        pages,
    }) = answers.iter().next()
    else {
        panic!("common pages were asked")
    };
    (pages.to_vec(), seeks, looks)
}

fn all(screens: Screens) -> Vec<Screen> {
    screens.map(Result::unwrap).collect()
}

fn joined(screens: &[Screen]) -> Vec<u32> {
    let pages = screens.iter().flat_map(|screen| &screen.pages);
    pages.copied().collect()
}

#[test]
fn every_bound_and_size_shows_the_pages_of_plain_reading() {
    let card = card_of_pages(Edition::Two, N, &WORDS);
    for terms in [&[0][..], &[0, 1], &[1, 0, 1], &[2], &[0, 2]] {
        for bound in (0..=N + 1).chain([u32::MAX]) {
            for r in [1, 2, 3, 64] {
                let mut shown = shared_from(bound, terms);
                shown.truncate(r as usize);
                let found = shown.len();
                let next = (found == r as usize).then(|| shown[found - 1] + 1);
                let (report, [pages, counts]) = in_rooms(&card, (bound, r, terms), [66, 3]);
                assert_eq!(
                    report,
                    Ok(Screened { found, next }),
                    "{terms:?} {bound} {r}"
                );
                assert_eq!(pages[..found], shown);
                assert_eq!(pages[found..], vec![FILL; 66 - found]);
                assert_ne!(counts[0], FILL);
                assert_eq!(counts[2], FILL);
            }
        }
    }
}

#[test]
fn a_screen_of_all_pages_counts_as_kind_3_does() {
    let card = card_of_pages(Edition::Two, N, &WORDS);
    for terms in [&[0][..], &[0, 1], &[2], &[0, 2]] {
        let (pages, seeks, looks) = common(&card, terms);
        let expected = Screen {
            bound: 0,
            pages,
            seeks,
            looks,
            next: None,
        };
        assert_eq!(all(Screens::new(&card, terms, 64)), [expected]);
    }
}

#[test]
fn joined_screens_are_the_common_pages() {
    let small = card_of_pages(Edition::Two, N, &WORDS);
    let long = long_card();
    for (card, terms) in [
        (&small, &[0][..]),
        (&small, &[0, 1]),
        (&small, &[2]),
        (&long, &[0]),
    ] {
        let (pages, ..) = common(card, terms);
        for rows in 1..=MAX_SCREEN {
            let screens = all(Screens::new(card, terms, rows));
            assert_eq!(joined(&screens), pages);
            assert_eq!(screens.len(), pages.len() / rows as usize + 1);
            let (last, full) = screens.split_last().unwrap();
            assert!(!last.is_full() && full.iter().all(Screen::is_full));
            let bounds: Vec<_> = screens
                .iter()
                .skip(1)
                .map(|screen| Some(screen.bound))
                .collect();
            let nexts: Vec<_> = full.iter().map(|screen| screen.next).collect();
            assert_eq!(bounds, nexts);
        }
    }
}

#[test]
fn an_empty_screen_follows_one_that_is_just_full() {
    let card = card_of_pages(Edition::Two, N, &WORDS);
    let mut screens = Screens::new(&card, &[0, 1], 3);
    let full = screens.next().unwrap().unwrap();
    assert_eq!(
        (full.pages.as_slice(), full.next),
        (&[4, 15, 43][..], Some(44))
    );
    let empty = screens.next().unwrap().unwrap();
    assert_eq!((empty.bound, empty.pages.len(), empty.next), (44, 0, None));
    assert_eq!(screens.next(), None);
    assert_eq!(screens.next(), None);
}

#[test]
fn screens_start_at_any_bound() {
    let card = card_of_pages(Edition::Two, N, &WORDS);
    for bound in (0..=N + 1).chain([u32::MAX]) {
        for rows in [1, 2, 64] {
            let screens = all(Screens::new(&card, &[0, 1], rows).starting_at(bound));
            assert_eq!(screens[0].bound, bound);
            assert_eq!(joined(&screens), shared_from(bound, &[0, 1]));
        }
    }
}

#[test]
fn a_room_that_is_one_short_is_refused_and_stays() {
    let card = card_of_pages(Edition::Two, N, &WORDS);
    for (bound, r, found) in [(0, 2, 2), (0, 64, 3), (15, 3, 2), (43, 1, 1)] {
        let asked = (bound, r, &[0, 1][..]);
        let (report, _) = in_rooms(&card, asked, [found, SCREEN_COUNTS]);
        assert_eq!(report.map(|shown| shown.found), Ok(found));
        for lengths in [
            [found - 1, 2],
            [found, 1],
            [found - 1, 1],
            [found, 0],
            [0, 0],
        ] {
            let untouched = lengths.map(|length| vec![FILL; length]);
            let refused = (Err(Refusal::Room), untouched);
            assert_eq!(in_rooms(&card, asked, lengths), refused);
        }
    }
    let empty = Screened {
        found: 0,
        next: None,
    };
    assert_eq!(in_rooms(&card, (44, 1, &[0]), [0, 2]).0, Ok(empty));
    assert_eq!(in_rooms(&card, (44, 1, &[0]), [0, 1]).0, Err(Refusal::Room));
}

#[test]
fn bad_rows_and_words_are_refused() {
    let card = card_of_pages(Edition::Two, N, &WORDS);
    let untouched = [vec![FILL; 64], vec![FILL; 2]];
    for (r, terms) in [
        (0, &[0][..]),
        (65, &[0]),
        (u32::MAX, &[0]),
        (1, &[]),
        (1, &[0; 9]),
        (64, &[3]),
        (64, &[0, u32::MAX]),
        (0, &[3; 9]),
    ] {
        let refused = (Err(Refusal::Question), untouched.clone());
        assert_eq!(in_rooms(&card, (0, r, terms), [64, 2]), refused);
        // the question is looked at before the room
        assert_eq!(
            in_rooms(&card, (0, r, terms), [0, 0]).0,
            Err(Refusal::Question)
        );
        let screens: Vec<_> = Screens::new(&card, terms, r).collect();
        assert_eq!(screens, [Err(Refusal::Question)]);
    }
    assert!(in_rooms(&card, (0, 64, &[0; 8]), [64, 2]).0.is_ok());
}

#[test]
fn a_refused_card_is_told_first() {
    let mut card = card_of_pages(Edition::Two, N, &WORDS);
    let untouched = [vec![FILL; 64], vec![FILL; 2]];
    let refused = |card: &[u8], refusal| {
        for (r, terms) in [(64, &[0][..]), (0, &[]), (65, &[9])] {
            let expected = (Err(refusal), untouched.clone());
            assert_eq!(in_rooms(card, (0, r, terms), [64, 2]), expected);
            assert_eq!(in_rooms(card, (0, r, terms), [0, 0]).0, Err(refusal));
            let screens: Vec<_> = Screens::new(card, terms, r).collect();
            assert_eq!(screens, [Err(refusal)]);
        }
    };
    refused(&[], Refusal::Short);
    refused(&card[..card.len() - 1], Refusal::Length);
    card[4] = 3;
    refused(&card, Refusal::Version);
}
