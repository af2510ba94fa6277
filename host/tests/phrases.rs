//! Phrases with and without dropped words, against plain reading of a text, and the pairs that are refused.
//! The cards are of edition 2, and most of their words dense.

use jundefola::{
    ask, ask_all, Answer, Asked, CardWriter, Edition, PageStarts, PhraseWord, Question, Refusal,
};

/// The pages of a text, a letter for each position: `a`, `b` and `c` are the words 0 to 2, a dot is a dropped word.
const TEXT: [&str; 5] = ["ab.c", "a.babcb", "", "cba..b", "aab.c.ab"];

/// A card of words, each with its positions on each page.
fn card_of(pages: u32, words: &[Vec<(u32, Vec<u32>)>]) -> Vec<u8> {
    let mut writer = CardWriter::new(Edition::Two, pages);
    for postings in words {
        let on: Vec<u32> = postings.iter().map(|(page, _)| *page).collect();
        let counts: Vec<u32> = postings.iter().map(|(_, at)| at.len() as u32).collect();
        let positions: Vec<u32> = postings.iter().flat_map(|(_, at)| at.clone()).collect();
        writer.add(&on, &counts, &positions).unwrap();
    }
    writer.close().unwrap()
}

/// Where a letter stands in the text.
fn postings_of(letter: char) -> Vec<(u32, Vec<u32>)> {
    let on = |text: &str| -> Vec<u32> {
        let places = text.chars().zip(0..).filter(|(found, _)| *found == letter);
        places.map(|(_, place)| place).collect()
    };
    let pages = (0..).zip(TEXT.map(on));
    pages.filter(|(_, places)| !places.is_empty()).collect()
}

fn card_of_text() -> Vec<u8> {
    card_of(TEXT.len() as u32, &['a', 'b', 'c'].map(postings_of))
}

/// The pages with a start, by trying each place of the text.
fn starts_in_text(words: &[PhraseWord]) -> Vec<PageStarts> {
    let stands = |text: &str, start: usize, word: &PhraseWord| {
        let found = text.as_bytes().get(start + word.offset as usize);
        found == Some(&(b'a' + word.term as u8))
    };
    let starts = |text: &str| {
        let places = 0..text.len();
        let found = places.filter(|&start| words.iter().all(|word| stands(text, start, word)));
        found.count() as u32
    };
    let pages = (0..).zip(TEXT.map(starts));
    pages
        .filter(|(_, starts)| *starts > 0)
        .map(|(page, starts)| PageStarts { page, starts })
        .collect()
}

/// Every phrase of up to three words of the text with offsets up to 7.
fn all_phrases() -> Vec<Vec<PhraseWord>> {
    let longer = |phrase: &Vec<PhraseWord>| {
        let next = phrase.last().map_or(0, |word| word.offset + 1);
        let last = if phrase.is_empty() { 0 } else { 7 };
        let words = (next..=last).flat_map(|offset| (0..3).map(move |term| (term, offset).into()));
        let all: Vec<_> = words.map(|word| [&phrase[..], &[word]].concat()).collect();
        all
    };
    let of_one: Vec<_> = longer(&Vec::new());
    let of_two: Vec<_> = of_one.iter().flat_map(longer).collect();
    let of_three: Vec<_> = of_two.iter().flat_map(longer).collect();
    [of_one, of_two, of_three].concat()
}

/// The pages with a start that a card tells for each phrase.
fn told(card: &[u8], questions: &[Question]) -> Vec<Vec<PageStarts>> {
    let answers = ask_all(card, questions).unwrap();
    let starts = answers.iter().map(|answer| match answer {
        Answer::Phrase(starts) => starts.collect(),
        _ => panic!("a phrase was asked"),
    });
    starts.collect()
}

#[test]
fn phrases_with_gaps_are_those_of_the_text() {
    let phrases = all_phrases();
    assert_eq!(phrases.len(), 3 + 3 * 3 * 7 + 3 * 3 * 3 * 21);
    let questions: Vec<Question> = phrases.iter().cloned().map(Question::Phrase).collect();
    let expected: Vec<_> = phrases.iter().map(|words| starts_in_text(words)).collect();
    assert_eq!(told(&card_of_text(), &questions), expected);
    assert!(expected.iter().filter(|pages| !pages.is_empty()).count() > 50);
}

#[test]
fn a_plain_phrase_has_its_words_right_behind_one_another() {
    let card = card_of_text();
    let phrase = |text: &str| Question::phrase(text.bytes().map(|letter| u32::from(letter - b'a')));
    let pages = |pages: &[(u32, u32)]| -> Vec<PageStarts> {
        let pages = pages
            .iter()
            .map(|&(page, starts)| PageStarts { page, starts });
        pages.collect()
    };
    for (text, expected) in [
        ("a", pages(&[(0, 1), (1, 2), (3, 1), (4, 3)])),
        ("ab", pages(&[(0, 1), (1, 1), (4, 2)])),
        ("aab", pages(&[(4, 1)])),
        ("babcb", pages(&[(1, 1)])),
        ("cba", pages(&[(3, 1)])),
        ("abc", pages(&[(1, 1)])),
        ("cc", pages(&[])),
    ] {
        assert_eq!(told(&card, &[phrase(text)]), [expected], "{text}");
    }
}

/// Two words 255 positions apart, and the same word eight times, up to there.
#[test]
fn the_largest_offset_is_255() {
    let far = card_of(2, &[vec![(1, vec![3, 40])], vec![(1, vec![258, 259, 295])]]);
    let starts_with = |offset| {
        let words = [(0, 0), (1, offset)].map(PhraseWord::from);
        told(&far, &[Question::Phrase(words.to_vec())])
    };
    assert_eq!(starts_with(255), [[PageStarts { page: 1, starts: 2 }]]);
    assert_eq!(starts_with(254), [[]]);
    let eight = [0, 1, 3, 7, 15, 31, 127, 255];
    let full = card_of(1, &[vec![(0, (0..300).collect())]]);
    let words = eight.map(|offset| PhraseWord { term: 0, offset }).to_vec();
    let starts = 300 - 255;
    assert_eq!(
        told(&full, &[Question::Phrase(words)]),
        [[PageStarts { page: 0, starts }]]
    );
}

/// No phrase goes on from a page's last position to the next page.
#[test]
fn a_gap_ends_with_its_page() {
    let card = card_of(
        3,
        &[
            vec![(0, vec![4]), (1, vec![0])],
            vec![(0, vec![0]), (1, vec![1, 3])],
        ],
    );
    let starts_with = |offset| {
        let words = [(0, 0), (1, offset)].map(PhraseWord::from);
        told(&card, &[Question::Phrase(words.to_vec())])
    };
    assert_eq!(starts_with(1), [[PageStarts { page: 1, starts: 1 }]]);
    assert_eq!(starts_with(2), [[]]);
    assert_eq!(starts_with(3), [[PageStarts { page: 1, starts: 1 }]]);
}

/// Questions of kind 4 that are cut short, have a wrong c, a word that is not there or wrong offsets.
const REFUSED: [&[u32]; 21] = [
    &[4],
    &[4, 0],
    &[4, 1, 0],
    &[4, 2],
    &[4, 2, 0],
    &[4, 2, 0, 1],
    &[4, 2, 3, 0],
    &[4, 2, u32::MAX, 0],
    &[4, 3, 0, 0, 1],
    &[4, 4, 0, 0],
    &[4, 4, 0, 0, 1],
    &[4, 4, 0, 0, 1, 0],
    &[4, 4, 0, 1, 1, 2],
    &[4, 4, 0, 0, 3, 1],
    &[4, 4, 0, 0, 1, 256],
    &[4, 4, 0, 0, 1, u32::MAX],
    &[4, 6, 0, 0, 1, 2, 2, 2],
    &[4, 6, 0, 0, 1, 2, 2, 1],
    &[4, 17, 0, 0, 1, 1],
    &[4, 18, 0, 0, 0, 1, 0, 2, 0, 3, 0, 4, 0, 5, 0, 6, 0, 7, 0, 8],
    &[4, u32::MAX, 0, 0],
];

/// Each is refused alone and behind a good question, and nothing is answered or written.
#[test]
fn pairs_that_are_no_phrase_are_refused() {
    let card = card_of_text();
    let nothing = Asked {
        refusal: Some(Refusal::Question),
        answered: 0,
        used: 0,
    };
    for question in REFUSED {
        let behind = [&[4, 2, 0, 0], question].concat();
        for questions in [question, &behind] {
            let mut room = [7; 20];
            assert_eq!(ask(&card, questions, &mut room), nothing, "{questions:?}");
            assert_eq!(room, [7; 20]);
        }
    }
}
