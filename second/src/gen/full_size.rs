//! Cards of full size: long lists, pages and terms at their limits.

use super::cards::{self, word_on, Card, Word};
use super::lists::{evenly, spread, uniform};
use super::random::Random;
use crate::plain::GREATEST_TERMS;

/// The pages of a long list at full size.
pub const LONG: u32 = 1 << 20;

/// The pages on a card for each page of a long list, so that N is at its limit.
const SHARE: u32 = 16;

/// The number of shapes that a card of full size can have.
pub const SHAPES: u64 = 6;

/// The card of this number, around lists of `long` pages.
pub fn card(random: &mut Random, number: u64, long: u32) -> Card {
    match number % SHAPES {
        0 => of_wide_lists(random, long),
        1 => of_full_pages(random, long),
        2 => of_most_words(random, long),
        3 => of_packed_lists(random, long),
        4 => cards::text(random, long, 8, 12),
        _ => cards::run_ends(random, 4, (long - 256) * SHARE),
    }
}

fn of_lists(random: &mut Random, pages: u32, lists: Vec<Vec<u32>>) -> Card {
    let words = lists.into_iter().map(|on| word_on(random, on)).collect();
    Card::of(random, pages, words)
}

/// Long lists over all pages, two of them nearly the same, and short ones.
fn of_wide_lists(random: &mut Random, long: u32) -> Card {
    let pages = long * SHARE;
    let first = uniform(random, pages, long);
    let lists = vec![
        cards::nearly(random, &first, pages),
        first,
        spread(random, pages, long).elements,
        uniform(random, pages, long / 16),
        uniform(random, pages, 300),
        uniform(random, pages, 9),
        vec![pages - 1],
        Vec::new(),
    ];
    of_lists(random, pages, lists)
}

/// A word on every place of every page, and others on a part of the pages.
fn of_full_pages(random: &mut Random, long: u32) -> Card {
    let every_page: Vec<u32> = (0..long).collect();
    let lists = vec![
        cards::nearly(random, &every_page, long),
        every_page,
        uniform(random, long, long / 2),
        evenly(long, long / 16),
        uniform(random, long, 40),
        vec![0, long / 2, long - 1],
    ];
    let mut card = of_lists(random, long, lists);
    card.words.push(on_every_place(long));
    card
}

/// A word whose positions are as many as their limit lets them be.
fn on_every_place(pages: u32) -> Word {
    let places: Vec<u32> = (0..SHARE).collect();
    let mut word = Word::nowhere();
    (0..pages).for_each(|page| word.stand(page, &places));
    word
}

/// As many words as a card can have, the first of them long.
fn of_most_words(random: &mut Random, long: u32) -> Card {
    let pages = long * SHARE;
    let mut lists = vec![uniform(random, pages, long)];
    for _ in 1..GREATEST_TERMS {
        let count = random.from_to(0, 400);
        lists.push(spread(random, pages, count).elements);
    }
    of_lists(random, pages, lists)
}

/// Long lists on neighbouring pages, so that a seek may walk over most of a
/// run, and short ones that seek far ahead in them.
fn of_packed_lists(random: &mut Random, long: u32) -> Card {
    let pages = long * SHARE;
    let mut low_and_last: Vec<u32> = (0..long - 1).collect();
    low_and_last.push(pages - 1);
    let lists = vec![
        (0..long).collect(),
        low_and_last,
        (pages - long..pages).collect(),
        (0..long / 16).collect(),
        evenly(pages, 200),
        vec![long / 16 - 1, long - 1, long, pages - 1],
        uniform(random, pages, 40),
        vec![long + 1],
    ];
    of_lists(random, pages, lists)
}

#[cfg(test)]
mod tests {
    use super::*;
    use crate::plain::GREATEST_BOUND;

    #[test]
    fn a_long_lists_share_takes_the_pages_to_their_limit() {
        assert_eq!(LONG * SHARE, GREATEST_BOUND);
    }

    #[test]
    fn every_shape_has_a_long_list_and_valid_words() {
        let long = 4_096;
        for number in 0..SHAPES {
            let mut random = Random::of_case(9, 0, number);
            let card = card(&mut random, number, long);
            let longest = card.words.iter().map(|word| word.pages.len()).max();
            assert!(longest > Some(long as usize / 3), "shape {number}");
            (0..card.words.len()).for_each(|word| drop(card.term(word)));
        }
    }
}
