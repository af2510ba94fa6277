//! Words of a few pages, written in every way of cutting them.

use super::cards::{self, Word};
use super::random::Random;
use super::writing::{announced, runs, Host};
use super::{editions, lists, rooms};
use crate::compare::Decided;
use crate::plain::edition::Edition;
use crate::plain::stream::Run;

/// The most pages of a word that is cut in every way.
const MOST_PAGES: u32 = 6;

/// The cuts of words of 0 to `MOST_PAGES` pages, one word of each number.
const CUTS: u64 = 1 << MOST_PAGES;

/// The words of each number of pages.
const WORDS: u64 = 15;

/// The sessions in all: each cut without further runs, and with runs that have no postings put in.
pub const SESSIONS: u64 = 2 * CUTS * WORDS;

/// The session of this number, below `SESSIONS`.
pub fn session(seed: u64, number: u64) -> Vec<Decided> {
    let cut = Cut::of(number / 2 % CUTS);
    let of_word = number / 2 / CUTS * u64::from(MOST_PAGES + 1) + u64::from(cut.pages);
    let of_word = &mut Random::of_case(seed, 5, of_word);
    let (edition, card_pages, word) = word_on(of_word, cut.pages);
    let block = word.term(edition, card_pages).block();
    let mut random = Random::of_case(seed, 6, number);
    let spare = random.pick(&[0, 0, 1, 9]);
    let size = block.len() + spare;
    let mut host = Host::with(rooms::bytes(&mut random, size));
    host.begin(announced(edition, card_pages, &word), size);
    let with_empty_runs = number % 2 == 1;
    for run in runs(&word, &cut.places()) {
        if with_empty_runs {
            host.put(&Run::default(), size);
        }
        host.put(&run, size);
    }
    if with_empty_runs {
        host.put(&Run::default(), size);
    }
    host.end_with(&block, size);
    host.into_calls()
}

/// A number of pages, and for each place between two of them whether it is cut.
struct Cut {
    pages: u32,
    places: u64,
}

impl Cut {
    /// The highest one of the number tells the pages, the bits below it the places.
    fn of(number: u64) -> Cut {
        let pages = u64::BITS - number.leading_zeros();
        let highest = (1 << pages) >> 1;
        Cut {
            pages,
            places: number - highest,
        }
    }

    fn places(&self) -> Vec<usize> {
        let between = 1..self.pages.max(1);
        let is_cut = |place: &u32| self.places >> (place - 1) & 1 == 1;
        between.filter(is_cut).map(|place| place as usize).collect()
    }
}

/// An edition, a number of pages on a card, and a word on so many of them, in half the cases a dense one.
fn word_on(random: &mut Random, pages: u32) -> (Edition, u32, Word) {
    let edition = editions::edition(random);
    let card_pages = match random.once_in(2) {
        true => pages + random.from_to(0, 3 * pages),
        false => lists::bound(random).max(pages),
    };
    let on = lists::spread(random, card_pages, pages).elements;
    let word = match random.once_in(3) {
        true => crowded(random, &on),
        false => cards::word_on(random, on),
    };
    (edition, card_pages, word)
}

/// A word that stands many times on each page, so that its positions have pointers.
fn crowded(random: &mut Random, on: &[u32]) -> Word {
    let mut word = Word::nowhere();
    for page in on {
        let last = random.from_to(0, 300);
        let positions: Vec<u32> = (0..=last).filter(|_| !random.once_in(4)).collect();
        match positions.is_empty() {
            true => word.stand(*page, &[last]),
            false => word.stand(*page, &positions),
        }
    }
    word
}

#[cfg(test)]
mod tests {
    use super::*;
    use std::collections::BTreeSet;

    #[test]
    fn each_word_is_cut_in_every_way() {
        let cuts: Vec<Cut> = (0..CUTS).map(Cut::of).collect();
        for pages in 0..=MOST_PAGES {
            let of_pages = cuts.iter().filter(|cut| cut.pages == pages);
            let ways: BTreeSet<Vec<usize>> = of_pages.map(Cut::places).collect();
            assert_eq!(ways.len(), 1 << pages.saturating_sub(1));
            let between = |place: &usize| (1..pages as usize).contains(place);
            assert!(ways.iter().flatten().all(between));
        }
    }

    #[test]
    fn the_runs_of_a_session_make_the_word() {
        let mut random = Random::of_case(3, 0, 0);
        let (.., word) = word_on(&mut random, MOST_PAGES);
        for cut in (CUTS / 2..CUTS).map(Cut::of) {
            let runs = runs(&word, &cut.places());
            assert_eq!(runs.len(), cut.places().len() + 1);
            assert!(runs.iter().all(|run| !run.pages.is_empty()));
            let joined = |list: fn(&Run) -> &Vec<u32>| -> Vec<u32> {
                runs.iter().flat_map(|run| list(run).clone()).collect()
            };
            assert_eq!(joined(|run| &run.pages), word.pages);
            assert_eq!(joined(|run| &run.counts), word.counts);
            assert_eq!(joined(|run| &run.positions), word.positions);
        }
    }
}
