//! Words and whole cards of every shape, as the writer is handed them.

use super::random::Random;
use super::{editions, lists};
use crate::plain::edition::Edition;
use crate::plain::term::Term;
use crate::plain::GREATEST_BOUND;

/// One word as the writer of a term is handed it.
#[derive(Clone, Debug)]
pub struct Word {
    /// The pages it stands on.
    pub pages: Vec<u32>,
    /// How often it stands on each.
    pub counts: Vec<u32>,
    /// Where it stands on each.
    pub positions: Vec<u32>,
}

/// A card before it is written: its edition, pages and words.
#[derive(Clone, Debug)]
pub struct Card {
    /// The edition.
    pub edition: Edition,
    /// N.
    pub pages: u32,
    /// The words in the order of their numbers.
    pub words: Vec<Word>,
}

impl Word {
    /// A word on no page.
    pub fn nowhere() -> Word {
        Word {
            pages: Vec::new(),
            counts: Vec::new(),
            positions: Vec::new(),
        }
    }

    /// The three lists of a valid word.
    pub fn term(&self, edition: Edition, card_pages: u32) -> Term {
        let (pages, counts) = (&self.pages, &self.counts);
        Term::from_inputs(edition, card_pages, pages, counts, &self.positions)
            .expect("the generator makes valid words")
    }

    /// Lets the word stand on one more page, at these positions.
    pub fn stand(&mut self, page: u32, positions: &[u32]) {
        self.pages.push(page);
        self.counts.push(positions.len() as u32);
        self.positions.extend(positions);
    }
}

impl Card {
    /// A card of some edition.
    pub fn of(random: &mut Random, pages: u32, words: Vec<Word>) -> Card {
        let edition = editions::edition(random);
        Card {
            edition,
            pages,
            words,
        }
    }

    /// The lists of its word of this number.
    pub fn term(&self, word: usize) -> Term {
        self.words[word].term(self.edition, self.pages)
    }
}

/// A number of pages and a valid word on them.
pub fn page_count_and_word(random: &mut Random) -> (u32, Word) {
    let pages = lists::list(random);
    let word = word_on(random, pages.elements);
    (pages.bound, word)
}

/// The same with dense pages, whose number is a multiple of 256 or next to one.
pub fn page_count_and_dense_word(random: &mut Random) -> (u32, Word) {
    let pages = lists::around_whole_numbers(random);
    let word = word_on(random, pages.elements);
    (pages.bound, word)
}

/// A word that stands on these pages, some times on each.
pub fn word_on(random: &mut Random, pages: Vec<u32>) -> Word {
    let mut left = GREATEST_BOUND;
    let mut pages_left = pages.len() as u32;
    let manner = random.from_to(0, 5);
    let mut word = Word::nowhere();
    for page in pages {
        let most = left / pages_left;
        let positions = positions_on_a_page(random, manner, most);
        left -= positions.last().map_or(0, |last| last + 1);
        pages_left -= 1;
        word.stand(page, &positions);
    }
    if manner == 5 {
        stretch_to_limit(&mut word, left);
    }
    word
}

/// Rising positions, at least one, all below `most`.
fn positions_on_a_page(random: &mut Random, manner: u32, most: u32) -> Vec<u32> {
    let (greatest_count, greatest_gap) = match manner {
        0 | 1 => (1, 5),
        2 => (4, 0),
        3 => (6, 9),
        4 => (2, 200_000),
        _ => (if random.once_in(40) { 400 } else { 2 }, 3),
    };
    let mut next = random.from_to(0, greatest_gap).min(most - 1);
    let mut positions = vec![next];
    for _ in 1..random.from_to(1, greatest_count) {
        next += 1 + random.from_to(0, greatest_gap);
        if next < most {
            positions.push(next);
        }
    }
    positions
}

/// Moves the last position so that the positions' U is the limit itself.
fn stretch_to_limit(word: &mut Word, left: u32) {
    if let Some(last) = word.positions.last_mut() {
        *last += left;
    }
}

/// A valid card of some shape.
pub fn card(random: &mut Random) -> Card {
    match random.from_to(0, 19) {
        0 => without_words(random),
        1 => of_empty_words(random),
        2..=7 => of_text(random),
        8..=16 => of_lists(random),
        17 | 18 => of_run_ends(random),
        _ => of_many_words(random),
    }
}

/// A card whose block is small.
pub fn small_card(random: &mut Random) -> Card {
    match random.from_to(0, 3) {
        0 => of_empty_words(random),
        1 => of_lists_on(random, 12),
        _ => of_text(random),
    }
}

fn without_words(random: &mut Random) -> Card {
    let pages = lists::bound(random);
    Card::of(random, pages, Vec::new())
}

fn of_empty_words(random: &mut Random) -> Card {
    let pages = if random.once_in(2) {
        0
    } else {
        lists::bound(random)
    };
    let words = vec![Word::nowhere(); random.from_to(1, 9) as usize];
    Card::of(random, pages, words)
}

fn of_text(random: &mut Random) -> Card {
    let pages = random.from_to(1, 24);
    let vocabulary = random.from_to(1, 7) as usize;
    let longest = random.pick(&[3, 12, 40, 300]);
    text(random, pages, vocabulary, longest)
}

/// Pages of running text over a few words, so that phrases occur.
pub fn text(random: &mut Random, pages: u32, vocabulary: usize, longest: u32) -> Card {
    let mut words = vec![Word::nowhere(); vocabulary];
    for page in 0..pages {
        let mut places = vec![Vec::new(); vocabulary];
        for position in 0..random.from_to(0, longest) {
            places[random.place(vocabulary)].push(position);
        }
        for (word, positions) in words.iter_mut().zip(places) {
            if !positions.is_empty() {
                word.stand(page, &positions);
            }
        }
    }
    Card::of(random, pages, words)
}

/// A few words with lists of all densities.
fn of_lists(random: &mut Random) -> Card {
    let pages = match random.from_to(0, 5) {
        0 => random.from_to(1, 60),
        1 | 2 => random.from_to(256, 1_500),
        3 => 256 * random.from_to(1, 8),
        4 => random.from_to(1_500, 6_000),
        _ => lists::bound(random).max(1),
    };
    of_lists_on(random, pages)
}

fn of_lists_on(random: &mut Random, pages: u32) -> Card {
    let mut words: Vec<Word> = Vec::new();
    for _ in 0..random.from_to(1, 6) {
        let on = match words.last() {
            Some(before) if random.once_in(4) => nearly(random, &before.pages, pages),
            _ => pages_of_some_density(random, pages),
        };
        words.push(word_on(random, on));
    }
    Card::of(random, pages, words)
}

fn pages_of_some_density(random: &mut Random, pages: u32) -> Vec<u32> {
    let most = pages.min(2_500);
    let count = match random.from_to(0, 11) {
        0 => 0,
        1 => most,
        2..=4 => random.from_to(1, most.min(12)),
        5 | 6 => random.from_to(most / 2, most),
        7 | 8 => lists::count_at_density_edge(random, pages).min(most),
        _ => random.from_to(1, most),
    };
    lists::spread(random, pages, count).elements
}

/// The same pages with a few left out and a few added.
pub fn nearly(random: &mut Random, before: &[u32], pages: u32) -> Vec<u32> {
    let mut on: Vec<u32> = before.to_vec();
    on.retain(|_| !random.once_in(8));
    for _ in 0..random.from_to(0, 4) {
        on.push(random.from_to(0, pages - 1));
    }
    on.sort_unstable();
    on.dedup();
    on
}

/// A card around lists whose last pointer is the run's end.
pub fn of_run_ends(random: &mut Random) -> Card {
    let width = random.from_to(1, 5);
    let whole = (256 * random.from_to(1, 3)) << width;
    run_ends(random, width, whole)
}

/// Lists whose last pointer is the run's end while a bound can still lie
/// behind it, with a sparse word on the last pages to seek there.
pub fn run_ends(random: &mut Random, width: u32, whole: u32) -> Card {
    let pages = whole + random.from_to(1, (1 << width) - 1);
    let mut words = Vec::new();
    for _ in 0..random.from_to(1, 3) {
        let count = lists::count_for_width(random, pages, width);
        let below = if random.once_in(4) { pages } else { whole };
        let on = lists::uniform(random, below, count);
        words.push(word_on(random, on));
    }
    let mut on = pages_of_some_density(random, whole.min(20));
    on.extend(whole..pages);
    words.push(word_on(random, on));
    let turn = random.place(words.len());
    words.rotate_right(turn);
    Card::of(random, pages, words)
}

/// Many tiny words, up to the limit of terms.
fn of_many_words(random: &mut Random) -> Card {
    let pages = random.from_to(1, 5);
    let count = match random.from_to(0, 15) {
        0 => 4_096,
        1 => 4_095,
        _ => random.from_to(7, 400),
    };
    let mut words = Vec::new();
    for _ in 0..count {
        let on = (0..pages).filter(|_| random.once_in(3)).collect();
        words.push(word_on(random, on));
    }
    Card::of(random, pages, words)
}
