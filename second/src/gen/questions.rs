//! Questions good and bad.

use super::cards::Card;
use super::phrases::{self, in_a_row, of_pairs};
use super::random::Random;

/// Some questions over a card, as one list of numbers.
pub fn questions(random: &mut Random, card: &Card) -> Vec<u32> {
    let mut numbers = Vec::new();
    if !card.words.is_empty() {
        let most = random.pick(&[1, 3, 12]);
        for _ in 0..random.from_to(0, most) {
            numbers.extend(question(random, card));
        }
    }
    numbers
}

/// Questions with one or more faults in them.
pub fn bad_questions(random: &mut Random, card: &Card) -> Vec<u32> {
    let mut numbers = questions(random, card);
    match random.from_to(0, 5) {
        0 => {
            let place = random.place(numbers.len() + 1);
            numbers.truncate(place);
        }
        1 => {
            let place = random.place(numbers.len().max(1));
            if let Some(number) = numbers.get_mut(place) {
                *number = random.pick(&[0, 1, 5, 9, 18, 255, 256, u32::MAX, 1 << 31]);
            }
        }
        2 => numbers.insert(random.place(numbers.len() + 1), random.from_to(0, 9)),
        3 => {
            numbers.extend(bad_question(random, card));
            numbers.extend(questions(random, card));
        }
        _ => numbers.extend(bad_question(random, card)),
    }
    numbers
}

/// The ranks and bounds of each word that a tour asks for.
const TOUR_STOPS: u32 = 16;

/// Ranks and bounds of each of these words, then common pages and phrases of
/// each of them with a rare word, of the first two and of all; then phrases of
/// the words around the rare one.
pub fn tour(random: &mut Random, card: &Card, terms: &[u32], rare: u32) -> Vec<u32> {
    let mut numbers = Vec::new();
    for term in terms {
        for _ in 0..TOUR_STOPS {
            numbers.extend([1, 2, *term, any_rank(random, card, *term)]);
            numbers.extend([2, 2, *term, any_bound(random, card, *term)]);
        }
        numbers.extend(of_terms(3, vec![*term, rare]));
        numbers.extend(of_pairs(&in_a_row(&[rare, *term])));
        numbers.extend(of_pairs(&phrases::apart(random, &[rare, *term])));
    }
    for together in [&terms[..2], terms] {
        numbers.extend(of_terms(3, together.to_vec()));
        numbers.extend(of_pairs(&in_a_row(together)));
        numbers.extend(of_pairs(&phrases::apart(random, together)));
    }
    for _ in 0..TOUR_STOPS {
        let page = random.pick(&card.words[rare as usize].pages);
        numbers.extend(of_pairs(&phrases::on_page(random, card, page)));
    }
    numbers
}

/// One good question.
fn question(random: &mut Random, card: &Card) -> Vec<u32> {
    match random.from_to(1, 10) {
        1 => {
            let term = any_term(random, card);
            let rank = any_rank(random, card, term);
            vec![1, 2, term, rank]
        }
        2 | 3 => {
            let term = any_term(random, card);
            let bound = any_bound(random, card, term);
            vec![2, 2, term, bound]
        }
        4..=6 => of_terms(3, terms(random, card)),
        7 => of_pairs(&in_a_row(&terms(random, card))),
        8 => {
            let terms = terms(random, card);
            of_pairs(&phrases::apart(random, &terms))
        }
        _ => phrase_of_a_page(random, card),
    }
}

/// A phrase that stands on some page, or nearly so; any words where the page has none.
fn phrase_of_a_page(random: &mut Random, card: &Card) -> Vec<u32> {
    let page = random.from_to(0, card.pages.max(1) - 1);
    let pairs = phrases::on_page(random, card, page);
    match pairs.is_empty() {
        true => of_pairs(&in_a_row(&terms(random, card))),
        false => of_pairs(&pairs),
    }
}

fn of_terms(kind: u32, terms: Vec<u32>) -> Vec<u32> {
    [vec![kind, terms.len() as u32], terms].concat()
}

fn any_term(random: &mut Random, card: &Card) -> u32 {
    let last = card.words.len() as u32 - 1;
    match random.from_to(0, 5) {
        0 => 0,
        1 => last,
        _ => random.from_to(0, last),
    }
}

fn any_rank(random: &mut Random, card: &Card, term: u32) -> u32 {
    let count = card.words[term as usize].pages.len() as u32;
    match random.from_to(0, 4) {
        0 => count,
        1 => count.saturating_sub(1),
        2 => random.pick(&[0, u32::MAX, 1 << 31, count + 1]),
        _ => random.from_to(0, count),
    }
}

/// A bound at or around a page of a word, at the ends, or anywhere.
pub fn any_bound(random: &mut Random, card: &Card, term: u32) -> u32 {
    let pages = &card.words[term as usize].pages;
    let page = match pages.is_empty() {
        true => 0,
        false => random.pick(pages),
    };
    match random.from_to(0, 5) {
        0 => page,
        1 => page + 1,
        2 => page.saturating_sub(1),
        3 => random.pick(&[0, card.pages, card.pages.saturating_sub(1), u32::MAX]),
        _ => random.from_to(0, card.pages),
    }
}

/// One to eight words of a card that has some.
pub fn terms(random: &mut Random, card: &Card) -> Vec<u32> {
    let most = random.pick(&[2, 3, 8]);
    (0..random.from_to(1, most))
        .map(|_| any_term(random, card))
        .collect()
}

/// One question with a fault that shows in itself.
fn bad_question(random: &mut Random, card: &Card) -> Vec<u32> {
    let count = card.words.len() as u32;
    let not_a_term = random.pick(&[count, count + 1, u32::MAX, 65_536 + count]);
    let mut eight = [0; 8];
    eight[random.place(8)] = not_a_term;
    match random.from_to(0, 15) {
        0 => vec![random.pick(&[0, 5, 6, u32::MAX]), 2, 0, 0],
        1 => vec![random.pick(&[1, 2]), 1, 0],
        2 => vec![random.pick(&[1, 2]), 3, 0, 0, 0],
        3 => vec![random.pick(&[1, 2, 3, 4]), 0],
        4 => [vec![random.pick(&[3, 4]), 9], vec![0; 9]].concat(),
        5 => [vec![random.pick(&[3, 4]), u32::MAX], vec![0; 4]].concat(),
        6 => vec![random.pick(&[1, 2]), 2, not_a_term, 0],
        7 => of_terms(3, eight.to_vec()),
        8 => of_pairs(&in_a_row(&eight)),
        9 => vec![random.pick(&[1, 2, 3, 4])],
        10 => vec![random.pick(&[1, 2, 3, 4]), 2, 0],
        11 => vec![random.pick(&[3, 4]), u32::MAX - 1],
        _ => phrases::bad(random, count),
    }
}
