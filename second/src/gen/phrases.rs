//! Phrases good and bad, as pairs of a term and an offset.

use super::cards::Card;
use super::random::Random;
use crate::plain::{GREATEST_OFFSET, GREATEST_WORDS};

/// A term and its offset.
type Pair = (u32, u32);

/// The question of kind 4 with these pairs.
pub fn of_pairs(pairs: &[Pair]) -> Vec<u32> {
    of_numbers(numbers_of(pairs))
}

fn of_numbers(numbers: Vec<u32>) -> Vec<u32> {
    [vec![4, numbers.len() as u32], numbers].concat()
}

fn numbers_of(pairs: &[Pair]) -> Vec<u32> {
    pairs
        .iter()
        .flat_map(|(term, offset)| [*term, *offset])
        .collect()
}

/// These terms, each right behind the one before.
pub fn in_a_row(terms: &[u32]) -> Vec<Pair> {
    terms.iter().copied().zip(0..).collect()
}

/// These terms with small or large gaps between them, as far as offsets go.
pub fn apart(random: &mut Random, terms: &[u32]) -> Vec<Pair> {
    let most = random.pick(&[2, 4, 36, GREATEST_OFFSET]);
    let mut next = 0;
    let mut pairs = Vec::new();
    for term in terms {
        pairs.push((*term, next));
        next += random.from_to(1, most);
    }
    pairs.retain(|(_, offset)| *offset <= GREATEST_OFFSET);
    if pairs.len() > 1 && random.once_in(6) {
        move_last(&mut pairs, GREATEST_OFFSET);
    }
    pairs
}

/// Moves the last pair of a phrase to this offset.
fn move_last(pairs: &mut [Pair], offset: u32) {
    if let Some(last) = pairs.last_mut() {
        last.1 = offset;
    }
}

/// Words as they stand on a page, others dropped between them; in some cases
/// one of them is a position off. None where the page has no word.
pub fn on_page(random: &mut Random, card: &Card, page: u32) -> Vec<Pair> {
    let text = text_of_page(card, page);
    if text.is_empty() {
        return Vec::new();
    }
    let first = random.place(text.len());
    let mut pairs = match random.from_to(0, 5) {
        0 | 1 => dropping(random, &text[first..], 0),
        2 | 3 => dropping(random, &text[first..], 3),
        4 => dropping(random, &text[first..], 40),
        _ => ends(random, &text[first / 4..]),
    };
    if random.once_in(5) {
        push_off(random, &mut pairs);
    }
    pairs
}

/// Some words of a text from its first on, up to so many left out between two of them.
fn dropping(random: &mut Random, text: &[Placed], most_dropped: u32) -> Vec<Pair> {
    let wanted = random.pick(&[1, 2, 2, 3, 4, GREATEST_WORDS]);
    let mut pairs = Vec::new();
    let mut place = 0;
    while pairs.len() < wanted && place < text.len() {
        pairs.push((text[place].term, text[place].position - text[0].position));
        place += 1 + random.from_to(0, most_dropped) as usize;
    }
    pairs.retain(|(_, offset)| *offset <= GREATEST_OFFSET);
    pairs
}

/// The first word of a text and the last that an offset reaches, and in half the cases one between them.
fn ends(random: &mut Random, text: &[Placed]) -> Vec<Pair> {
    let offset_of = |word: &Placed| word.position - text[0].position;
    let within = |word: &&Placed| offset_of(word) <= GREATEST_OFFSET;
    let within: Vec<Pair> = text
        .iter()
        .take_while(within)
        .map(|word| (word.term, offset_of(word)))
        .collect();
    let mut chosen = vec![0, within.len() - 1];
    if random.once_in(2) {
        chosen.push(random.place(within.len()));
    }
    chosen.sort_unstable();
    chosen.dedup();
    chosen.into_iter().map(|place| within[place]).collect()
}

/// Moves the last word a position on or back, where its offset stays good.
fn push_off(random: &mut Random, pairs: &mut [Pair]) {
    if let [.., (_, before), (_, last)] = pairs {
        let moved = random.pick(&[*last + 1, *last - 1]);
        if moved > *before && moved <= GREATEST_OFFSET {
            *last = moved;
        }
    }
}

/// A word at its position on a page.
#[derive(Clone, Copy, PartialEq, Eq, PartialOrd, Ord)]
struct Placed {
    position: u32,
    term: u32,
}

/// The words of a page in the order of their positions, one at each.
fn text_of_page(card: &Card, page: u32) -> Vec<Placed> {
    let mut text = Vec::new();
    for (term, word) in (0..).zip(&card.words) {
        if let Ok(rank) = word.pages.binary_search(&page) {
            let first: u32 = word.counts[..rank].iter().sum();
            let positions = &word.positions[first as usize..][..word.counts[rank] as usize];
            text.extend(positions.iter().map(|position| Placed {
                position: *position,
                term,
            }));
        }
    }
    text.sort_unstable();
    text.dedup_by_key(|word| word.position);
    text
}

/// A bad phrase for a card with so many terms, most with one fault alone.
pub fn bad(random: &mut Random, term_count: u32) -> Vec<u32> {
    let terms: Vec<u32> = (0..random.from_to(2, 7))
        .map(|_| random.from_to(0, term_count.max(1) - 1))
        .collect();
    let mut pairs = apart(random, &terms);
    let last = pairs.len() - 1;
    match random.from_to(0, 7) {
        0 => pairs.iter_mut().for_each(|(_, offset)| *offset += 1),
        1 => pairs.push((terms[0], pairs[last].1)),
        2 => pairs.insert(last, (terms[0], pairs[last].1 + 1)),
        3 => move_last(&mut pairs, random.pick(&[256, 257, 511, u32::MAX])),
        4 => pairs = row_of(&terms, random.from_to(9, 12)),
        5 => return odd(random, &terms),
        6 => return cut_short(random, &pairs),
        _ => pairs = vec![(terms[0], random.pick(&[1, 255, 256, u32::MAX]))],
    }
    of_pairs(&pairs)
}

/// So many pairs of these terms over and over, in a row.
fn row_of(terms: &[u32], count: u32) -> Vec<Pair> {
    let again: Vec<u32> = terms.iter().copied().cycle().take(count as usize).collect();
    in_a_row(&again)
}

/// An odd number of numbers, from 1 to 17: one fewer than some pairs have, or one more.
fn odd(random: &mut Random, terms: &[u32]) -> Vec<u32> {
    let mut numbers = numbers_of(&row_of(terms, random.from_to(1, 8)));
    match random.once_in(2) {
        true => drop(numbers.pop()),
        false => numbers.push(0),
    }
    of_numbers(numbers)
}

/// A good phrase cut short behind its kind or further on.
fn cut_short(random: &mut Random, pairs: &[Pair]) -> Vec<u32> {
    let mut question = of_pairs(pairs);
    question.truncate(1 + random.place(question.len() - 1));
    question
}
