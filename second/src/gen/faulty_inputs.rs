//! What a host can hand the writers and the closing, made wrong.

use super::cards::Word;
use super::random::Random;
use crate::plain::list::List;
use crate::plain::GREATEST_BOUND;

/// A bound over its limit.
pub fn bound_over(random: &mut Random) -> u32 {
    random.pick(&[GREATEST_BOUND + 1, GREATEST_BOUND * 2, 1 << 31, u32::MAX])
}

/// A number of terms over its limit; some would fit if cut to 16 bits.
pub fn terms_over(random: &mut Random, right: u32) -> u32 {
    random.pick(&[4_097, right.wrapping_add(65_536), 65_537, 1 << 24, u32::MAX])
}

/// Makes one thing about a list wrong.
pub fn spoil_list(random: &mut Random, list: &mut List) {
    match random.from_to(0, 6) {
        0 => list.bound = bound_over(random),
        1 => list.bound = list.elements.last().copied().unwrap_or(0),
        2 => list.bound = random.from_to(0, list.bound),
        _ => spoil_order(random, &mut list.elements, list.bound),
    }
}

/// Puts numbers out of order, or at or above the bound.
fn spoil_order(random: &mut Random, numbers: &mut Vec<u32>, bound: u32) {
    let length = numbers.len();
    match random.from_to(0, 4) {
        0 if length > 1 => {
            let place = random.place(length - 1);
            numbers.swap(place, place + 1);
        }
        1 if length > 1 => {
            let place = random.place(length - 1);
            numbers[place] = numbers[place + 1];
        }
        2 if length > 0 => {
            let place = random.place(length);
            numbers[place] = random.bits() as u32;
        }
        3 => numbers.push(u32::MAX),
        _ => numbers.push(bound),
    }
}

/// Makes one thing about the inputs of a term wrong.
pub fn spoil_word(random: &mut Random, card_pages: &mut u32, word: &mut Word) {
    match random.from_to(0, 15) {
        0 => *card_pages = bound_over(random),
        1 => *card_pages = word.pages.last().copied().unwrap_or(0),
        2 | 3 => spoil_order(random, &mut word.pages, *card_pages),
        4 => drop(word.pages.pop()),
        5 => drop(word.counts.pop()),
        6 => word.counts.push(1),
        7 | 8 => spoil_counts(random, &mut word.counts),
        9 => drop(word.positions.pop()),
        10 => word.positions.push(random.from_to(0, 9)),
        11 | 12 => spoil_positions(random, word),
        _ => stretch_positions(random, word),
    }
}

/// A count of 0, one that is off, or sums that come right only in 32 bits.
fn spoil_counts(random: &mut Random, counts: &mut [u32]) {
    let pages = counts.len();
    if pages == 0 {
        return;
    }
    let place = random.place(pages);
    let other = random.place(pages);
    match random.from_to(0, 4) {
        0 => counts[place] = 0,
        1 if place != other => {
            counts[other] = counts[other].wrapping_add(counts[place]);
            counts[place] = 0;
        }
        2 => counts[place] = u32::MAX,
        3 if place != other => {
            counts[place] = counts[place].wrapping_add(1 << 31);
            counts[other] = counts[other].wrapping_add(1 << 31);
        }
        _ => counts[place] = counts[place].wrapping_add(random.pick(&[1, u32::MAX])),
    }
}

/// Positions out of order within a page that has two of them.
fn spoil_positions(random: &mut Random, word: &mut Word) {
    let mut first = 0;
    for count in &word.counts {
        let next = first + *count as usize;
        if *count > 1 && next <= word.positions.len() && random.once_in(2) {
            let place = first + random.place(*count as usize - 1);
            if random.once_in(2) {
                word.positions[place + 1] = word.positions[place];
            } else {
                word.positions.swap(place, place + 1);
            }
            return;
        }
        first = next;
    }
}

/// Takes the last position of some pages far out: U just over, or past 32 bits.
fn stretch_positions(random: &mut Random, word: &mut Word) {
    let far = random.pick(&[GREATEST_BOUND, GREATEST_BOUND + 1, 1 << 31, u32::MAX]);
    let every_page = random.once_in(2);
    let last_page = word.counts.len().saturating_sub(1);
    let mut next = 0;
    for (page, count) in word.counts.iter().enumerate() {
        next += *count as usize;
        if every_page || page == last_page {
            if let Some(position) = next.checked_sub(1).and_then(|i| word.positions.get_mut(i)) {
                *position = far;
            }
        }
    }
}

/// Takes the positions' U to the limit plus 1, all else staying good.
pub fn pass_limit_by_one(word: &mut Word) {
    let mut before_last_page = 0_u32;
    let mut first = 0;
    for count in &word.counts {
        let next = first + *count as usize;
        if next < word.positions.len() {
            before_last_page += word.positions[next - 1] + 1;
        }
        first = next;
    }
    if let Some(last) = word.positions.last_mut() {
        *last = GREATEST_BOUND - before_last_page;
    }
}
