//! Damage of every kind: to bytes, to headers at each level, to runs and
//! pointers, to the form of a list, to whole parts, and to what the parts say of each other.

use super::random::Random;
use super::raw::{RawCard, RawList, RawTerm};
use crate::plain::bitmap;
use crate::plain::bits::{bytes_for_bits, bytes_to_run, place_of_bit};
use crate::plain::bytes::{number_at, push_number};
use crate::plain::edition::Form;
use crate::plain::list::{List, Shape};
use crate::plain::term::Term;
use crate::plain::GREATEST_BOUND;

/// How many faults a damaged block gets: mostly one.
pub fn faults(random: &mut Random) -> u32 {
    if random.once_in(3) {
        random.from_to(2, 4)
    } else {
        1
    }
}

/// A wrong length near the right one, near a header's size, or far off.
fn wrong_length(random: &mut Random, right: u32) -> u32 {
    let near = [1, 4, 8, 13, 44];
    match random.from_to(0, 3) {
        0 => right.wrapping_add(random.pick(&near)),
        1 => right.wrapping_sub(random.pick(&near)),
        2 => random.pick(&[0, 4, 5, 10, 11, 12, 13, 14, 43, 44, 45]),
        _ => random.pick(&[u32::MAX, 1 << 31, right << 8, right << 16, right | 1 << 24]),
    }
}

fn wrong_version(random: &mut Random, right: u8) -> u8 {
    let mut versions = vec![0, 1, 2, 3, 7, 129, 255];
    versions.retain(|version| *version != right);
    random.pick(&versions)
}

fn wrong_bound(random: &mut Random, right: u32) -> u32 {
    match random.from_to(0, 3) {
        0 => right.wrapping_add(1),
        1 => right.wrapping_sub(1),
        2 => random.pick(&[0, 1, GREATEST_BOUND, GREATEST_BOUND + 1, u32::MAX, 1 << 31]),
        _ => right ^ (1 << random.from_to(0, 31)),
    }
}

/// Makes one piece of a list block wrong.
pub fn damage_list(random: &mut Random, list: &mut RawList) {
    match random.from_to(0, 18) {
        0 => list.stated = Some(wrong_length(random, list.body.len() as u32 + 13)),
        1 => {
            list.version = wrong_version(random, list.version);
            if random.once_in(4) {
                list.bound = GREATEST_BOUND + 1;
            }
        }
        2 => list.bound = wrong_bound(random, list.bound),
        3 => list.count = wrong_count(random, list),
        4 => change_body_length(random, list),
        5 | 6 => flip_bit_of_body(random, list),
        7 | 8 => set_spare_bit(random, list),
        9 | 10 => damage_pointer(random, list),
        11 | 12 => move_a_one(random, list),
        13 => exchange_low_parts(random, list),
        14 => lower_bound_to_an_element(random, list),
        15 => exchange_runs(list),
        _ => misplace_form(random, list),
    }
}

/// Gives a list its other form, which no place has for it, in half the cases with a further fault.
fn misplace_form(random: &mut Random, list: &mut RawList) {
    match list.list() {
        Some((right, form)) => *list = RawList::of(&right, form.other()),
        None => list.version = random.pick(&Form::ALL).version(),
    }
    match random.from_to(0, 9) {
        0 => list.bound = GREATEST_BOUND + 1,
        1 | 6 => list.count = list.bound.wrapping_add(1),
        2 | 3 => change_body_length(random, list),
        4 => flip_bit_of_body(random, list),
        5 => list.count = 0,
        _ => {}
    }
}

fn wrong_count(random: &mut Random, list: &RawList) -> u32 {
    let (count, bound) = (list.count, list.bound);
    let choices = [
        count.wrapping_add(1),
        count.wrapping_sub(1),
        0,
        bound,
        bound.wrapping_add(1),
        u32::MAX,
        1 << 31,
    ];
    random.pick(&choices)
}

fn change_body_length(random: &mut Random, list: &mut RawList) {
    let change = random.pick(&[1, 3, 4, 8, 16]);
    if random.once_in(2) {
        let added = random.bytes(change);
        list.body.extend(if random.once_in(2) {
            vec![0; change]
        } else {
            added
        });
    } else {
        list.body.truncate(list.body.len().saturating_sub(change));
    }
}

fn flip_bit_of_body(random: &mut Random, list: &mut RawList) {
    if !list.body.is_empty() {
        let byte = random.place(list.body.len());
        list.body[byte] ^= 1 << random.from_to(0, 7);
    }
}

/// Where the runs of an undamaged body lie, and how many bits they use; a bitmap is an upper run alone.
struct Places {
    width: usize,
    numbers: usize,
    upper_bits: usize,
    lower: std::ops::Range<usize>,
    upper: std::ops::Range<usize>,
}

fn places(list: &RawList) -> Option<Places> {
    if list.count == 0 || list.count > list.bound || list.bound > GREATEST_BOUND {
        return None;
    }
    let shape = Shape::of(list.bound, list.count as usize);
    let in_runs = list.count as usize + shape.zeros;
    let (numbers, width, upper_bits) = match list.version == Form::Bitmap.version() {
        true => (bitmap::numbers(list.bound), 0, list.bound as usize),
        false => (shape.pointers(), shape.width as usize, in_runs),
    };
    let lower_start = 4 * numbers;
    let upper_start = lower_start + bytes_for_bits(list.count as usize * width);
    let upper_end = upper_start + bytes_for_bits(upper_bits);
    (upper_end == list.body.len()).then_some(Places {
        width,
        numbers,
        upper_bits,
        lower: lower_start..upper_start,
        upper: upper_start..upper_end,
    })
}

fn flip(bytes: &mut [u8], bit_of_run: usize) {
    let (byte, bit) = place_of_bit(bit_of_run);
    bytes[byte] ^= 1 << bit;
}

fn set_spare_bit(random: &mut Random, list: &mut RawList) {
    let Some(places) = places(list) else { return };
    let lower_bits = list.count as usize * places.width;
    let (run, used) = match lower_bits > 0 && random.once_in(2) {
        true => (places.lower, lower_bits),
        false => (places.upper, places.upper_bits),
    };
    let spare = run.len() * 8 - used;
    if spare > 0 {
        let bit = match random.from_to(0, 2) {
            0 => used,
            1 => run.len() * 8 - 1,
            _ => used + random.place(spare),
        };
        flip(&mut list.body[run], bit);
    }
}

fn damage_pointer(random: &mut Random, list: &mut RawList) {
    let Some(places) = places(list) else { return };
    if places.numbers == 0 {
        return;
    }
    let place = random.place(places.numbers) * 4;
    let right = number_at(&list.body, place);
    let wrong = match random.from_to(0, 4) {
        0 => right.wrapping_add(1),
        1 => right.wrapping_sub(1),
        2 => right.wrapping_add(random.pick(&[64, 512, 65_536])),
        3 => random.pick(&[0, 256, u32::MAX]),
        _ => places.upper_bits as u32,
    };
    let mut bytes = Vec::new();
    push_number(&mut bytes, wrong);
    list.body[place..place + 4].copy_from_slice(&bytes);
}

/// Moves a set bit of the upper run or the bitmap, so that the number of ones stays.
fn move_a_one(random: &mut Random, list: &mut RawList) {
    let Some(places) = places(list) else { return };
    let run = bytes_to_run(&list.body[places.upper.clone()]);
    let used = places.upper_bits;
    let ones: Vec<usize> = (0..used).filter(|i| run[*i]).collect();
    let zeros: Vec<usize> = (0..used).filter(|i| !run[*i]).collect();
    if ones.is_empty() || zeros.is_empty() {
        return;
    }
    let from = random.pick(&ones);
    let nearest = zeros
        .partition_point(|zero| *zero < from)
        .min(zeros.len() - 1);
    let to = match random.from_to(0, 2) {
        0 => zeros[nearest],
        1 => zeros[zeros.len() - 1],
        _ => random.pick(&zeros),
    };
    let upper = &mut list.body[places.upper];
    flip(upper, from);
    flip(upper, to);
}

/// Exchanges the low parts of two neighbours.
fn exchange_low_parts(random: &mut Random, list: &mut RawList) {
    let Some(places) = places(list) else { return };
    let width = places.width;
    if width == 0 || list.count < 2 {
        return;
    }
    let element = random.place(list.count as usize - 1);
    let lower = &mut list.body[places.lower];
    let run = bytes_to_run(lower);
    for bit in 0..width {
        let (first, second) = (element * width + bit, (element + 1) * width + bit);
        if run[first] != run[second] {
            flip(lower, first);
            flip(lower, second);
        }
    }
}

/// Takes U down to about an element, which is then not below U.
fn lower_bound_to_an_element(random: &mut Random, list: &mut RawList) {
    let less = random.from_to(1, 1 + list.bound.min(3));
    list.bound = list.bound.saturating_sub(less).max(list.count);
}

fn exchange_runs(list: &mut RawList) {
    if let Some(places) = places(list) {
        let upper = list.body[places.upper.clone()].to_vec();
        let lower = list.body[places.lower.clone()].to_vec();
        list.body.truncate(places.lower.start);
        list.body.extend(upper);
        list.body.extend(lower);
    }
}

/// Makes one piece of a term block wrong.
pub fn damage_term(random: &mut Random, term: &mut RawTerm) {
    let lists = term.lists.len();
    match random.from_to(0, 12) {
        0 => {
            let right = term.bytes().len() as u32;
            term.stated = Some(wrong_length(random, right));
        }
        1 => term.version = wrong_version(random, term.version),
        2 => {
            let length = random.pick(&[1, 4, 13, 20]);
            term.tail = random.bytes(length);
        }
        3 if lists > 1 => term.lists.swap(random.place(lists), random.place(lists)),
        4 if lists > 1 => drop(term.lists.remove(random.place(lists))),
        5 if lists > 0 => {
            let again = term.lists[random.place(lists)].clone();
            term.lists.push(again);
        }
        6 if lists > 0 => {
            let any = random.place(lists);
            let place = random.pick(&[0, any]);
            misplace_form(random, &mut term.lists[place]);
        }
        _ if lists > 0 => {
            let any = random.place(lists);
            let place = random.pick(&[0, any]);
            damage_list(random, &mut term.lists[place]);
        }
        _ => {}
    }
}

/// Makes one piece of a card wrong.
pub fn damage_card(random: &mut Random, card: &mut RawCard) {
    let terms = card.terms.len();
    match random.from_to(0, 15) {
        0 => {
            let right = card.bytes().len() as u32;
            card.stated = Some(wrong_length(random, right));
        }
        1 => card.version = wrong_version(random, card.version),
        2 => card.pages = wrong_bound(random, card.pages),
        3 | 4 => card.term_count = wrong_term_count(random, card.term_count),
        5 => {
            let length = random.pick(&[1, 5, 44, 60]);
            card.tail = random.bytes(length);
        }
        6 if terms > 1 => card.terms.swap(random.place(terms), random.place(terms)),
        7 if terms > 0 => drop(card.terms.remove(random.place(terms))),
        8 if terms > 0 => {
            let again = card.terms[random.place(terms)].clone();
            card.terms.insert(random.place(terms + 1), again);
        }
        _ if terms > 0 => {
            let place = random.place(terms);
            damage_term(random, &mut card.terms[place]);
        }
        _ => {}
    }
}

fn wrong_term_count(random: &mut Random, right: u16) -> u16 {
    let choices = [
        right.wrapping_add(1),
        right.wrapping_sub(1),
        0,
        4_096,
        4_097,
        65_535,
        right.wrapping_add(256),
    ];
    random.pick(&choices)
}

/// Makes the lists of a term disagree, each list staying valid.
pub fn disagree(random: &mut Random, term: &mut Term) {
    match random.from_to(0, 10) {
        0 => change_bound(random, &mut term.pages),
        1 | 2 => change_bound(random, &mut term.counts),
        3 | 4 => change_bound(random, &mut term.positions),
        5 => drop(term.pages.elements.pop()),
        6 => drop(term.counts.elements.pop()),
        7 => drop(term.positions.elements.pop()),
        8 => {
            term.positions.elements.pop();
            term.positions.bound = term.positions.end();
        }
        _ => count_one_too_many(term),
    }
}

/// Raises the counts' U by one and adds a position for it, so that only the
/// counts' own U is wrong.
fn count_one_too_many(term: &mut Term) {
    if term.positions.bound < GREATEST_BOUND {
        term.counts.bound += 1;
        term.positions.elements.push(term.positions.bound);
        term.positions.bound += 1;
    }
}

fn change_bound(random: &mut Random, list: &mut List) {
    let added = random.pick(&[1, 2, 5, 256]);
    list.bound = (list.bound + added).min(GREATEST_BOUND);
}

/// Damages bytes without regard to what they mean.
pub fn damage_bytes(random: &mut Random, bytes: &mut Vec<u8>) {
    match random.from_to(0, 9) {
        0..=2 => flip_any_bit(random, bytes),
        3 => {
            if let Some(byte) = any_byte(random, bytes) {
                *byte = random.bits() as u8;
            }
        }
        4 => truncate(random, bytes),
        5 => extend(random, bytes),
        6 => {
            truncate(random, bytes);
            state_true_length(bytes);
        }
        7 => {
            extend(random, bytes);
            state_true_length(bytes);
        }
        8 => exchange_stretches(random, bytes),
        _ => drop_or_insert_inside(random, bytes),
    }
}

fn any_byte<'a>(random: &mut Random, bytes: &'a mut [u8]) -> Option<&'a mut u8> {
    let place = random.place(bytes.len().max(1));
    bytes.get_mut(place)
}

fn flip_any_bit(random: &mut Random, bytes: &mut [u8]) {
    let reach = if random.once_in(3) { 60 } else { usize::MAX };
    let reach = reach.min(bytes.len());
    if let Some(byte) = any_byte(random, &mut bytes[..reach]) {
        *byte ^= 1 << random.from_to(0, 7);
    }
}

fn truncate(random: &mut Random, bytes: &mut Vec<u8>) {
    let length = match random.from_to(0, 3) {
        0 => random.from_to(0, 44) as usize,
        1 => bytes.len().saturating_sub(1),
        2 => bytes.len().saturating_sub(8),
        _ => random.place(bytes.len() + 1),
    };
    bytes.truncate(length);
}

fn extend(random: &mut Random, bytes: &mut Vec<u8>) {
    let added = random.pick(&[1, 2, 4, 8, 13, 44]);
    let zeros = random.once_in(2);
    bytes.extend(if zeros {
        vec![0; added]
    } else {
        random.bytes(added)
    });
}

/// Writes the true length over the first four bytes.
fn state_true_length(bytes: &mut [u8]) {
    let mut stated = Vec::new();
    push_number(&mut stated, bytes.len() as u32);
    if let Some(field) = bytes.get_mut(..4) {
        field.copy_from_slice(&stated);
    }
}

fn exchange_stretches(random: &mut Random, bytes: &mut [u8]) {
    let length = random.pick(&[1, 4, 8, 13]);
    if bytes.len() >= 2 * length {
        let first = random.place(bytes.len() - 2 * length + 1);
        let second = first + length + random.place(bytes.len() - first - 2 * length + 1);
        for i in 0..length {
            bytes.swap(first + i, second + i);
        }
    }
}

fn drop_or_insert_inside(random: &mut Random, bytes: &mut Vec<u8>) {
    let place = random.place(bytes.len() + 1);
    if random.once_in(2) {
        bytes.insert(place, random.bits() as u8);
    } else if place < bytes.len() {
        bytes.remove(place);
    }
    if random.once_in(2) {
        state_true_length(bytes);
    }
}
