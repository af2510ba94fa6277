//! Pairs of files for the program.

use super::calls::damaged_card;
use super::cards::{self, Card};
use super::questions;
use super::random::Random;
use super::raw::RawCard;
use crate::case::{Case, FileGiven};
use crate::plain::bytes::push_number;
use crate::plain::program::GREATEST_FILE;

/// The run of the program of this number for this seed.
pub fn run(seed: u64, number: u64) -> Case {
    let mut random = Random::of_case(seed, 2, number);
    let random = &mut random;
    let card = match random.once_in(2) {
        true => cards::small_card(random),
        false => cards::card(random),
    };
    let questions = question_file(random, &card);
    Case::Program {
        card: card_file(random, &card),
        questions,
    }
}

fn card_file(random: &mut Random, card: &Card) -> FileGiven {
    match random.from_to(0, 29) {
        0 => unreadable(random),
        1 => FileGiven::Bytes(Vec::new()),
        2 => FileGiven::Bytes(of_size_near_limit(random, RawCard::of(card).bytes())),
        3..=12 => FileGiven::Bytes(damaged_card(random, card, RawCard::of(card))),
        _ => FileGiven::Bytes(RawCard::of(card).bytes()),
    }
}

fn question_file(random: &mut Random, card: &Card) -> FileGiven {
    match random.from_to(0, 19) {
        0 => unreadable(random),
        1 => {
            let bytes = good_questions(random, card);
            FileGiven::Bytes(of_size_near_limit(random, bytes))
        }
        2 => {
            let mut bytes = good_questions(random, card);
            let left = random.from_to(1, 3) as usize;
            bytes.extend(random.bytes(left));
            FileGiven::Bytes(bytes)
        }
        3 => FileGiven::Bytes(numbers_to_bytes(&questions::bad_questions(random, card))),
        4 | 5 => FileGiven::Bytes(asked_many_times(random, card)),
        _ => FileGiven::Bytes(good_questions(random, card)),
    }
}

fn unreadable(random: &mut Random) -> FileGiven {
    match random.once_in(2) {
        true => FileGiven::Absent,
        false => FileGiven::Folder,
    }
}

fn good_questions(random: &mut Random, card: &Card) -> Vec<u8> {
    numbers_to_bytes(&questions::questions(random, card))
}

/// The same questions over and over, so that the answer room may not do.
fn asked_many_times(random: &mut Random, card: &Card) -> Vec<u8> {
    let once = good_questions(random, card);
    let times = GREATEST_FILE / once.len().max(1);
    once.repeat(times.min(2_000))
}

fn of_size_near_limit(random: &mut Random, mut bytes: Vec<u8>) -> Vec<u8> {
    let change = random.pick(&[0, 1, 2, 7_000]);
    bytes.resize(GREATEST_FILE - 1 + change, 0);
    if bytes.len() > 4 && random.once_in(2) {
        let mut stated = Vec::new();
        push_number(&mut stated, bytes.len() as u32);
        bytes[..4].copy_from_slice(&stated);
    }
    bytes
}

/// Numbers as a question file holds them.
fn numbers_to_bytes(numbers: &[u32]) -> Vec<u8> {
    let mut bytes = Vec::new();
    numbers
        .iter()
        .for_each(|number| push_number(&mut bytes, *number));
    bytes
}
