//! One host call with everything it is lent.

use super::cards::{self, Card, Word};
use super::random::Random;
use super::raw::{RawCard, RawList, RawTerm};
use super::{damage, editions, faulty_inputs, lists, questions, rooms};
use crate::case::Case;
use crate::plain::ask::reply;
use crate::plain::edition::{Edition, Form};
use crate::plain::index::INDEX_HEADER;
use crate::plain::list::{List, LIST_HEADER};
use crate::plain::term::{Term, TERM_HEADER};

/// The case of this number for this seed.
pub fn call(seed: u64, number: u64) -> Case {
    let mut random = Random::of_case(seed, 1, number);
    let random = &mut random;
    match random.from_to(0, 19) {
        0..=2 => write_list(random),
        3..=6 => check_list(random),
        7..=9 => write_term(random),
        10 | 11 => check_term(random),
        12 | 13 => close_index(random),
        14 | 15 => check_index(random),
        _ => ask(random),
    }
}

fn write_list(random: &mut Random) -> Case {
    let list = lists::list(random);
    write_list_of(random, list)
}

/// Writing of this list, spoiled in some cases.
pub fn write_list_of(random: &mut Random, mut list: List) -> Case {
    let needed = list.block().len();
    if random.once_in(4) {
        for _ in 0..damage::faults(random) {
            faulty_inputs::spoil_list(random, &mut list);
        }
    }
    let size = rooms::size(random, needed);
    Case::WriteList {
        bound: list.bound,
        list: list.elements,
        room: rooms::bytes(random, size),
    }
}

fn check_list(random: &mut Random) -> Case {
    let form = match random.once_in(8) {
        true => Form::Bitmap,
        false => Form::Runs,
    };
    let raw = RawList::of(&lists::list(random), form);
    check_list_of(random, raw)
}

/// The check of this list's block, damaged in most cases.
pub fn check_list_of(random: &mut Random, mut raw: RawList) -> Case {
    let damaged = !random.once_in(4);
    let mut byte_faults = 0;
    if damaged {
        for _ in 0..damage::faults(random) {
            match random.once_in(3) {
                true => byte_faults += 1,
                false => damage::damage_list(random, &mut raw),
            }
        }
    }
    let mut block = raw.bytes();
    (0..byte_faults).for_each(|_| damage::damage_bytes(random, &mut block));
    if damaged && random.once_in(60) {
        block.truncate(random.place(LIST_HEADER));
    }
    Case::CheckList { block }
}

fn write_term(random: &mut Random) -> Case {
    let (card_pages, word) = cards::page_count_and_word(random);
    let edition = editions::edition(random);
    write_term_of(random, edition, card_pages, word)
}

/// Writing of this word's term, spoiled in some cases.
pub fn write_term_of(
    random: &mut Random,
    edition: Edition,
    mut card_pages: u32,
    mut word: Word,
) -> Case {
    let needed = word.term(edition, card_pages).block().len();
    match random.from_to(0, 9) {
        0..=2 => {
            for _ in 0..damage::faults(random) {
                faulty_inputs::spoil_word(random, &mut card_pages, &mut word);
            }
        }
        3 => faulty_inputs::pass_limit_by_one(&mut word),
        _ => {}
    }
    let size = rooms::size(random, needed);
    let version = match random.once_in(16) {
        true => editions::unknown(random),
        false => edition.version(),
    };
    Case::WriteTerm {
        version,
        card_pages,
        pages: word.pages,
        counts: word.counts,
        positions: word.positions,
        room: rooms::bytes(random, size),
    }
}

fn check_term(random: &mut Random) -> Case {
    let (card_pages, word) = cards::page_count_and_word(random);
    let edition = editions::edition(random);
    check_term_of(random, word.term(edition, card_pages))
}

/// The check of this term's block, damaged in most cases.
pub fn check_term_of(random: &mut Random, mut term: Term) -> Case {
    if random.once_in(4) {
        damage::disagree(random, &mut term);
    }
    let mut raw = RawTerm::of(&term);
    let damaged = !random.once_in(3);
    let mut byte_faults = 0;
    if damaged {
        for _ in 0..damage::faults(random) {
            match random.once_in(4) {
                true => byte_faults += 1,
                false => damage::damage_term(random, &mut raw),
            }
        }
    }
    let mut block = raw.bytes();
    (0..byte_faults).for_each(|_| damage::damage_bytes(random, &mut block));
    if damaged && random.once_in(60) {
        block.truncate(random.place(TERM_HEADER));
    }
    let version = editions::told(random, term.edition);
    Case::CheckTerm { version, block }
}

/// The pieces of a card, some of them damaged.
fn damaged_pieces(random: &mut Random, card: &Card, mut raw: RawCard) -> RawCard {
    for _ in 0..damage::faults(random) {
        if random.once_in(3) && !card.words.is_empty() {
            let place = random.place(card.words.len());
            let mut term = card.term(place);
            damage::disagree(random, &mut term);
            if let Some(slot) = raw.terms.get_mut(place) {
                *slot = RawTerm::of(&term);
            }
        } else {
            damage::damage_card(random, &mut raw);
        }
    }
    raw
}

/// The bytes of a card in these pieces that is damaged in some way.
pub fn damaged_card(random: &mut Random, card: &Card, raw: RawCard) -> Vec<u8> {
    if random.once_in(3) {
        let mut bytes = raw.bytes();
        for _ in 0..damage::faults(random) {
            damage::damage_bytes(random, &mut bytes);
        }
        return bytes;
    }
    damaged_pieces(random, card, raw).bytes()
}

fn check_index(random: &mut Random) -> Case {
    let card = cards::card(random);
    let raw = RawCard::of(&card);
    check_index_of(random, &card, raw)
}

/// The check of this card, which is in these pieces, damaged in most cases.
pub fn check_index_of(random: &mut Random, card: &Card, raw: RawCard) -> Case {
    let mut bytes = match random.once_in(4) {
        true => raw.bytes(),
        false => damaged_card(random, card, raw),
    };
    if random.once_in(60) {
        bytes.truncate(random.place(INDEX_HEADER));
    }
    Case::CheckIndex { card: bytes }
}

fn close_index(random: &mut Random) -> Case {
    let card = cards::card(random);
    let raw = RawCard::of(&card);
    close_index_of(random, &card, raw)
}

/// The closing of this card, which is in these pieces, damaged in half the cases.
pub fn close_index_of(random: &mut Random, card: &Card, mut raw: RawCard) -> Case {
    if !random.once_in(2) {
        raw = damaged_pieces(random, card, raw);
    }
    let mut buffer = rooms::bytes(random, INDEX_HEADER);
    buffer.extend(raw.term_bytes());
    let mut used = buffer.len();
    if random.once_in(2) {
        let behind = random.from_to(1, 60) as usize;
        buffer.extend(rooms::bytes(random, behind));
    }
    if random.once_in(20) {
        buffer.truncate(random.place(2 * INDEX_HEADER));
        used = random.place(2 * INDEX_HEADER);
    }
    let mut card_pages = raw.pages;
    let mut term_count = u32::from(raw.term_count);
    let mut version = editions::told(random, card.edition);
    for _ in 0..random.pick(&[0, 0, 0, 1, 1, 2]) {
        match random.from_to(0, 4) {
            0 | 1 => used = wrong_used(random, used, buffer.len()),
            2 => card_pages = wrong_pages(random, card_pages),
            3 => version = editions::unknown(random),
            _ => term_count = wrong_terms(random, term_count),
        }
    }
    Case::CloseIndex {
        buffer,
        used,
        version,
        card_pages,
        term_count,
    }
}

fn wrong_used(random: &mut Random, right: usize, buffer: usize) -> usize {
    let choices = [
        0,
        10,
        11,
        12,
        right.saturating_sub(1),
        right.wrapping_add(1),
        buffer,
        buffer + 1,
        usize::MAX,
        1 << 32,
        random.place(buffer + 1),
    ];
    random.pick(&choices)
}

fn wrong_pages(random: &mut Random, right: u32) -> u32 {
    match random.once_in(2) {
        true => faulty_inputs::bound_over(random),
        false => random.pick(&[right.wrapping_add(1), right.wrapping_sub(1), 0]),
    }
}

fn wrong_terms(random: &mut Random, right: u32) -> u32 {
    match random.once_in(2) {
        true => faulty_inputs::terms_over(random, right),
        false => random.pick(&[right.wrapping_add(1), right.saturating_sub(1), 0, 4_096]),
    }
}

fn ask(random: &mut Random) -> Case {
    let card = cards::card(random);
    let questions = match random.once_in(6) {
        true => questions::bad_questions(random, &card),
        false => questions::questions(random, &card),
    };
    let raw = RawCard::of(&card);
    let bytes = match random.once_in(7) {
        true => damaged_card(random, &card, raw),
        false => raw.bytes(),
    };
    let answers = reply(&bytes, &questions, usize::MAX).answers;
    let size = answer_room(random, &answers);
    Case::Ask {
        card: bytes,
        questions,
        room: rooms::numbers(random, size),
    }
}

/// A room for answers, measured by all of them or by the first few.
pub fn answer_room(random: &mut Random, answers: &[Vec<u32>]) -> usize {
    let counted = match random.once_in(3) {
        true => random.place(answers.len() + 1),
        false => answers.len(),
    };
    let needed = answers[..counted].iter().map(Vec::len).sum();
    rooms::size(random, needed)
}
