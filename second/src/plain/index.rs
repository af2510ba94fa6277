//! An index of many words.

use super::bytes::{check_opening, next_part, number_at, push_number};
use super::edition::Edition;
use super::term::{take_apart, Term, TERM_HEADER};
use super::{refusal, GREATEST_BOUND, GREATEST_TERMS};

/// Bytes of an index's header.
pub const INDEX_HEADER: usize = 11;

/// Takes a card apart into its terms, or gives the first refusal.
pub fn check_index(card: &[u8]) -> Result<Vec<Term>, u32> {
    let version = check_opening(card, INDEX_HEADER)?;
    let edition = Edition::of_version(version.into())?;
    let card_pages = number_at(card, 5);
    let term_count = u32::from(card[9]) * 256 + u32::from(card[10]);
    check_limits(card_pages, term_count)?;
    check_terms(edition, &card[INDEX_HEADER..], card_pages, term_count)
}

/// Writes the header before the terms in a buffer and gives the card's length.
pub fn close_index(
    buffer: &mut [u8],
    used: usize,
    version: u32,
    card_pages: u32,
    term_count: u32,
) -> Result<usize, u32> {
    if used > buffer.len() {
        return Err(refusal::ROOM);
    }
    if used < INDEX_HEADER {
        return Err(refusal::SHORT);
    }
    let edition = Edition::of_version(version)?;
    let length = u32::try_from(used).map_err(|_| refusal::LIMIT)?;
    check_limits(card_pages, term_count)?;
    let terms = &buffer[INDEX_HEADER..used];
    check_terms(edition, terms, card_pages, term_count)?;
    let header = index_header(edition, length, card_pages, term_count);
    buffer[..INDEX_HEADER].copy_from_slice(&header);
    Ok(used)
}

/// The 11 bytes before the terms.
pub fn index_header(edition: Edition, length: u32, card_pages: u32, term_count: u32) -> Vec<u8> {
    let mut header = Vec::new();
    push_number(&mut header, length);
    header.push(edition.version() as u8);
    push_number(&mut header, card_pages);
    header.extend([(term_count / 256) as u8, (term_count % 256) as u8]);
    header
}

fn check_limits(card_pages: u32, term_count: u32) -> Result<(), u32> {
    if card_pages > GREATEST_BOUND || term_count > GREATEST_TERMS {
        return Err(refusal::LIMIT);
    }
    Ok(())
}

fn check_terms(
    edition: Edition,
    bytes: &[u8],
    card_pages: u32,
    term_count: u32,
) -> Result<Vec<Term>, u32> {
    let mut rest = bytes;
    let mut terms = Vec::new();
    for _ in 0..term_count {
        let term = take_apart(edition, next_part(&mut rest, TERM_HEADER)?)?;
        if term.pages.bound != card_pages {
            return Err(refusal::PARTS);
        }
        terms.push(term);
    }
    if !rest.is_empty() {
        return Err(refusal::SIZE);
    }
    Ok(terms)
}
