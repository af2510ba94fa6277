//! A card: its check, its closing, and the way to a term.

use crate::bits::{number, put_number};
use crate::check::{check_opening, check_term, next_part, TERM_HEADER};
use crate::refusal;
use crate::shape::{is_edition, GREATEST_BOUND};

/// Bytes before a card's first term.
pub const CARD_HEADER: usize = 11;

const GREATEST_TERMS: u32 = 4_096;

/// Checks a card; gives T.
pub fn check_index(card: &[u8]) -> Result<u32, u32> {
    let edition = u32::from(check_opening(card, CARD_HEADER)?);
    if !is_edition(edition) {
        return Err(refusal::VERSION);
    }
    let pages = unsafe { number(card.as_ptr().add(5)) };
    let terms = u32::from(u16::from_be_bytes([card[9], card[10]]));
    if pages > GREATEST_BOUND || terms > GREATEST_TERMS {
        return Err(refusal::LIMIT);
    }
    check_terms(edition, &card[CARD_HEADER..], pages, terms)?;
    Ok(terms)
}

/// Checks the terms of a card of an edition.
fn check_terms(edition: u32, mut rest: &[u8], pages: u32, terms: u32) -> Result<(), u32> {
    for _ in 0..terms {
        if check_term(edition, next_part(&mut rest, TERM_HEADER)?)? != pages {
            return Err(refusal::PARTS);
        }
    }
    match rest.is_empty() {
        true => Ok(()),
        false => Err(refusal::LAYOUT),
    }
}

/// Closes an index of an edition in its buffer; gives its length.
pub fn close_index(
    buffer: &mut [u8],
    used: usize,
    edition: u32,
    pages: u32,
    terms: u32,
) -> Result<usize, u32> {
    if used > buffer.len() {
        return Err(refusal::ROOM);
    }
    if used < CARD_HEADER {
        return Err(refusal::SHORT);
    }
    if !is_edition(edition) {
        return Err(refusal::VERSION);
    }
    if used > u32::MAX as usize || pages > GREATEST_BOUND || terms > GREATEST_TERMS {
        return Err(refusal::LIMIT);
    }
    check_terms(edition, &buffer[CARD_HEADER..used], pages, terms)?;
    let at = buffer.as_mut_ptr();
    unsafe {
        put_number(at, used as u32);
        *at.add(4) = edition as u8;
        put_number(at.add(5), pages);
    }
    buffer[9..CARD_HEADER].copy_from_slice(&(terms as u16).to_be_bytes());
    Ok(used)
}

/// Finds the terms of a question on an accepted card, on one way over the lengths.
///
/// # Safety
/// The card is accepted and every term lies on it.
#[inline(always)]
pub unsafe fn find_terms(card: *const u8, terms: &[u32], found: &mut [*const u8; 8]) {
    let mut order = [0_u8; 8];
    for (i, term) in terms.iter().enumerate() {
        let mut at = i;
        while at > 0 && terms[order[at - 1] as usize] > *term {
            order[at] = order[at - 1];
            at -= 1;
        }
        order[at] = i as u8;
    }
    let (mut at, mut passed) = (card.add(CARD_HEADER), 0);
    for i in &order[..terms.len()] {
        while passed < terms[*i as usize] {
            at = at.add(number(at) as usize);
            passed += 1;
        }
        found[*i as usize] = at;
    }
}
