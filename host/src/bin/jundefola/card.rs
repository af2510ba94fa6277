//! Where the parts of a card lie, by the lengths that they state.

use jundefola::Edition;

use crate::list;

/// The version of a term block in every edition.
pub const TERM_VERSION: u8 = 1;

/// The bytes of a term block before its first list, and the fewest that a whole one has.
pub const TERM_HEADER: usize = 5;
pub const SHORTEST_TERM: usize = TERM_HEADER + 3 * list::HEADER;

/// The big-endian number at a place.
pub fn four_bytes(bytes: &[u8], place: usize) -> u32 {
    let number = bytes[place..].first_chunk().expect("four bytes are there");
    u32::from_be_bytes(*number)
}

/// The version of a card that has its header.
pub fn version(card: &[u8]) -> u32 {
    card[4].into()
}

/// The edition of an accepted card.
pub fn edition(card: &[u8]) -> Edition {
    Edition::from_version(version(card)).expect("the card was accepted")
}

/// N of a card that has its header: the number of its pages.
pub fn pages(card: &[u8]) -> u32 {
    four_bytes(card, 5)
}

/// T of a card that has its header: the number of its terms.
pub fn term_count(card: &[u8]) -> u16 {
    u16::from_be_bytes([card[9], card[10]])
}

/// The first part of these bytes and what lies behind it; none where its stated length is below the shortest or does
/// not fit.
pub fn split_part(bytes: &[u8], shortest: usize) -> Option<(&[u8], &[u8])> {
    let stated = u32::from_be_bytes(*bytes.first_chunk()?) as usize;
    let fits = (shortest..=bytes.len()).contains(&stated);
    fits.then(|| bytes.split_at(stated))
}

/// The term blocks of an accepted card.
pub fn terms(card: &[u8]) -> impl Iterator<Item = &[u8]> {
    let mut rest = &card[jundefola::CARD_HEADER..];
    std::iter::from_fn(move || {
        let (term, behind) = split_part(rest, SHORTEST_TERM)?;
        rest = behind;
        Some(term)
    })
}

/// The list blocks of an accepted term: pages, counts, positions.
pub fn lists(term: &[u8]) -> [&[u8]; 3] {
    let mut rest = &term[TERM_HEADER..];
    [(); 3].map(|()| {
        let (list, behind) = split_part(rest, list::HEADER).expect("the term was accepted");
        rest = behind;
        list
    })
}
