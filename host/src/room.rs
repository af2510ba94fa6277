//! How much room is enough: bytes for a block, and numbers for a screen.

/// The bytes of a card before its first term block.
pub const CARD_HEADER: usize = 11;

/// The most pages of a screen; it has at least 1.
pub const MAX_SCREEN: u32 = 64;

/// The numbers that a screen counts: the seeks and the looks.
pub const SCREEN_COUNTS: usize = 2;

/// The bytes of a term block before its first list block.
const TERM_HEADER: usize = 5;

/// Bytes that are enough for the block of any list of `len` numbers; the block may be shorter.
///
/// An element takes at most 24 bits of the lower run, 3 of the upper run and a quarter of a bit for pointers, which is
/// under 4 bytes; the header takes 13 bytes and filling both runs to whole words under 16. A bitmap has under 4 bits
/// for each element, and an eighth more for its numbers.
///
/// ```
/// let mut room = vec![0; jundefola::list_room(3)];
/// assert_eq!(jundefola::write_list(3, &[0, 1, 2], &mut room), Ok(21));
/// ```
pub fn list_room(len: usize) -> usize {
    len.saturating_mul(4).saturating_add(29)
}

/// Bytes that are enough, in each edition, for the term block of any word on that many pages, at that many positions.
pub fn term_room(pages: usize, positions: usize) -> usize {
    list_room(pages)
        .saturating_mul(2)
        .saturating_add(list_room(positions))
        .saturating_add(TERM_HEADER)
}
