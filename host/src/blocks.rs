//! Blocks and cards as vectors.

use crate::{
    close_index, list_room, term_room, write_list, write_term, Edition, Refusal, CARD_HEADER,
};

/// The block of a list of strictly rising numbers, each below `u`, as runs.
///
/// ```
/// let block = jundefola::list_block(5, &[])?;
/// assert_eq!(block, [0, 0, 0, 13, 1, 0, 0, 0, 5, 0, 0, 0, 0]);
/// # Ok::<(), jundefola::Refusal>(())
/// ```
pub fn list_block(u: u32, list: &[u32]) -> Result<Vec<u8>, Refusal> {
    let mut block = vec![0; list_room(list.len())];
    let length = write_list(u, list, &mut block)?;
    block.truncate(length);
    Ok(block)
}

/// The term block of one word, for a card of this edition with `n` pages; see [`write_term`] for its lists.
pub fn term_block(
    edition: Edition,
    n: u32,
    pages: &[u32],
    counts: &[u32],
    positions: &[u32],
) -> Result<Vec<u8>, Refusal> {
    let mut block = vec![0; term_room(pages.len(), positions.len())];
    let length = write_term(edition, n, pages, counts, positions, &mut block)?;
    block.truncate(length);
    Ok(block)
}

/// A card in the making, word by word.
///
/// ```
/// use jundefola::{check_index, CardWriter, Edition};
/// let mut writer = CardWriter::new(Edition::Two, 3);
/// writer.add(&[1], &[2], &[0, 2])?;
/// let card = writer.close()?;
/// assert_eq!(check_index(&card), Ok(()));
/// # Ok::<(), jundefola::Refusal>(())
/// ```
#[derive(Clone, Debug)]
pub struct CardWriter {
    edition: Edition,
    n: u32,
    t: u32,
    buffer: Vec<u8>,
}

impl CardWriter {
    /// A card of this edition with `n` pages and no word yet.
    pub fn new(edition: Edition, n: u32) -> CardWriter {
        CardWriter {
            edition,
            n,
            t: 0,
            buffer: vec![0; CARD_HEADER],
        }
    }

    /// Adds the next word; see [`write_term`] for its lists. A refused word is not added.
    pub fn add(&mut self, pages: &[u32], counts: &[u32], positions: &[u32]) -> Result<(), Refusal> {
        let used = self.buffer.len();
        let enough = used.saturating_add(term_room(pages.len(), positions.len()));
        self.buffer.resize(enough, 0);
        let room = &mut self.buffer[used..];
        let written = write_term(self.edition, self.n, pages, counts, positions, room);
        self.buffer.truncate(used + written.unwrap_or(0));
        written?;
        self.t += 1;
        Ok(())
    }

    /// How many words were added.
    pub fn words(&self) -> u32 {
        self.t
    }

    /// The finished card.
    pub fn close(mut self) -> Result<Vec<u8>, Refusal> {
        let used = self.buffer.len();
        close_index(&mut self.buffer, used, self.edition, self.n, self.t)?;
        Ok(self.buffer)
    }
}
