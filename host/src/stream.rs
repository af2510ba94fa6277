//! A word written in runs of its postings, for a writer that does not hold all of them at once.

use crate::{begin_term, end_term, put_postings, Edition, Refusal, Stream};

/// What is announced of a word before its postings are handed over.
///
/// ```
/// use jundefola::Announcement;
/// let mut announced = Announcement::default();
/// // two pages, with the positions 0 and 7, and 2; then a page with the position 5
/// announced.add(&[2, 1], &[0, 7, 2]);
/// announced.add(&[1], &[5]);
/// let expected = Announcement { pages: 3, positions: 4, u: 8 + 3 + 6 };
/// assert_eq!(announced, expected);
/// ```
#[derive(Clone, Copy, Debug, Default, PartialEq, Eq, Hash)]
pub struct Announcement {
    /// The number of its pages.
    pub pages: u32,
    /// The number of its positions.
    pub positions: u32,
    /// U of its positions: each page adds its last position and 1.
    pub u: u32,
}

impl Announcement {
    /// Counts postings in, which have a count for each page. A number stays at the greatest, which is refused, where it
    /// would go past it; postings that are not valid are refused when they are put.
    pub fn add(&mut self, counts: &[u32], positions: &[u32]) {
        self.pages = sum(self.pages, counts.len() as u64);
        self.positions = sum(self.positions, positions.len() as u64);
        let mut rest = positions;
        for &count in counts {
            let (here, behind) = rest.split_at(rest.len().min(count as usize));
            let end = here.last().map_or(0, |&last| u64::from(last) + 1);
            self.u = sum(self.u, end);
            rest = behind;
        }
    }
}

/// The sum, or the greatest number where it goes past it.
fn sum(number: u32, more: u64) -> u32 {
    u32::try_from(u64::from(number).saturating_add(more)).unwrap_or(u32::MAX)
}

/// The term block of one word in the making, run by run. It has the room to itself until the word is finished.
///
/// ```
/// use jundefola::{term_block, term_room, Announcement, Edition, TermWriter};
///
/// // "torque" is on page 4 at positions 0 and 7, and in a later chapter on page 15 at position 2
/// let announced = Announcement { pages: 2, positions: 3, u: 8 + 3 };
/// let mut room = vec![0; term_room(2, 3)];
/// let mut writer = TermWriter::begin(Edition::Two, 44, announced, &mut room)?;
/// writer.put(&[4], &[2], &[0, 7])?;
/// writer.put(&[15], &[1], &[2])?;
/// let length = writer.finish()?;
///
/// let whole = term_block(Edition::Two, 44, &[4, 15], &[2, 1], &[0, 7, 2])?;
/// assert_eq!(room[..length], whole);
/// # Ok::<(), jundefola::Refusal>(())
/// ```
#[derive(Debug)]
pub struct TermWriter<'a> {
    stream: Stream,
    room: &'a mut [u8],
}

impl<'a> TermWriter<'a> {
    /// Announces a word of a card of this edition with `n` pages; its block will lie at the start of the room.
    ///
    /// [`term_room`](crate::term_room) tells how many bytes are enough. A refusal leaves the room as it was.
    pub fn begin(
        edition: Edition,
        n: u32,
        announced: Announcement,
        room: &'a mut [u8],
    ) -> Result<TermWriter<'a>, Refusal> {
        let Announcement {
            pages,
            positions,
            u,
        } = announced;
        let stream = begin_term(edition, n, pages, positions, u, room)?;
        Ok(TermWriter { stream, room })
    }

    /// This writer with its block alone, and the room behind the block, where the next word may be begun.
    ///
    /// So the words of a card are written side by side, a chapter at a time:
    ///
    /// ```
    /// use jundefola::{check_index, close_index, Announcement, Edition, TermWriter, CARD_HEADER};
    ///
    /// let edition = Edition::Two;
    /// let torque = Announcement { pages: 2, positions: 3, u: 8 + 3 };
    /// let bolt = Announcement { pages: 2, positions: 2, u: 2 + 5 };
    /// let mut card = vec![0; 500];
    /// let room = &mut card[CARD_HEADER..];
    /// let (mut torque, behind) = TermWriter::begin(edition, 44, torque, room)?.split();
    /// let mut bolt = TermWriter::begin(edition, 44, bolt, behind)?;
    /// // the first chapter has page 4, and the second page 15
    /// torque.put(&[4], &[2], &[0, 7])?;
    /// bolt.put(&[4], &[1], &[1])?;
    /// torque.put(&[15], &[1], &[2])?;
    /// bolt.put(&[15], &[1], &[4])?;
    /// let used = CARD_HEADER + torque.finish()? + bolt.finish()?;
    /// let length = close_index(&mut card, used, edition, 44, 2)?;
    /// assert_eq!(check_index(&card[..length]), Ok(()));
    /// # Ok::<(), jundefola::Refusal>(())
    /// ```
    pub fn split(self) -> (TermWriter<'a>, &'a mut [u8]) {
        let TermWriter { stream, room } = self;
        let length = stated_length(room);
        let (room, behind) = room.split_at_mut(length);
        (TermWriter { stream, room }, behind)
    }

    /// Lays the next postings of the word: the lists of [`write_term`](crate::write_term), cut between two pages.
    ///
    /// A run may be empty. Bad postings, and those past the announcement, are [`Refusal::Lists`]: the block is then all
    /// zero, and the word is refused from there on.
    pub fn put(&mut self, pages: &[u32], counts: &[u32], positions: &[u32]) -> Result<(), Refusal> {
        put_postings(&mut self.stream, pages, counts, positions, self.room)
    }

    /// Finishes the block and gives its length.
    ///
    /// Where less was put than announced, it is [`Refusal::Lists`] and the block all zero.
    pub fn finish(mut self) -> Result<usize, Refusal> {
        end_term(&mut self.stream, self.room)
    }
}

/// The length that a block states in its first four bytes; 0 where bad postings have cleared it.
fn stated_length(block: &[u8]) -> usize {
    let stated = block.first_chunk();
    stated.map_or(0, |length| u32::from_be_bytes(*length) as usize)
}
