//! The pages that terms share, one screen at a time.

use std::iter::FusedIterator;

use crate::{screen, Refusal, Screened, MAX_SCREEN, SCREEN_COUNTS};

/// A screen of pages, and what finding them took.
#[derive(Clone, Debug, PartialEq, Eq)]
pub struct Screen {
    /// The bound at or above which its pages lie.
    pub bound: u32,
    /// The pages, rising.
    pub pages: Vec<u32>,
    /// How many seeks were made.
    pub seeks: u32,
    /// How many words of the upper runs, or of the bitmaps, the seeks looked at.
    pub looks: u32,
    /// The bound of the next screen; none where this one is not full.
    pub next: Option<u32>,
}

impl Screen {
    /// Whether it has as many pages as were asked for; a full screen may still be the last one with a page.
    pub fn is_full(&self) -> bool {
        self.next.is_some()
    }
}

/// An iterator over the screens of the pages that terms share.
///
/// It ends behind the first screen that is not full, or behind a refusal. From bound 0 its pages, joined, are those of
/// [`Question::Common`](crate::Question::Common); where the last page just fills a screen, an empty one follows. Each
/// step checks the card.
///
/// ```
/// use jundefola::{CardWriter, Edition, Screens};
/// let mut writer = CardWriter::new(Edition::Two, 44);
/// writer.add(&[4, 15, 21], &[1, 1, 1], &[0, 0, 0])?;
/// let card = writer.close()?;
///
/// let screens: Vec<_> = Screens::new(&card, &[0], 2).collect::<Result<_, _>>()?;
/// assert_eq!(screens[0].pages, [4, 15]);
/// assert_eq!(screens[0].next, Some(16));
/// assert_eq!(screens[1].pages, [21]);
/// assert_eq!(screens.len(), 2);
///
/// let mut later = Screens::new(&card, &[0], 1).starting_at(16);
/// assert_eq!(later.next().unwrap()?.pages, [21]);
/// assert!(later.next().unwrap()?.pages.is_empty());
/// assert!(later.next().is_none());
/// # Ok::<(), jundefola::Refusal>(())
/// ```
#[derive(Clone, Debug)]
pub struct Screens<'a> {
    card: &'a [u8],
    terms: &'a [u32],
    rows: u32,
    bound: Option<u32>,
}

impl<'a> Screens<'a> {
    /// The screens of the pages of a card that 1 to 8 terms share, each with this many rows, 1 to [`MAX_SCREEN`], and a
    /// page in each row; the first starts at bound 0.
    pub fn new(card: &'a [u8], terms: &'a [u32], rows: u32) -> Screens<'a> {
        Screens {
            card,
            terms,
            rows,
            bound: Some(0),
        }
    }

    /// The same with the first screen at this bound, which may be any number.
    pub fn starting_at(self, bound: u32) -> Screens<'a> {
        Screens {
            bound: Some(bound),
            ..self
        }
    }

    /// The screen at a bound.
    fn screen_at(&self, bound: u32) -> Result<Screen, Refusal> {
        let mut pages = [0; MAX_SCREEN as usize];
        let mut counts = [0; SCREEN_COUNTS];
        let Screened { found, next } = screen(
            self.card,
            bound,
            self.rows,
            self.terms,
            &mut pages,
            &mut counts,
        )?;
        let [seeks, looks] = counts;
        Ok(Screen {
            bound,
            pages: pages[..found].to_vec(),
            seeks,
            looks,
            next,
        })
    }
}

impl Iterator for Screens<'_> {
    type Item = Result<Screen, Refusal>;

    fn next(&mut self) -> Option<Result<Screen, Refusal>> {
        let screen = self.screen_at(self.bound?);
        self.bound = screen.as_ref().map_or(None, |screen| screen.next);
        Some(screen)
    }
}

impl FusedIterator for Screens<'_> {}
