//! One screen of common pages, from a bound on.

use super::index::check_index;
use super::meeting::{meet, Met};
use super::term::Term;
use super::{refusal, GREATEST_SCREEN, GREATEST_WORDS};

/// What a screen is asked for.
#[derive(Clone, Debug, PartialEq, Eq)]
pub struct Wanted {
    /// The bound that its pages are at or above.
    pub bound: u32,
    /// The most pages that it shows.
    pub most: u32,
    /// The words that all of its pages hold.
    pub words: Vec<u32>,
}

/// What a call for a screen gives back.
#[repr(C)]
#[derive(Clone, Copy, Debug, PartialEq, Eq)]
pub struct Screened {
    /// The refusal, 0 if none.
    pub refusal: u32,
    /// The pages found.
    pub found: usize,
    /// 1 if there are as many as were asked for.
    pub full: u32,
    /// The bound of the next screen, 0 if this one is not full.
    pub next: u32,
}

impl Screened {
    /// What a refusal gives back.
    pub fn refused(refusal: u32) -> Screened {
        Screened {
            refusal,
            found: 0,
            full: 0,
            next: 0,
        }
    }

    /// What a screen of these pages gives back when so many were asked for.
    pub fn showing(pages: &[u32], most: u32) -> Screened {
        let next = match pages.last() {
            Some(last) if pages.len() == most as usize => last + 1,
            _ => 0,
        };
        Screened {
            refusal: 0,
            found: pages.len(),
            full: u32::from(next > 0),
            next,
        }
    }
}

impl Wanted {
    /// The pages of this screen with its counts, over the terms of a card that has been accepted.
    pub fn of_terms(&self, terms: &[Term]) -> Result<Met, u32> {
        let good_most = (1..=GREATEST_SCREEN).contains(&self.most);
        let good_number = (1..=GREATEST_WORDS).contains(&self.words.len());
        let named = self.words.iter().map(|word| terms.get(*word as usize));
        let lists: Option<Vec<_>> = named.map(|term| Some(term?.formed_pages())).collect();
        match lists {
            Some(lists) if good_most && good_number => {
                Ok(meet(lists, self.bound, self.most as usize))
            }
            _ => Err(refusal::QUESTION),
        }
    }

    /// Lays what was found into both rooms, unless one of them is too small.
    pub fn put(&self, met: Result<Met, u32>, pages: &mut [u32], counts: &mut [u32]) -> Screened {
        let met = match met {
            Ok(met) => met,
            Err(refusal) => return Screened::refused(refusal),
        };
        let told = [met.seeks, met.looks];
        if pages.len() < met.pages.len() || counts.len() < told.len() {
            return Screened::refused(refusal::ROOM);
        }
        pages[..met.pages.len()].copy_from_slice(&met.pages);
        counts[..told.len()].copy_from_slice(&told);
        Screened::showing(&met.pages, self.most)
    }
}

/// Shows a screen of a card.
pub fn screen(card: &[u8], wanted: &Wanted, pages: &mut [u32], counts: &mut [u32]) -> Screened {
    let met = check_index(card).and_then(|terms| wanted.of_terms(&terms));
    wanted.put(met, pages, counts)
}
