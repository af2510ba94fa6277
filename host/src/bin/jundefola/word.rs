//! One word of the manual: what the writer of a term takes, and what an accepted term holds.

use crate::card;
use crate::list::{elements, form, Form};

/// A word's pages, the count of positions on each, and the positions page after page.
#[derive(Debug, Default, PartialEq, Eq)]
pub struct Word {
    pub pages: Vec<u32>,
    pub counts: Vec<u32>,
    pub positions: Vec<u32>,
}

/// The form of the pages of a term block that the library accepted; none for a word on no page.
pub fn form_of_pages(term: &[u8]) -> Option<Form> {
    let [pages, ..] = card::lists(term);
    elements(pages).next().map(|_| form(pages))
}

impl Word {
    /// The word of a term block that the library accepted.
    pub fn of_term(term: &[u8]) -> Word {
        let [pages, counts, positions] = card::lists(term);
        let counts = counts_of(elements(counts));
        Word {
            pages: elements(pages).collect(),
            positions: positions_of(&counts, elements(positions)),
            counts,
        }
    }

    /// The pages, each with its positions.
    pub fn postings(&self) -> impl Iterator<Item = (u32, &[u32])> {
        let mut rest = self.positions.as_slice();
        self.pages
            .iter()
            .zip(&self.counts)
            .map(move |(&page, &count)| {
                let (here, behind) = rest.split_at(count as usize);
                rest = behind;
                (page, here)
            })
    }
}

/// The counts, from their sums less 1.
fn counts_of(sums: impl Iterator<Item = u32>) -> Vec<u32> {
    let mut before = 0;
    sums.map(|sum| {
        let count = sum + 1 - before;
        before = sum + 1;
        count
    })
    .collect()
}

/// The positions within each page, from the elements that are laid page behind page.
fn positions_of(counts: &[u32], mut laid: impl Iterator<Item = u32>) -> Vec<u32> {
    let mut positions = Vec::new();
    let mut base = 0;
    for &count in counts {
        let start = base;
        positions.extend(laid.by_ref().take(count as usize).map(|element| {
            base = element + 1;
            element - start
        }));
    }
    positions
}

#[cfg(test)]
mod tests {
    use super::*;
    use jundefola::{term_block, Edition};

    /// The word's term block in this edition, for a card with `n` pages.
    fn block(edition: Edition, n: u32, word: &Word) -> Vec<u8> {
        term_block(edition, n, &word.pages, &word.counts, &word.positions).unwrap()
    }

    #[test]
    fn a_term_is_read_back() {
        let word = Word {
            pages: vec![0, 3, 39],
            counts: vec![2, 1, 3],
            positions: vec![5, 9, 0, 0, 1, 700],
        };
        for edition in Edition::ALL {
            let term = block(edition, 40, &word);
            assert_eq!(Word::of_term(&term), word);
            assert_eq!(form_of_pages(&term), Some(Form::Runs));
        }
        let postings: Vec<(u32, &[u32])> = word.postings().collect();
        assert_eq!(postings, [(0, &[5, 9][..]), (3, &[0]), (39, &[0, 1, 700])]);
    }

    #[test]
    fn a_dense_term_is_read_back() {
        for n in [4, 64, 65, 255, 256, 257, 512, 700] {
            let word = Word {
                pages: (0..n).filter(|page| page % 3 != 1).collect(),
                counts: (0..n).filter(|i| i % 3 != 1).map(|i| i % 2 + 1).collect(),
                positions: (0..n)
                    .filter(|i| i % 3 != 1)
                    .flat_map(|i| 0..i % 2 + 1)
                    .collect(),
            };
            for (edition, form) in [(Edition::One, Form::Runs), (Edition::Two, Form::Bitmap)] {
                let term = block(edition, n, &word);
                assert_eq!(Word::of_term(&term), word);
                assert_eq!(form_of_pages(&term), Some(form));
            }
        }
    }

    #[test]
    fn a_word_on_no_page_is_read_back() {
        for edition in Edition::ALL {
            let term = block(edition, 40, &Word::default());
            assert_eq!(Word::of_term(&term), Word::default());
            assert_eq!(form_of_pages(&term), None);
        }
    }
}
