//! The words of a question or a screen, and the pages that they share.

use crate::card::find_terms;
use crate::check::TERM_OPENING;
use crate::common::{common_pages, lead_of, Effort};
use crate::cursor::Cursor;
use crate::shape::known;
use std::ops::ControlFlow;

/// The words of a question: where they lie, and a cursor on the pages of each, the lead's first.
pub struct Words {
    pub terms: [*const u8; 8],
    cursors: [Cursor; 8],
    /// The place in the question of the word at each place here.
    pub order: [usize; 8],
    pub count: usize,
}

impl Words {
    #[inline(always)]
    pub unsafe fn open(card: *const u8, numbers: &[u32]) -> Words {
        let mut words = Words {
            terms: [card; 8],
            cursors: [Cursor::NOWHERE; 8],
            order: [0, 1, 2, 3, 4, 5, 6, 7],
            count: numbers.len(),
        };
        find_terms(card, numbers, &mut words.terms);
        for i in 0..words.count {
            words.cursors[i] = Cursor::on(words.terms[i].add(TERM_OPENING));
        }
        let lead = lead_of(&words.cursors[..words.count]);
        words.cursors[..=lead].rotate_right(1);
        words.terms[..=lead].rotate_right(1);
        words.order[..=lead].rotate_right(1);
        words
    }

    /// The most pages that can be common.
    pub fn most(&self) -> usize {
        self.cursors[0].n as usize
    }

    /// Goes over the common pages with fresh cursors.
    #[inline(always)]
    pub unsafe fn go_over(&self, mut each: impl FnMut(u32, &Cursor, &[Cursor])) -> Effort {
        self.go_over_from(0, |page, lead, others| {
            each(page, lead, others);
            ControlFlow::Continue(())
        })
    }

    /// Goes over the common pages at or above the bound with fresh cursors, until it is told to stop.
    #[inline(always)]
    pub unsafe fn go_over_from(
        &self,
        bound: u32,
        each: impl FnMut(u32, &Cursor, &[Cursor]) -> ControlFlow<()>,
    ) -> Effort {
        let (lead, mut others) = (self.cursors[0], self.cursors);
        let others = &mut others[1..self.count];
        let is_bitmap = |cursor: &Cursor| cursor.is_bitmap::<{ known::NOTHING }>();
        // Of lists below the same U one that is not shorter than a bitmap is a bitmap too.
        if is_bitmap(&lead) {
            common_pages::<{ known::BITMAPS }>(lead, others, bound, each)
        } else if others.iter().any(is_bitmap) {
            common_pages::<{ known::NOTHING }>(lead, others, bound, each)
        } else {
            common_pages::<{ known::RUNS }>(lead, others, bound, each)
        }
    }
}
