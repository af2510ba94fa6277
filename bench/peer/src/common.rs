//! The pages that all words of a question share.

use crate::cursor::{Cursor, NONE};
use std::ops::ControlFlow;

/// The seeks and looks that were made.
#[derive(Clone, Copy, Default)]
pub struct Effort {
    pub seeks: u32,
    pub looks: u32,
}

/// The number of the shortest list, the first of equals.
#[inline(always)]
pub fn lead_of(cursors: &[Cursor]) -> usize {
    let mut lead = 0;
    for (i, cursor) in cursors.iter().enumerate() {
        if cursor.n < cursors[lead].n {
            lead = i;
        }
    }
    lead
}

/// Goes over the common pages at or above the bound in rising order, with fresh cursors, until it is told to stop; each
/// page is told with the lead's and the others' cursors on it. KNOWN is what is known of all lists.
#[inline(always)]
pub unsafe fn common_pages<const KNOWN: u8>(
    mut lead: Cursor,
    others: &mut [Cursor],
    bound: u32,
    mut each: impl FnMut(u32, &Cursor, &[Cursor]) -> ControlFlow<()>,
) -> Effort {
    let mut effort = Effort { seeks: 1, looks: 0 };
    let mut page = match bound {
        0 => lead.next::<KNOWN>(&mut effort.looks),
        _ => lead.seek::<KNOWN>(bound, &mut effort.looks),
    };
    'pages: while page != NONE {
        for i in 0..others.len() {
            effort.seeks += 1;
            let other = others.get_unchecked_mut(i);
            let found = other.seek::<KNOWN>(page, &mut effort.looks);
            if found != page {
                if found == NONE {
                    break 'pages;
                }
                effort.seeks += 1;
                page = lead.seek::<KNOWN>(found, &mut effort.looks);
                continue 'pages;
            }
        }
        if each(page, &lead, others).is_break() {
            break;
        }
        effort.seeks += 1;
        page = lead.next::<KNOWN>(&mut effort.looks);
    }
    effort
}
