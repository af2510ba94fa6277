//! A screen: the first common pages at or above a bound.

use crate::card::check_index;
use crate::words::Words;
use crate::{refusal, Screened};
use std::ops::ControlFlow;

/// The most pages of a screen.
const MOST_PAGES: usize = 64;

/// What is asked for: so many common pages of these words, at or above the bound.
pub struct Wanted<'a> {
    pub bound: u32,
    pub count: u32,
    pub words: &'a [u32],
}

/// Where a screen is laid.
pub struct Rooms<'a> {
    pub pages: &'a mut [u32],
    pub counts: &'a mut [u32],
}

/// Checks the card and what is wanted, then lays the screen into the rooms.
pub fn screen(card: &[u8], wanted: &Wanted, rooms: Rooms) -> Screened {
    let checked = check_index(card).and_then(|terms| check_wanted(wanted, terms));
    let shown = checked.and_then(|()| unsafe { show(card.as_ptr(), wanted, rooms) });
    shown.unwrap_or_else(|refusal| Screened {
        refusal,
        found: 0,
        full: 0,
        next: 0,
    })
}

fn check_wanted(wanted: &Wanted, terms: u32) -> Result<(), u32> {
    let good = (1..=MOST_PAGES as u32).contains(&wanted.count)
        && (1..=8).contains(&wanted.words.len())
        && wanted.words.iter().all(|word| *word < terms);
    good.then_some(()).ok_or(refusal::QUESTION)
}

/// Finds the pages of a good screen, and lays them where both rooms suffice.
unsafe fn show(card: *const u8, wanted: &Wanted, rooms: Rooms) -> Result<Screened, u32> {
    let most = wanted.count as usize;
    let (mut pages, mut found) = ([0; MOST_PAGES], 0);
    let effort = Words::open(card, wanted.words).go_over_from(wanted.bound, |page, _, _| {
        pages[found] = page;
        found += 1;
        match found == most {
            true => ControlFlow::Break(()),
            false => ControlFlow::Continue(()),
        }
    });
    if rooms.pages.len() < found || rooms.counts.len() < 2 {
        return Err(refusal::ROOM);
    }
    rooms.pages[..found].copy_from_slice(&pages[..found]);
    rooms.counts[..2].copy_from_slice(&[effort.seeks, effort.looks]);
    let is_full = found == most;
    Ok(Screened {
        refusal: 0,
        found,
        full: u32::from(is_full),
        next: if is_full { pages[most - 1] + 1 } else { 0 },
    })
}
