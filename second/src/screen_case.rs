//! One call for a screen, and the run of it on one side.

use crate::case::{lend, Outcome, RoomAfter};
use crate::plain::screen::{Screened, Wanted};
use crate::screen_calls::ScreenCalls;

/// The whole input of `jf_screen`, both rooms with what they hold before it.
#[derive(Clone, Debug, PartialEq, Eq)]
pub struct ScreenCase {
    /// The card.
    pub card: Vec<u8>,
    /// What is asked for.
    pub wanted: Wanted,
    /// The room for pages.
    pub pages: Vec<u32>,
    /// The room for the seeks and looks.
    pub counts: Vec<u32>,
}

/// What a call for a screen gives, and both rooms after it.
#[derive(Clone, Debug, PartialEq, Eq)]
pub struct ScreenAfter {
    /// What it gives back.
    pub screened: Screened,
    /// The room for pages.
    pub pages: RoomAfter<u32>,
    /// The room for the seeks and looks.
    pub counts: RoomAfter<u32>,
}

impl ScreenCase {
    /// Runs the call on one side.
    pub fn run(&self, side: &dyn ScreenCalls) -> Outcome {
        let ((screened, counts), pages) = lend(&self.pages, |pages| {
            lend(&self.counts, |counts| {
                side.screen(&self.card, &self.wanted, pages, counts)
            })
        });
        Outcome::Screened(ScreenAfter {
            screened,
            pages,
            counts,
        })
    }
}
