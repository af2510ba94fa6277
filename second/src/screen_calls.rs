//! The call that shows one screen, and the plain program behind it.

use crate::host_calls::Plain;
use crate::plain::screen::{self, Screened, Wanted};

/// One side of the comparison: something that shows screens.
pub trait ScreenCalls: Sync {
    /// Shows a screen of a card.
    fn screen(
        &self,
        card: &[u8],
        wanted: &Wanted,
        pages: &mut [u32],
        counts: &mut [u32],
    ) -> Screened;
}

impl ScreenCalls for Plain {
    fn screen(
        &self,
        card: &[u8],
        wanted: &Wanted,
        pages: &mut [u32],
        counts: &mut [u32],
    ) -> Screened {
        screen::screen(card, wanted, pages, counts)
    }
}
