//! The lines of case files that only the call for a screen has.
//!
//! Behind `gives` both rooms have the names that they have before it.

use crate::case::Outcome;
use crate::plain::screen::{Screened, Wanted};
use crate::screen_case::{ScreenAfter, ScreenCase};
use crate::text::{put_bytes, put_number, put_numbers, put_surroundings, Fields};

/// Reads the inputs of a call for a screen.
pub fn read_screen_case(fields: &Fields) -> Result<ScreenCase, String> {
    Ok(ScreenCase {
        card: fields.bytes("card")?,
        wanted: Wanted {
            bound: fields.number("bound")?,
            most: fields.number("r")?,
            words: fields.numbers("words")?,
        },
        pages: fields.numbers("pages")?,
        counts: fields.numbers("counts")?,
    })
}

/// Reads what a call for a screen gives; a room that is not told of is unchanged.
pub fn read_screened(case: &ScreenCase, fields: &Fields) -> Result<Outcome, String> {
    Ok(Outcome::Screened(ScreenAfter {
        screened: Screened {
            refusal: fields.number("refusal")?,
            found: fields.number("found")?,
            full: fields.number("full")?,
            next: fields.number("next")?,
        },
        pages: fields.numbers_after("pages", &case.pages)?,
        counts: fields.numbers_after("counts", &case.counts)?,
    }))
}

/// Writes the inputs of a call for a screen.
pub fn put_screen_case(text: &mut String, case: &ScreenCase) {
    put_bytes(text, "card", &case.card);
    put_number(text, "bound", case.wanted.bound);
    put_number(text, "r", case.wanted.most);
    put_numbers(text, "words", &case.wanted.words);
    put_numbers(text, "pages", &case.pages);
    put_numbers(text, "counts", &case.counts);
}

/// Writes what a call for a screen gives.
pub fn put_screened(text: &mut String, after: &ScreenAfter) {
    let ScreenAfter {
        screened,
        pages,
        counts,
    } = after;
    put_number(text, "refusal", screened.refusal);
    put_number(text, "found", screened.found);
    put_number(text, "full", screened.full);
    put_number(text, "next", screened.next);
    put_numbers(text, "pages", &pages.room);
    put_numbers(text, "counts", &counts.room);
    put_surroundings(text, pages.surroundings_kept && counts.surroundings_kept);
}
