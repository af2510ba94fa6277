//! `show`: a card as a listing.

use std::io::Write;
use std::path::Path;

use crate::card;
use crate::check::accepted;
use crate::listing::{write_pages, write_word};
use crate::problem::Problem;
use crate::word::{form_of_pages, Word};

/// Prints the listing of an accepted card, with its edition and the form of each word's pages as comments.
pub fn show(file: &Path, out: &mut dyn Write) -> Result<(), Problem> {
    let card = accepted(file)?;
    write_pages(card::pages(&card), card::edition(&card), out)?;
    for term in card::terms(&card) {
        write_word(&Word::of_term(term), form_of_pages(term), out)?;
    }
    Ok(())
}
