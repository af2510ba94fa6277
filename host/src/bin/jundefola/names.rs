//! The names that a listing gives to the words of a card.

use std::collections::HashMap;
use std::path::{Path, PathBuf};

use crate::card;
use crate::check::header_is_sound;
use crate::files;
use crate::listing::Listing;
use crate::numbers::counted;
use crate::problem::Problem;

/// The option that is followed by a listing with the words' names.
pub const NAMES_OPTION: &str = "--names";

/// The names of a listing's words.
#[derive(Debug)]
pub struct Names {
    listing: PathBuf,
    pages: u32,
    names: Vec<Option<String>>,
    numbers: HashMap<String, u32>,
}

impl Names {
    /// The names in a listing that has as many words and pages as the card of a file; a card without a sound header is
    /// refused later.
    pub fn read_for(file: &Path, card: &[u8], listing: &Path) -> Result<Names, Problem> {
        let text = files::read_text(listing)?;
        let names = Names::of(&Listing::parse(listing, &text)?);
        if header_is_sound(card) {
            names.check_fit(card, file)?;
        }
        Ok(names)
    }

    fn of(listing: &Listing) -> Names {
        let names = listing.words.iter().map(|word| word.name.map(String::from));
        let names: Vec<Option<String>> = names.collect();
        let numbered = (0..).zip(&names);
        let numbers = numbered.filter_map(|(number, name)| Some((name.clone()?, number)));
        Names {
            listing: listing.file.to_path_buf(),
            pages: listing.pages,
            numbers: numbers.collect(),
            names,
        }
    }

    /// Refuses a listing that has not as many words and pages as the card, which has its header.
    fn check_fit(&self, card: &[u8], file: &Path) -> Result<(), Problem> {
        let here = (self.names.len(), self.pages);
        let there = (card::term_count(card).into(), card::pages(card));
        if here == there {
            return Ok(());
        }
        let size = |(words, pages): (usize, u32)| {
            format!(
                "{}, {}",
                counted(words, "word"),
                counted(pages as usize, "page")
            )
        };
        let (here, there) = (size(here), size(there));
        let what = format!(
            "this listing has {here}, and {} has {there}",
            file.display()
        );
        Err(Problem::in_file(&self.listing, what))
    }

    /// Whether a word has this name.
    pub fn has(&self, name: &str) -> bool {
        self.numbers.contains_key(name)
    }

    /// The number of the word with this name.
    pub fn number(&self, name: &str) -> Result<u32, String> {
        let number = self.numbers.get(name).copied();
        number.ok_or_else(|| {
            let names = counted(self.numbers.len(), "name");
            format!(
                "no word is named `{name}` in {}, which has {names}",
                self.listing.display()
            )
        })
    }

    /// The name of a word, where it has one.
    pub fn name(&self, word: u32) -> Option<&str> {
        self.names.get(word as usize)?.as_deref()
    }
}

#[cfg(test)]
impl Names {
    /// The names in this text of a listing.
    pub fn of_text(text: &str) -> Names {
        let listing = Listing::parse(Path::new("listing"), text);
        Names::of(&listing.expect("the listing is sound"))
    }
}

#[cfg(test)]
mod tests {
    use super::*;

    #[test]
    fn names_and_numbers_lead_to_each_other() {
        let names = Names::of_text("pages 3\ntorque 1:0\n2:1\nbolt\n");
        assert_eq!(names.number("torque"), Ok(0));
        assert_eq!(names.number("bolt"), Ok(2));
        assert!(names.has("bolt") && !names.has("Bolt"));
        let words: Vec<_> = (0..4).map(|word| names.name(word)).collect();
        assert_eq!(words, [Some("torque"), None, Some("bolt"), None]);
    }

    #[test]
    fn an_unknown_name_is_told() {
        let names = Names::of_text("pages 3\ntorque 1:0\n2:1\nbolt\n");
        let told = names.number("nut").unwrap_err();
        assert_eq!(told, "no word is named `nut` in listing, which has 2 names");
    }
}
