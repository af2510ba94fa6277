//! `check`: whether a card is accepted, or which refusal it meets and where.

use std::io::{self, Write};
use std::path::Path;

use jundefola::{check_index, check_term, Refusal, CARD_HEADER};

use crate::card::{self, split_part};
use crate::files;
use crate::list::{self, Form};
use crate::names::Names;
use crate::numbers::{counted, ranges};
use crate::problem::Problem;
use crate::word::form_of_pages;

/// The part of a card at which it is refused.
#[derive(Clone, Copy, Debug, PartialEq, Eq)]
enum Place {
    /// The card's own header.
    Header,
    /// A term as a whole.
    Term(u16),
    /// A list of a term.
    List(u16, &'static str),
    /// A term's pages against those of the card.
    Pages(u16),
    /// The bytes behind the last term.
    Behind,
}

impl Place {
    /// The place in words, with the name of its term where there is one.
    fn text(&self, names: Option<&Names>) -> String {
        let in_term = |&term: &u16| match names.and_then(|names| names.name(term.into())) {
            Some(name) => format!("in term {term}, `{name}`"),
            None => format!("in term {term}"),
        };
        match self {
            Place::Header => "in the card's header".into(),
            Place::Term(term) => in_term(term),
            Place::List(term, list) => format!("{}, the list of {list}", in_term(term)),
            Place::Pages(term) => format!("{}, its number of pages and the card's", in_term(term)),
            Place::Behind => "behind the last term".into(),
        }
    }
}

/// Prints the verdict on a card, and in which forms an accepted one has the pages of its words.
pub fn check(file: &Path, out: &mut dyn Write) -> Result<(), Problem> {
    let card = files::read(file)?;
    let verdict = check_index(&card).map_err(|refusal| told(refusal, &card, None));
    match &verdict {
        Ok(()) => {
            writeln!(out, "{}: accepted: {}", file.display(), summary(&card))?;
            write_forms(&card, out)?;
        }
        Err(refused) => writeln!(out, "{}: {refused}", file.display())?,
    }
    verdict.map_err(|_| Problem::Refused)
}

/// Gives an accepted card, and a problem for a refused one.
pub fn accepted(file: &Path) -> Result<Vec<u8>, Problem> {
    let card = files::read(file)?;
    match check_index(&card) {
        Ok(()) => Ok(card),
        Err(refusal) => Err(Problem::in_file(file, told(refusal, &card, None))),
    }
}

/// What an accepted card holds, in a few words.
pub fn summary(card: &[u8]) -> String {
    let words = counted(card::term_count(card).into(), "word");
    let pages = counted(card::pages(card) as usize, "page");
    let bytes = counted(card.len(), "byte");
    let edition = card::edition(card).version();
    format!("{words}, {pages}, {bytes}, edition {edition}")
}

/// Prints the numbers of an accepted card's words, a line for each form that pages have.
fn write_forms(card: &[u8], out: &mut dyn Write) -> io::Result<()> {
    let forms: Vec<Option<Form>> = card::terms(card).map(form_of_pages).collect();
    for (form, heading) in [
        (Some(Form::Bitmap), "pages as a bitmap"),
        (Some(Form::Runs), "pages as runs"),
        (None, "on no page"),
    ] {
        let placed = forms.iter().zip(0..).filter(|(found, _)| **found == form);
        let words: Vec<usize> = placed.map(|(_, word)| word).collect();
        let noun = if words.len() == 1 { "word" } else { "words" };
        if !words.is_empty() {
            writeln!(out, "{heading}: {noun} {}", ranges(&words))?;
        }
    }
    Ok(())
}

/// A card's refusal and its place, with the name of the term where there is one.
pub fn told(refusal: Refusal, card: &[u8], names: Option<&Names>) -> String {
    format!("{refusal} ({})", place(card).text(names))
}

/// The first part of a refused card that the library refuses.
fn place(card: &[u8]) -> Place {
    if !header_is_sound(card) {
        return Place::Header;
    }
    let version = card::version(card);
    let mut rest = &card[CARD_HEADER..];
    for term in 0..card::term_count(card) {
        let Some((block, behind)) = split_part(rest, card::SHORTEST_TERM) else {
            return Place::Term(term);
        };
        if check_term(version, block).is_err() {
            return place_in_term(version, term, block);
        }
        if list::range(&block[card::TERM_HEADER..]) != card::pages(card) {
            return Place::Pages(term);
        }
        rest = behind;
    }
    Place::Behind
}

/// Whether the header has nothing to refuse: alone, with its own length, it is refused at most for want of a term.
pub fn header_is_sound(card: &[u8]) -> bool {
    let Some(&header) = card.first_chunk::<CARD_HEADER>() else {
        return false;
    };
    let mut alone = header;
    alone[..4].copy_from_slice(&(CARD_HEADER as u32).to_be_bytes());
    card::four_bytes(&header, 0) as usize == card.len()
        && matches!(check_index(&alone), Ok(()) | Err(Refusal::Short))
}

/// The first part that the library refuses of a refused term, which is on a card of this version.
fn place_in_term(version: u32, term: u16, block: &[u8]) -> Place {
    if block[4] != card::TERM_VERSION {
        return Place::Term(term);
    }
    let mut end = card::TERM_HEADER;
    for name in ["pages", "counts", "positions"] {
        let Some((list, _)) = split_part(&block[end..], list::HEADER) else {
            return Place::List(term, name);
        };
        end += list.len();
        if !lists_are_sound(version, &block[..end]) {
            return Place::List(term, name);
        }
    }
    Place::Term(term)
}

/// Whether the lists that fill the front of a term have nothing to refuse: alone, with its own length, that front is
/// refused at most for want of a list, as 1 or 2, which no list is that fits, or because its lists disagree, as 7.
fn lists_are_sound(version: u32, front: &[u8]) -> bool {
    let mut alone = front.to_vec();
    alone.resize(front.len().max(card::SHORTEST_TERM), 0);
    let length = alone.len() as u32;
    alone[..4].copy_from_slice(&length.to_be_bytes());
    let checked = check_term(version, &alone);
    matches!(
        checked,
        Ok(()) | Err(Refusal::Short | Refusal::Length | Refusal::Parts)
    )
}

#[cfg(test)]
mod tests {
    use super::*;
    use jundefola::{CardWriter, Edition};

    /// A card of an empty word and one on page 1 at positions 0 and 2: 139 bytes, its second term at 55, with lists at
    /// 60, 89 and 118.
    fn card(edition: Edition) -> Vec<u8> {
        let mut writer = CardWriter::new(edition, 3);
        writer.add(&[], &[], &[]).unwrap();
        writer.add(&[1], &[2], &[0, 2]).unwrap();
        writer.close().unwrap()
    }

    /// A card of edition 2 with an empty word and one on all 300 pages, once on each: its second term is at 55, with
    /// lists at 60, 117 and 214, of which the first is a bitmap.
    fn dense_card() -> Vec<u8> {
        let mut writer = CardWriter::new(Edition::Two, 300);
        writer.add(&[], &[], &[]).unwrap();
        let pages: Vec<u32> = (0..300).collect();
        writer.add(&pages, &[1; 300], &[0; 300]).unwrap();
        writer.close().unwrap()
    }

    fn assert_placed(
        mut card: Vec<u8>,
        damage: impl Fn(&mut Vec<u8>),
        refusal: Refusal,
        at: Place,
    ) {
        assert_eq!(check_index(&card), Ok(()));
        damage(&mut card);
        assert_eq!(check_index(&card), Err(refusal));
        assert_eq!(place(&card), at);
    }

    fn assert_refused(damage: impl Fn(&mut Vec<u8>), refusal: Refusal, at: Place) {
        for edition in Edition::ALL {
            assert_placed(card(edition), &damage, refusal, at);
        }
    }

    /// Adds bytes, and tells them in the lengths that are stated at these places.
    fn lengthen(card: &mut Vec<u8>, lengths: &[usize]) {
        card.push(0);
        for &place in lengths {
            card[place + 3] += 1;
        }
    }

    #[test]
    fn faults_of_the_header_are_placed() {
        assert_refused(|card| card.truncate(10), Refusal::Short, Place::Header);
        assert_refused(|card| card.truncate(0), Refusal::Short, Place::Header);
        assert_refused(|card| card.push(0), Refusal::Length, Place::Header);
        assert_refused(|card| card[4] = 0, Refusal::Version, Place::Header);
        assert_refused(|card| card[4] = 3, Refusal::Version, Place::Header);
        assert_refused(|card| card[5] = 2, Refusal::Limit, Place::Header);
        assert_refused(|card| card[9] = 0x11, Refusal::Limit, Place::Header);
    }

    #[test]
    fn faults_of_terms_are_placed() {
        assert_refused(|card| card[10] = 3, Refusal::Short, Place::Term(2));
        assert_refused(|card| card[14] = 43, Refusal::Length, Place::Term(0));
        assert_refused(|card| card[58] += 1, Refusal::Length, Place::Term(1));
        assert_refused(|card| card[59] = 0, Refusal::Version, Place::Term(1));
        assert_refused(
            |card| lengthen(card, &[0, 55]),
            Refusal::Layout,
            Place::Term(1),
        );
        assert_refused(|card| card[8] = 4, Refusal::Parts, Place::Pages(0));
        assert_refused(|card| lengthen(card, &[0]), Refusal::Layout, Place::Behind);
        assert_refused(|card| card[10] = 1, Refusal::Layout, Place::Behind);
    }

    #[test]
    fn faults_of_lists_are_placed() {
        assert_refused(
            |card| card[63] = 12,
            Refusal::Length,
            Place::List(1, "pages"),
        );
        assert_refused(
            |card| card[93] = 3,
            Refusal::Version,
            Place::List(1, "counts"),
        );
        assert_refused(
            |card| card[138] = 0x19,
            Refusal::Runs,
            Place::List(1, "positions"),
        );
        assert_refused(
            |card| card[28] = 1,
            Refusal::Layout,
            Place::List(0, "pages"),
        );
        assert_refused(|card| card[37] = 1, Refusal::Parts, Place::Term(0));
    }

    #[test]
    fn faults_of_bitmaps_are_placed() {
        let pages = Place::List(1, "pages");
        for (at, byte, refusal) in [
            (4, 1, Refusal::Version),
            (64, 1, Refusal::Version),
            (64, 3, Refusal::Version),
            (65, 2, Refusal::Limit),
            (71, 2, Refusal::Layout),
            (76, 1, Refusal::Runs),
            (77, 0x7F, Refusal::Runs),
            (111, 0x1F, Refusal::Runs),
        ] {
            assert_placed(dense_card(), |card| card[at] = byte, refusal, pages);
        }
        for (at, place) in [
            (20, Place::List(0, "pages")),
            (121, Place::List(1, "counts")),
            (218, Place::List(1, "positions")),
        ] {
            assert_placed(dense_card(), |card| card[at] = 2, Refusal::Version, place);
        }
    }

    #[test]
    fn a_term_s_version_comes_before_its_lists() {
        let damage = |card: &mut Vec<u8>| {
            card[59] = 2;
            card[138] = 0xFF;
        };
        assert_refused(damage, Refusal::Version, Place::Term(1));
    }
}
