//! Blocks taken to pieces, so that any piece can be made wrong while the
//! lengths around it stay right.

use super::cards::Card;
use crate::plain::bytes::{number_at, push_number};
use crate::plain::edition::Form;
use crate::plain::list::{check_list_of, List, LIST_HEADER};
use crate::plain::term::Term;

/// A list block in pieces.
#[derive(Clone, Debug)]
pub struct RawList {
    /// The stated length, if it is not the true one.
    pub stated: Option<u32>,
    /// The version.
    pub version: u8,
    /// U.
    pub bound: u32,
    /// n.
    pub count: u32,
    /// Pointers and runs, or numbers and bits.
    pub body: Vec<u8>,
}

/// A term block in pieces.
#[derive(Clone, Debug)]
pub struct RawTerm {
    /// The stated length, if it is not the true one.
    pub stated: Option<u32>,
    /// The version.
    pub version: u8,
    /// The list blocks.
    pub lists: Vec<RawList>,
    /// Bytes behind the last list.
    pub tail: Vec<u8>,
}

/// An index in pieces.
#[derive(Clone, Debug)]
pub struct RawCard {
    /// The stated length, if it is not the true one.
    pub stated: Option<u32>,
    /// The version.
    pub version: u8,
    /// N.
    pub pages: u32,
    /// T.
    pub term_count: u16,
    /// The term blocks.
    pub terms: Vec<RawTerm>,
    /// Bytes behind the last term.
    pub tail: Vec<u8>,
}

impl RawList {
    /// The pieces of a valid list's block in this form.
    pub fn of(list: &List, form: Form) -> RawList {
        let block = list.block_in(form);
        RawList {
            stated: None,
            version: block[4],
            bound: number_at(&block, 5),
            count: number_at(&block, 9),
            body: block[LIST_HEADER..].to_vec(),
        }
    }

    /// The list that the pieces make, in whichever form, and its form.
    pub fn list(&self) -> Option<(List, Form)> {
        let form = Form::of_version(self.version, &Form::ALL).ok()?;
        let list = check_list_of(&self.bytes(), &[form], |_, _, _| true).ok()?;
        Some((list, form))
    }

    /// The block that the pieces make.
    pub fn bytes(&self) -> Vec<u8> {
        let mut inside = Vec::new();
        push_number(&mut inside, self.bound);
        push_number(&mut inside, self.count);
        inside.extend(&self.body);
        block(self.stated, self.version, &inside)
    }
}

impl RawTerm {
    /// The pieces of a term's block.
    pub fn of(term: &Term) -> RawTerm {
        let lists = term.lists().into_iter().zip(term.forms());
        RawTerm {
            stated: None,
            version: 1,
            lists: lists.map(|(list, form)| RawList::of(list, form)).collect(),
            tail: Vec::new(),
        }
    }

    /// The block that the pieces make.
    pub fn bytes(&self) -> Vec<u8> {
        let mut inside: Vec<u8> = self.lists.iter().flat_map(RawList::bytes).collect();
        inside.extend(&self.tail);
        block(self.stated, self.version, &inside)
    }
}

impl RawCard {
    /// The pieces of a card's block.
    pub fn of(card: &Card) -> RawCard {
        let term_of = |word: usize| RawTerm::of(&card.term(word));
        RawCard {
            stated: None,
            version: card.edition.version() as u8,
            pages: card.pages,
            term_count: card.words.len() as u16,
            terms: (0..card.words.len()).map(term_of).collect(),
            tail: Vec::new(),
        }
    }

    /// The block that the pieces make.
    pub fn bytes(&self) -> Vec<u8> {
        let mut inside = Vec::new();
        push_number(&mut inside, self.pages);
        inside.extend([(self.term_count / 256) as u8, (self.term_count % 256) as u8]);
        inside.extend(self.term_bytes());
        block(self.stated, self.version, &inside)
    }

    /// The bytes behind the header.
    pub fn term_bytes(&self) -> Vec<u8> {
        let mut bytes: Vec<u8> = self.terms.iter().flat_map(RawTerm::bytes).collect();
        bytes.extend(&self.tail);
        bytes
    }
}

fn block(stated: Option<u32>, version: u8, inside: &[u8]) -> Vec<u8> {
    let mut bytes = Vec::with_capacity(inside.len() + 5);
    push_number(&mut bytes, stated.unwrap_or(inside.len() as u32 + 5));
    bytes.push(version);
    bytes.extend(inside);
    bytes
}
