//! One word of the manual: its pages, counts and positions.

use super::bytes::{check_opening, next_part, push_number, put};
use super::edition::{Edition, Form, Place};
use super::list::{check_list_of, is_rising, List, LIST_HEADER};
use super::seek::Formed;
use super::{refusal, GREATEST_BOUND};

/// Bytes of a term's header and of the three headers in it.
pub const TERM_HEADER: usize = 44;

/// Bytes before a term's first list.
pub const TERM_OPENING: usize = 5;

/// The version in every term block.
const TERM_VERSION: u8 = 1;

/// The three lists of a term block, and the edition of the index that it is for.
#[derive(Clone, Debug, PartialEq, Eq)]
pub struct Term {
    /// The edition.
    pub edition: Edition,
    /// The page numbers.
    pub pages: List,
    /// The running sums of the counts, less 1.
    pub counts: List,
    /// The positions, each page's on its own base.
    pub positions: List,
}

impl Term {
    /// The three lists that the writer's inputs give, or refusal 4 or 10.
    pub fn from_inputs(
        edition: Edition,
        card_pages: u32,
        pages: &[u32],
        counts: &[u32],
        positions: &[u32],
    ) -> Result<Term, u32> {
        if card_pages > GREATEST_BOUND {
            return Err(refusal::LIMIT);
        }
        let pages = List {
            bound: card_pages,
            elements: pages.to_vec(),
        };
        let groups = positions_by_page(counts, positions).ok_or(refusal::INPUT)?;
        let in_order = groups.iter().all(|group| is_rising(group));
        if pages.elements.len() != counts.len() || !pages.is_valid() || !in_order {
            return Err(refusal::INPUT);
        }
        let positions = positions_list(&groups).ok_or(refusal::LIMIT)?;
        let counts = counts_list(counts);
        Ok(Term {
            edition,
            pages,
            counts,
            positions,
        })
    }

    /// The block of a term whose lists are valid.
    pub fn block(&self) -> Vec<u8> {
        self.block_in(self.forms())
    }

    /// The forms that the edition gives its three lists.
    pub fn forms(&self) -> [Form; 3] {
        let [pages, counts, positions] = self.lists();
        let form = |place, list: &List| self.edition.form(place, list.bound, list.elements.len());
        [
            form(Place::Pages, pages),
            form(Place::Counts, counts),
            form(Place::Positions, positions),
        ]
    }

    /// The block with its lists in these forms, whichever they should have.
    pub fn block_in(&self, forms: [Form; 3]) -> Vec<u8> {
        let lists = self.lists().into_iter().zip(forms);
        let parts: Vec<u8> = lists.flat_map(|(list, form)| list.block_in(form)).collect();
        let mut block = Vec::new();
        push_number(&mut block, (TERM_OPENING + parts.len()) as u32);
        block.push(TERM_VERSION);
        block.extend(parts);
        block
    }

    /// The three lists in their order.
    pub fn lists(&self) -> [&List; 3] {
        [&self.pages, &self.counts, &self.positions]
    }

    /// The pages in the form that the edition gives them.
    pub fn formed_pages(&self) -> Formed<'_> {
        let form = self.forms()[0];
        Formed::of(&self.pages, form)
    }

    /// The positions on the page of this rank, each from 0.
    pub fn positions_on(&self, rank: usize) -> Vec<u32> {
        let sums = &self.counts.elements;
        let first = if rank == 0 { 0 } else { sums[rank - 1] + 1 } as usize;
        let last = sums[rank] as usize;
        let elements = &self.positions.elements;
        let base = if first == 0 {
            0
        } else {
            elements[first - 1] + 1
        };
        elements[first..=last].iter().map(|x| x - base).collect()
    }

    fn parts_agree(&self) -> bool {
        self.counts.elements.len() == self.pages.elements.len()
            && self.counts.bound == self.counts.end()
            && self.positions.elements.len() == self.counts.bound as usize
            && self.positions.bound == self.positions.end()
    }
}

/// Cuts the positions into one group a page, if the counts fit them.
fn positions_by_page<'a>(counts: &[u32], positions: &'a [u32]) -> Option<Vec<&'a [u32]>> {
    let mut rest = positions;
    let mut groups = Vec::with_capacity(counts.len());
    for count in counts {
        let count = *count as usize;
        if count == 0 || count > rest.len() {
            return None;
        }
        let (group, after) = rest.split_at(count);
        groups.push(group);
        rest = after;
    }
    rest.is_empty().then_some(groups)
}

/// The running sums, less 1, of counts that add up to a number of positions.
fn counts_list(counts: &[u32]) -> List {
    let mut bound = 0;
    let mut elements = Vec::with_capacity(counts.len());
    for count in counts {
        bound += count;
        elements.push(bound - 1);
    }
    List { bound, elements }
}

/// The positions on their bases, if their U is within its limit.
fn positions_list(groups: &[&[u32]]) -> Option<List> {
    let mut base = 0_u64;
    let mut elements = Vec::new();
    for group in groups {
        elements.extend(group.iter().map(|position| base + u64::from(*position)));
        base = elements.last().map_or(0, |last| last + 1);
    }
    (base <= u64::from(GREATEST_BOUND)).then(|| List {
        bound: base as u32,
        elements: elements.into_iter().map(|x| x as u32).collect(),
    })
}

/// Writes a term's block into the room and gives its length, or a refusal.
pub fn write_term(
    version: u32,
    card_pages: u32,
    pages: &[u32],
    counts: &[u32],
    positions: &[u32],
    room: &mut [u8],
) -> Result<usize, u32> {
    let edition = Edition::of_version(version)?;
    let term = Term::from_inputs(edition, card_pages, pages, counts, positions)?;
    put(&term.block(), room)
}

/// Takes the block of a term that is handled alone apart, or gives the first refusal.
pub fn check_term(version: u32, block: &[u8]) -> Result<Term, u32> {
    check_opening(block, TERM_HEADER)?;
    take_apart(Edition::of_version(version)?, block)
}

/// Takes a term block of this edition apart into its lists, or gives the first refusal.
pub fn take_apart(edition: Edition, block: &[u8]) -> Result<Term, u32> {
    take_apart_by(edition, block, &|place, form, bound, count| {
        form == edition.form(place, bound, count)
    })
}

/// The same, where this tells whether a form is right in its place for U and n.
pub fn take_apart_by(
    edition: Edition,
    block: &[u8],
    is_right: &dyn Fn(Place, Form, u32, usize) -> bool,
) -> Result<Term, u32> {
    if check_opening(block, TERM_HEADER)? != TERM_VERSION {
        return Err(refusal::VERSION);
    }
    let mut rest = &block[TERM_OPENING..];
    let mut next_list = |place| {
        let part = next_part(&mut rest, LIST_HEADER)?;
        let is_right = |form, bound, count| is_right(place, form, bound, count);
        check_list_of(part, &Form::ALL, is_right)
    };
    let pages = next_list(Place::Pages)?;
    let counts = next_list(Place::Counts)?;
    let positions = next_list(Place::Positions)?;
    if !rest.is_empty() {
        return Err(refusal::SIZE);
    }
    let term = Term {
        edition,
        pages,
        counts,
        positions,
    };
    if !term.parts_agree() {
        return Err(refusal::PARTS);
    }
    Ok(term)
}
