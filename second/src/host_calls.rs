//! The seven calls of a host that stand alone, and the plain program behind them.

use crate::plain;

/// What a writer or the closing gives back.
#[repr(C)]
#[derive(Clone, Copy, Debug, PartialEq, Eq)]
pub struct Written {
    /// The refusal, 0 if none.
    pub refusal: u32,
    /// The bytes written or closed, 0 on a refusal.
    pub length: usize,
}

/// What asking gives back.
#[repr(C)]
#[derive(Clone, Copy, Debug, PartialEq, Eq)]
pub struct Asked {
    /// The refusal, 0 if none.
    pub refusal: u32,
    /// The questions answered.
    pub answered: usize,
    /// The numbers of room used.
    pub used: usize,
}

/// One side of the comparison: something that answers the host's calls that stand alone.
pub trait HostCalls: Sync {
    /// Writes a list's block.
    fn write_list(&self, bound: u32, list: &[u32], room: &mut [u8]) -> Written;
    /// Checks a list's block.
    fn check_list(&self, block: &[u8]) -> u32;
    /// Writes a term's block for an index of this version.
    fn write_term(
        &self,
        version: u32,
        card_pages: u32,
        pages: &[u32],
        counts: &[u32],
        positions: &[u32],
        room: &mut [u8],
    ) -> Written;
    /// Checks a term's block for an index of this version.
    fn check_term(&self, version: u32, block: &[u8]) -> u32;
    /// Closes an index in its buffer.
    fn close_index(
        &self,
        buffer: &mut [u8],
        used: usize,
        version: u32,
        card_pages: u32,
        term_count: u32,
    ) -> Written;
    /// Checks a whole card.
    fn check_index(&self, card: &[u8]) -> u32;
    /// Asks questions over a card.
    fn ask(&self, card: &[u8], questions: &[u32], room: &mut [u32]) -> Asked;
}

/// The plain program as one side.
pub struct Plain;

impl HostCalls for Plain {
    fn write_list(&self, bound: u32, list: &[u32], room: &mut [u8]) -> Written {
        written(plain::list::write_list(bound, list, room))
    }

    fn check_list(&self, block: &[u8]) -> u32 {
        refusal_of(plain::list::check_list(block))
    }

    fn write_term(
        &self,
        version: u32,
        card_pages: u32,
        pages: &[u32],
        counts: &[u32],
        positions: &[u32],
        room: &mut [u8],
    ) -> Written {
        written(plain::term::write_term(
            version, card_pages, pages, counts, positions, room,
        ))
    }

    fn check_term(&self, version: u32, block: &[u8]) -> u32 {
        refusal_of(plain::term::check_term(version, block))
    }

    fn close_index(
        &self,
        buffer: &mut [u8],
        used: usize,
        version: u32,
        card_pages: u32,
        term_count: u32,
    ) -> Written {
        written(plain::index::close_index(
            buffer, used, version, card_pages, term_count,
        ))
    }

    fn check_index(&self, card: &[u8]) -> u32 {
        refusal_of(plain::index::check_index(card))
    }

    fn ask(&self, card: &[u8], questions: &[u32], room: &mut [u32]) -> Asked {
        let (refusal, answered, used) = plain::ask::ask(card, questions, room);
        Asked {
            refusal,
            answered,
            used,
        }
    }
}

fn written(result: Result<usize, u32>) -> Written {
    Written {
        refusal: result.err().unwrap_or(0),
        length: result.unwrap_or(0),
    }
}

fn refusal_of<T>(result: Result<T, u32>) -> u32 {
    result.err().unwrap_or(0)
}
