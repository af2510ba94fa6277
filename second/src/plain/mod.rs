//! Document 01 and its amendments on plain lists: slow, small and read straight
//! from the text.

pub mod ask;
pub mod bitmap;
pub mod bits;
pub mod bytes;
pub mod edition;
pub mod form;
pub mod index;
pub mod list;
pub mod meeting;
pub mod program;
pub mod screen;
pub mod seek;
pub mod stream;
pub mod term;

/// The greatest U and the greatest N.
pub const GREATEST_BOUND: u32 = 16_777_216;

/// The greatest number of terms on a card.
pub const GREATEST_TERMS: u32 = 4_096;

/// The greatest number of words in a question.
pub const GREATEST_WORDS: usize = 8;

/// The greatest number of pages that a screen can be asked for.
pub const GREATEST_SCREEN: u32 = 64;

/// The greatest offset of a word in a phrase.
pub const GREATEST_OFFSET: u32 = 255;

/// The numbers of refusal, named by what they are given for.
pub mod refusal {
    /// Fewer bytes than the header.
    pub const SHORT: u32 = 1;
    /// The stated length is wrong.
    pub const LENGTH: u32 = 2;
    /// The version is unknown, or a list has not the form of its place.
    pub const VERSION: u32 = 3;
    /// U, N, T or a closed length is over its limit.
    pub const LIMIT: u32 = 4;
    /// The size does not follow from U and n, or bytes are left over.
    pub const SIZE: u32 = 5;
    /// Runs, pointers, or a bitmap and its numbers are not those of a valid list.
    pub const RUNS: u32 = 6;
    /// The parts disagree.
    pub const PARTS: u32 = 7;
    /// A bad question.
    pub const QUESTION: u32 = 8;
    /// The lent room is too small.
    pub const ROOM: u32 = 9;
    /// Lists handed to the writer are not valid.
    pub const INPUT: u32 = 10;
}
