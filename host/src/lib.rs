//! Posting lists, the words of a manual, cards that index them, and questions over cards.
//!
//! The work is done by the proved library, whose archive this crate links. Here are its calls on slices
//! ([`write_list`], [`check_list`], [`write_term`], [`check_term`], [`close_index`], [`check_index`], [`ask`]),
//! the same on vectors ([`list_block`], [`term_block`], [`CardWriter`], [`ask_all`]), and names for what they
//! take and answer ([`Edition`], [`Question`], [`PhraseWord`], [`Answer`], [`Refusal`]).
//!
//! A word whose postings are not all at hand at once is written in runs of them: by [`TermWriter`], or by the calls
//! [`begin_term`], [`put_postings`] and [`end_term`].
//!
//! Pages that words share are shown one screen at a time by [`Screens`], an iterator, or by the call [`screen`].
//!
//! A card has N pages, numbered from 0, and T words, its terms, numbered from 0:
//!
//! ```
//! use jundefola::{ask_all, Answer, CardWriter, Edition, PageStarts, PhraseWord, Question};
//!
//! let mut writer = CardWriter::new(Edition::Two, 44);
//! // "torque" is on page 4 at positions 0 and 7, and on page 15 at position 2
//! writer.add(&[4, 15], &[2, 1], &[0, 7, 2])?;
//! // "bolt" is on page 4 at position 1, on page 15 at position 4, and on page 21 at position 9
//! writer.add(&[4, 15, 21], &[1, 1, 1], &[1, 4, 9])?;
//! let card = writer.close()?;
//!
//! // "torque the bolt": "the" has a position on its page, and is no term
//! let with_gap = [(0, 0), (1, 2)].map(PhraseWord::from).to_vec();
//! let questions = [
//!     Question::Common(vec![0, 1]),
//!     Question::phrase([0, 1]),
//!     Question::Phrase(with_gap),
//! ];
//! let answers = ask_all(&card, &questions)?;
//! let mut answers = answers.iter();
//! assert!(matches!(answers.next(), Some(Answer::Common { pages: [4, 15], .. })));
//! for page in [4, 15] {
//!     let Some(Answer::Phrase(mut found)) = answers.next() else { panic!("a phrase was asked") };
//!     assert!(found.eq([PageStarts { page, starts: 1 }]));
//! }
//! # Ok::<(), jundefola::Refusal>(())
//! ```

#![deny(unsafe_code)]
#![warn(missing_docs)]

mod answer;
mod ask;
mod blocks;
#[allow(unsafe_code)]
mod calls;
mod edition;
mod question;
mod refusal;
mod room;
mod screen;
mod stream;

pub use answer::{Answer, AnswerIter, Answers, PageStarts, Starts};
pub use ask::ask_all;
pub use blocks::{list_block, term_block, CardWriter};
pub use calls::{
    ask, begin_term, check_index, check_list, check_term, close_index, end_term, put_postings,
    screen, write_list, write_term, Asked, Screened, Stream,
};
pub use edition::Edition;
pub use question::{question_numbers, PhraseWord, Question};
pub use refusal::Refusal;
pub use room::{list_room, term_room, CARD_HEADER, MAX_SCREEN, SCREEN_COUNTS};
pub use screen::{Screen, Screens};
pub use stream::{Announcement, TermWriter};
