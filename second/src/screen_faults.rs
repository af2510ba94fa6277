//! What a screen was refused for, and what else was wrong with it.

use crate::plain::{GREATEST_SCREEN, GREATEST_WORDS};
use crate::screen_case::ScreenCase;

/// The numbers that the seeks and looks take.
const COUNTS: usize = 2;

/// Something that a screen was refused for.
#[derive(Clone, Copy, Debug, PartialEq, Eq)]
pub enum Fault {
    /// No page was asked for.
    NoPages,
    /// One page too many was asked for.
    OnePageTooMany,
    /// As many pages as a number can say were asked for.
    LargestMost,
    /// There were no words.
    NoWords,
    /// There was a ninth word.
    NineWords,
    /// The first number that is no word was named.
    NoSuchWord,
    /// The card was refused, and the question was bad too.
    CardBeforeQuestion,
    /// The card was refused, and a room was too short too.
    CardBeforeRoom,
    /// The question was bad, and a room was too short too.
    QuestionBeforeRoom,
    /// The room for pages was one number short.
    PagesOneShort,
    /// There was no room for pages.
    PagesWithoutRoom,
    /// The room for counts was one number short.
    CountsOneShort,
    /// There was no room for counts.
    CountsWithoutRoom,
    /// Both rooms were too short.
    BothShort,
}

impl Fault {
    /// What is counted, as the report names it.
    pub fn name(self) -> &'static str {
        match self {
            Fault::NoPages => "screens refused for r = 0",
            Fault::OnePageTooMany => "screens refused for r = 65",
            Fault::LargestMost => "screens refused for the largest r",
            Fault::NoWords => "screens refused for no words",
            Fault::NineWords => "screens refused for a ninth word",
            Fault::NoSuchWord => "screens refused for the word T",
            Fault::CardBeforeQuestion => "screens of a bad card with a bad question",
            Fault::CardBeforeRoom => "screens of a bad card in a room too short",
            Fault::QuestionBeforeRoom => "bad screens in a room too short",
            Fault::PagesOneShort => "screens refused with room for all pages but one",
            Fault::PagesWithoutRoom => "screens refused without room for pages",
            Fault::CountsOneShort => "screens refused with room for one count",
            Fault::CountsWithoutRoom => "screens refused without room for counts",
            Fault::BothShort => "screens refused with both rooms too short",
        }
    }
}

/// The faults of those that hold.
fn holding(all: &[(bool, Fault)]) -> Vec<Fault> {
    let holding = all.iter().filter(|(holds, _)| *holds);
    holding.map(|(_, fault)| *fault).collect()
}

/// The faults of a screen whose card was refused.
pub fn of_bad_card(case: &ScreenCase) -> Vec<Fault> {
    let good_number = (1..=GREATEST_WORDS).contains(&case.wanted.words.len());
    let bad_question = !good_most(case) || !good_number;
    holding(&[
        (bad_question, Fault::CardBeforeQuestion),
        (case.counts.len() < COUNTS, Fault::CardBeforeRoom),
    ])
}

fn good_most(case: &ScreenCase) -> bool {
    (1..=GREATEST_SCREEN).contains(&case.wanted.most)
}

/// The faults of a bad screen of an accepted card with so many words; its own fault if it is the only one.
pub fn of_bad_question(case: &ScreenCase, term_count: usize) -> Vec<Fault> {
    let wanted = &case.wanted;
    let good_most = good_most(case);
    let good_number = (1..=GREATEST_WORDS).contains(&wanted.words.len());
    let is_word = |word: &u32| (*word as usize) < term_count;
    let good_words = wanted.words.iter().all(is_word);
    let none_above = wanted.words.iter().all(|word| *word as usize <= term_count);
    let bad_most = good_number && good_words;
    let bad_number = good_most && good_words;
    let bad_word = good_most && good_number && !good_words;
    holding(&[
        (bad_most && wanted.most == 0, Fault::NoPages),
        (
            bad_most && wanted.most == GREATEST_SCREEN + 1,
            Fault::OnePageTooMany,
        ),
        (bad_most && wanted.most == u32::MAX, Fault::LargestMost),
        (bad_number && wanted.words.is_empty(), Fault::NoWords),
        (
            bad_number && wanted.words.len() == GREATEST_WORDS + 1,
            Fault::NineWords,
        ),
        (bad_word && none_above, Fault::NoSuchWord),
        (case.counts.len() < COUNTS, Fault::QuestionBeforeRoom),
    ])
}

/// The faults of rooms that are too short for a screen of so many pages.
pub fn of_short_rooms(case: &ScreenCase, found: usize) -> Vec<Fault> {
    let pages_short = case.pages.len() < found;
    let counts_short = case.counts.len() < COUNTS;
    let pages_alone = pages_short && !counts_short;
    let counts_alone = counts_short && !pages_short;
    holding(&[
        (
            pages_alone && case.pages.len() + 1 == found,
            Fault::PagesOneShort,
        ),
        (
            pages_alone && case.pages.is_empty(),
            Fault::PagesWithoutRoom,
        ),
        (
            counts_alone && case.counts.len() == 1,
            Fault::CountsOneShort,
        ),
        (
            counts_alone && case.counts.is_empty(),
            Fault::CountsWithoutRoom,
        ),
        (pages_short && counts_short, Fault::BothShort),
    ])
}
