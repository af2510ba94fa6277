//! Questions over a card.

use super::form::{all_questions, Question};
use super::index::check_index;
use super::list::List;
use super::meeting::meet;
use super::refusal;
use super::term::Term;

/// What asking gives: the refusal or 0, and each whole answer that fitted.
#[derive(Clone, Debug, PartialEq, Eq)]
pub struct Reply {
    /// The refusal, 0 if none.
    pub refusal: u32,
    /// One list of numbers for each question answered.
    pub answers: Vec<Vec<u32>>,
}

impl Reply {
    /// A refusal before any answer.
    pub fn refused(refusal: u32) -> Reply {
        Reply {
            refusal,
            answers: Vec::new(),
        }
    }

    /// The answers in turn up to the first that does not fit whole.
    fn fitting(answers: impl Iterator<Item = Vec<u32>>, room: usize) -> Reply {
        let mut reply = Reply::refused(0);
        let mut left = room;
        for answer in answers {
            if answer.len() > left {
                reply.refusal = refusal::ROOM;
                break;
            }
            left -= answer.len();
            reply.answers.push(answer);
        }
        reply
    }

    /// What is left of a reply that had all the room it needs when it has so much.
    pub fn cut_to(self, room: usize) -> Reply {
        match self.refusal {
            0 => Reply::fitting(self.answers.into_iter(), room),
            _ => self,
        }
    }

    /// Writes the answers into the room; gives refusal, number answered, room used.
    pub fn put(&self, room: &mut [u32]) -> (u32, usize, usize) {
        let numbers = self.answers.concat();
        room[..numbers.len()].copy_from_slice(&numbers);
        (self.refusal, self.answers.len(), numbers.len())
    }
}

/// Answers the questions in turn, as long as they fit in so many numbers.
pub fn reply(card: &[u8], questions: &[u32], room: usize) -> Reply {
    match check_index(card) {
        Ok(terms) => reply_over(&terms, questions, room),
        Err(refusal) => Reply::refused(refusal),
    }
}

/// The same over the terms of a card that has been accepted.
pub fn reply_over(terms: &[Term], questions: &[u32], room: usize) -> Reply {
    match all_questions(terms.len(), questions) {
        Ok(questions) => Reply::fitting(questions.iter().map(|one| answer(terms, one)), room),
        Err(_) => Reply::refused(refusal::QUESTION),
    }
}

/// Asks a card and writes the answers that fit into the room.
pub fn ask(card: &[u8], questions: &[u32], room: &mut [u32]) -> (u32, usize, usize) {
    reply(card, questions, room.len()).put(room)
}

/// One answer: how many numbers follow, then those numbers.
fn answer(all: &[Term], question: &Question) -> Vec<u32> {
    let terms = question.terms();
    let terms: Vec<&Term> = terms.iter().map(|term| &all[*term as usize]).collect();
    let mut numbers = match question {
        Question::AtRank(_, rank) => at_rank(&terms[0].pages, *rank),
        Question::AtBound(_, bound) => at_bound(&terms[0].pages, *bound),
        Question::Common(_) => common(&terms),
        Question::Phrase(words) => {
            let offsets: Vec<u32> = words.iter().map(|word| word.offset).collect();
            phrase(&terms, &offsets)
        }
    };
    numbers.insert(0, numbers.len() as u32);
    numbers
}

fn at_rank(pages: &List, rank: u32) -> Vec<u32> {
    let page = pages.elements.get(rank as usize);
    page.copied().into_iter().collect()
}

/// The first page at or above the bound, if there is one, then how many lie below the bound.
fn at_bound(pages: &List, bound: u32) -> Vec<u32> {
    let first = pages.elements.iter().find(|page| **page >= bound);
    let below = pages.elements.iter().filter(|page| **page < bound).count();
    first.copied().into_iter().chain([below as u32]).collect()
}

/// Seeks, looks, then the common pages.
fn common(terms: &[&Term]) -> Vec<u32> {
    let lists = terms.iter().map(|term| term.formed_pages()).collect();
    let met = meet(lists, 0, usize::MAX);
    [vec![met.seeks, met.looks], met.pages].concat()
}

/// Each page with a start, and the number of its starts.
fn phrase(terms: &[&Term], offsets: &[u32]) -> Vec<u32> {
    let mut numbers = Vec::new();
    for page in &terms[0].pages.elements {
        let starts = starts_on(terms, offsets, *page);
        if starts > 0 {
            numbers.extend([*page, starts]);
        }
    }
    numbers
}

/// How many positions of a page have each word at its offset behind them; the first stands there itself.
fn starts_on(terms: &[&Term], offsets: &[u32], page: u32) -> u32 {
    let mut words = Vec::new();
    for term in terms {
        match term.pages.elements.binary_search(&page) {
            Ok(rank) => words.push(term.positions_on(rank)),
            Err(_) => return 0,
        }
    }
    let is_start = |start: &&u32| {
        let mut placed = words.iter().zip(offsets);
        placed.all(|(positions, offset)| positions.binary_search(&(**start + offset)).is_ok())
    };
    words[0].iter().filter(is_start).count() as u32
}

#[cfg(test)]
mod tests {
    use super::*;
    use crate::gen::lists;
    use crate::gen::random::Random;

    fn s1_list() -> List {
        List {
            bound: 44,
            elements: vec![3, 4, 7, 13, 14, 15, 21, 43],
        }
    }

    #[test]
    fn s5_to_s7_tell_the_pages_below_the_bound() {
        assert_eq!(at_bound(&s1_list(), 16), [21, 6]);
        assert_eq!(at_bound(&s1_list(), 43), [43, 7]);
        assert_eq!(at_bound(&s1_list(), 44), [8]);
        assert_eq!(at_bound(&s1_list(), u32::MAX), [8]);
    }

    #[test]
    fn a_word_on_no_page_has_none_below_any_bound() {
        let nowhere = List {
            bound: 5,
            elements: Vec::new(),
        };
        for bound in [0, 4, 5, u32::MAX] {
            assert_eq!(at_bound(&nowhere, bound), [0]);
        }
    }

    #[test]
    fn the_pages_below_a_bound_are_the_rank_of_the_page_found_or_all() {
        let mut random = Random::of_case(5, 0, 0);
        for _ in 0..600 {
            let pages = lists::list(&mut random);
            let bound = random.from_to(0, pages.bound);
            match at_bound(&pages, bound)[..] {
                [page, rank] => assert_eq!(pages.elements[rank as usize], page),
                ref none => assert_eq!(none, [pages.elements.len() as u32]),
            }
        }
    }
}
