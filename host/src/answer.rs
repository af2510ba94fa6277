//! Answers as typed values, read from the numbers that the library gives.

use crate::question::Kind;
use crate::Question;

/// The answer to one question.
///
/// ```
/// use jundefola::{ask_all, Answer, CardWriter, Edition, Question};
/// let mut writer = CardWriter::new(Edition::Two, 44);
/// writer.add(&[4, 15], &[1, 1], &[0, 0])?;
/// let card = writer.close()?;
///
/// let questions = [9, 16].map(|bound| Question::Bound { term: 0, bound });
/// let expected = [
///     Answer::Bound { page: Some(15), below: 1 },
///     Answer::Bound { page: None, below: 2 },
/// ];
/// assert!(ask_all(&card, &questions)?.iter().eq(expected));
/// # Ok::<(), jundefola::Refusal>(())
/// ```
#[derive(Clone, Debug, PartialEq, Eq)]
pub enum Answer<'a> {
    /// The page at the rank; none where the term has fewer pages.
    Rank(Option<u32>),
    /// Where the bound falls among the term's pages.
    Bound {
        /// The first page at or above the bound; none where all the term's pages lie below it.
        page: Option<u32>,
        /// How many of the term's pages lie below the bound; where there is a page, this is its rank, from 0.
        below: u32,
    },
    /// The pages that the terms share, and what finding them took.
    Common {
        /// How many seeks were made.
        seeks: u32,
        /// How many words of the upper runs, or of the bitmaps, the seeks looked at.
        looks: u32,
        /// The common pages, rising.
        pages: &'a [u32],
    },
    /// The pages where the words of the phrase stand, rising.
    Phrase(Starts<'a>),
}

/// A page where a phrase stands.
#[derive(Clone, Copy, Debug, PartialEq, Eq)]
pub struct PageStarts {
    /// The page.
    pub page: u32,
    /// How many times the phrase starts there.
    pub starts: u32,
}

/// An iterator over the pages where a phrase stands.
#[derive(Clone, Debug, PartialEq, Eq)]
pub struct Starts<'a> {
    numbers: &'a [u32],
}

impl Iterator for Starts<'_> {
    type Item = PageStarts;

    fn next(&mut self) -> Option<PageStarts> {
        let (&[page, starts], rest) = self.numbers.split_first_chunk()?;
        self.numbers = rest;
        Some(PageStarts { page, starts })
    }

    fn size_hint(&self) -> (usize, Option<usize>) {
        let left = self.numbers.len() / 2;
        (left, Some(left))
    }
}

impl ExactSizeIterator for Starts<'_> {}

/// The answers to a run of questions, in their order.
#[derive(Clone, Debug, PartialEq, Eq)]
pub struct Answers {
    kinds: Vec<Kind>,
    numbers: Vec<u32>,
}

impl Answers {
    /// The answers that the library gave, as numbers, to these questions.
    pub(crate) fn new(questions: &[Question], numbers: Vec<u32>) -> Answers {
        Answers {
            kinds: questions.iter().map(Question::kind).collect(),
            numbers,
        }
    }

    /// An iterator over the answers.
    pub fn iter(&self) -> AnswerIter<'_> {
        AnswerIter {
            kinds: &self.kinds,
            numbers: &self.numbers,
        }
    }
}

impl<'a> IntoIterator for &'a Answers {
    type Item = Answer<'a>;
    type IntoIter = AnswerIter<'a>;

    fn into_iter(self) -> AnswerIter<'a> {
        self.iter()
    }
}

/// An iterator over answers.
#[derive(Clone, Debug)]
pub struct AnswerIter<'a> {
    kinds: &'a [Kind],
    numbers: &'a [u32],
}

impl<'a> Iterator for AnswerIter<'a> {
    type Item = Answer<'a>;

    fn next(&mut self) -> Option<Answer<'a>> {
        let (&kind, kinds) = self.kinds.split_first()?;
        let (&count, numbers) = self.numbers.split_first()?;
        let (content, rest) = numbers.split_at(count as usize);
        self.kinds = kinds;
        self.numbers = rest;
        Some(typed(kind, content))
    }

    fn size_hint(&self) -> (usize, Option<usize>) {
        (self.kinds.len(), Some(self.kinds.len()))
    }
}

impl ExactSizeIterator for AnswerIter<'_> {}

/// The answer of a kind from the numbers behind its count.
fn typed(kind: Kind, content: &[u32]) -> Answer<'_> {
    match (kind, content) {
        (Kind::Rank, content) => Answer::Rank(content.first().copied()),
        (Kind::Bound, &[page, below]) => Answer::Bound {
            page: Some(page),
            below,
        },
        (Kind::Bound, &[below]) => Answer::Bound { page: None, below },
        (Kind::Bound, _) => unreachable!("the pages below a bound are always told"),
        (Kind::Common, &[seeks, looks, ref pages @ ..]) => Answer::Common {
            seeks,
            looks,
            pages,
        },
        (Kind::Common, _) => unreachable!("seeks and looks are always told"),
        (Kind::Phrase, numbers) => Answer::Phrase(Starts { numbers }),
    }
}

#[cfg(test)]
mod tests {
    use super::*;

    #[test]
    fn answers_are_read_in_turn() {
        let questions = [
            Question::Rank { term: 0, rank: 9 },
            Question::Bound { term: 0, bound: 16 },
            Question::Bound { term: 0, bound: 44 },
            Question::Common(vec![0]),
            Question::phrase([0]),
        ];
        let numbers = vec![0, 2, 21, 6, 1, 8, 3, 2, 5, 1, 4, 1, 2, 8, 3];
        let answers = Answers::new(&questions, numbers);
        let read: Vec<Answer> = answers.iter().collect();
        assert_eq!(answers.iter().len(), 5);
        assert_eq!(read[0], Answer::Rank(None));
        let found = Answer::Bound {
            page: Some(21),
            below: 6,
        };
        assert_eq!(read[1], found);
        let none = Answer::Bound {
            page: None,
            below: 8,
        };
        assert_eq!(read[2], none);
        let common = Answer::Common {
            seeks: 2,
            looks: 5,
            pages: &[1],
        };
        assert_eq!(read[3], common);
        let Answer::Phrase(starts) = read[4].clone() else {
            panic!("a phrase was asked")
        };
        assert_eq!(starts.len(), 2);
        assert_eq!(starts.last(), Some(PageStarts { page: 8, starts: 3 }));
    }
}
