//! Questions as typed values, and as the numbers that the library takes.

/// A question over a card; terms are the numbers of its words, from 0.
#[derive(Clone, Debug, PartialEq, Eq, Hash)]
pub enum Question {
    /// Which page has this rank among the term's pages, counted from 0?
    Rank {
        /// The term's number.
        term: u32,
        /// The rank.
        rank: u32,
    },
    /// Which is the term's first page at or above this bound, and how many of its pages lie below?
    Bound {
        /// The term's number.
        term: u32,
        /// The bound.
        bound: u32,
    },
    /// Which pages do these terms share? 1 to 8 terms.
    Common(Vec<u32>),
    /// On which pages do these words stand, each at its offset behind a start? 1 to 8 words; the first offset is 0,
    /// offsets rise strictly, and none is above 255. [`Question::phrase`] is the phrase without gaps.
    Phrase(Vec<PhraseWord>),
}

/// A word of a phrase; an offset that is left out between two words is that of a dropped one.
///
/// ```
/// use jundefola::{question_numbers, PhraseWord, Question};
/// // "torque the bolt", of which the card has no "the"
/// let torque = PhraseWord { term: 0, offset: 0 };
/// let bolt = PhraseWord { term: 1, offset: 2 };
/// let question = Question::Phrase(vec![torque, bolt]);
/// assert_eq!(question_numbers(&[question]), [4, 4, 0, 0, 1, 2]);
/// ```
#[derive(Clone, Copy, Debug, PartialEq, Eq, Hash)]
pub struct PhraseWord {
    /// The term's number.
    pub term: u32,
    /// How many positions behind the start it stands.
    pub offset: u32,
}

impl PhraseWord {
    fn pair(&self) -> [u32; 2] {
        [self.term, self.offset]
    }
}

/// A term and its offset.
impl From<(u32, u32)> for PhraseWord {
    fn from((term, offset): (u32, u32)) -> PhraseWord {
        PhraseWord { term, offset }
    }
}

/// The kinds of question, with their numbers.
#[derive(Clone, Copy, Debug, PartialEq, Eq)]
pub(crate) enum Kind {
    Rank = 1,
    Bound = 2,
    Common = 3,
    Phrase = 4,
}

impl Question {
    /// The phrase of these terms, each right behind the one before it; 1 to 8 terms.
    ///
    /// ```
    /// use jundefola::{question_numbers, Question};
    /// let questions = [Question::phrase([3, 1, 3])];
    /// assert_eq!(question_numbers(&questions), [4, 6, 3, 0, 1, 1, 3, 2]);
    /// ```
    pub fn phrase(terms: impl IntoIterator<Item = u32>) -> Question {
        let placed = terms.into_iter().zip(0..);
        Question::Phrase(placed.map(PhraseWord::from).collect())
    }

    /// Appends the question's numbers: kind, count, and that many numbers.
    ///
    /// ```
    /// use jundefola::Question;
    /// let mut numbers = Vec::new();
    /// Question::Bound { term: 0, bound: 16 }.write_to(&mut numbers);
    /// assert_eq!(numbers, [2, 2, 0, 16]);
    /// ```
    pub fn write_to(&self, numbers: &mut Vec<u32>) {
        match self {
            Question::Rank { term, rank } => self.write_with(&[*term, *rank], numbers),
            Question::Bound { term, bound } => self.write_with(&[*term, *bound], numbers),
            Question::Common(terms) => self.write_with(terms, numbers),
            Question::Phrase(words) => {
                let pairs: Vec<u32> = words.iter().flat_map(PhraseWord::pair).collect();
                self.write_with(&pairs, numbers);
            }
        }
    }

    pub(crate) fn kind(&self) -> Kind {
        match self {
            Question::Rank { .. } => Kind::Rank,
            Question::Bound { .. } => Kind::Bound,
            Question::Common(_) => Kind::Common,
            Question::Phrase(_) => Kind::Phrase,
        }
    }

    fn write_with(&self, operands: &[u32], numbers: &mut Vec<u32>) {
        // a count that four bytes cannot hold is as wrong as the largest that they can
        let count = u32::try_from(operands.len()).unwrap_or(u32::MAX);
        numbers.extend([self.kind() as u32, count]);
        numbers.extend(operands);
    }
}

/// The numbers of these questions, one question after the other, as [`ask`](crate::ask) takes them.
pub fn question_numbers(questions: &[Question]) -> Vec<u32> {
    let mut numbers = Vec::new();
    for question in questions {
        question.write_to(&mut numbers);
    }
    numbers
}
