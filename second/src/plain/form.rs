//! Questions as numbers, and which of them are of good form.

use super::list::is_rising;
use super::{GREATEST_OFFSET, GREATEST_WORDS};

/// A question of good form; terms are given by their numbers.
#[derive(Clone, Debug, PartialEq, Eq)]
pub enum Question {
    /// Kind 1: a term and a rank.
    AtRank(u32, u32),
    /// Kind 2: a term and a bound.
    AtBound(u32, u32),
    /// Kind 3: the terms.
    Common(Vec<u32>),
    /// Kind 4: the words of the phrase.
    Phrase(Vec<PhraseWord>),
}

/// A word of a phrase.
#[derive(Clone, Copy, Debug, PartialEq, Eq)]
pub struct PhraseWord {
    /// The term.
    pub term: u32,
    /// How far behind the start it stands.
    pub offset: u32,
}

/// The questions that the numbers are; else the numbers from the first question that is bad on.
pub fn all_questions(term_count: usize, numbers: &[u32]) -> Result<Vec<Question>, &[u32]> {
    let mut rest = numbers;
    let mut questions = Vec::new();
    while !rest.is_empty() {
        let (question, after) = next_question(term_count, rest).ok_or(rest)?;
        questions.push(question);
        rest = after;
    }
    Ok(questions)
}

/// The first question and the numbers behind it, if it is of good form.
fn next_question(term_count: usize, numbers: &[u32]) -> Option<(Question, &[u32])> {
    let kind = *numbers.first()?;
    let count = *numbers.get(1)? as usize;
    let given = numbers.get(2..count.checked_add(2)?)?;
    let question = match (kind, given) {
        (1, [term, rank]) => Question::AtRank(*term, *rank),
        (2, [term, bound]) => Question::AtBound(*term, *bound),
        (3, terms) => Question::Common(terms.to_vec()),
        (4, pairs) => Question::Phrase(phrase_words(pairs)?),
        _ => return None,
    };
    let terms = question.terms();
    let good_terms = terms.iter().all(|term| (*term as usize) < term_count);
    let good_number = (1..=GREATEST_WORDS).contains(&terms.len());
    (good_terms && good_number).then_some((question, &numbers[count + 2..]))
}

/// The words of a phrase, if the numbers are pairs whose offsets are good.
fn phrase_words(pairs: &[u32]) -> Option<Vec<PhraseWord>> {
    let words: Option<Vec<PhraseWord>> = pairs.chunks(2).map(phrase_word).collect();
    let words = words?;
    let offsets: Vec<u32> = words.iter().map(|word| word.offset).collect();
    let good_ends = offsets.first() == Some(&0) && offsets.last() <= Some(&GREATEST_OFFSET);
    (good_ends && is_rising(&offsets)).then_some(words)
}

fn phrase_word(pair: &[u32]) -> Option<PhraseWord> {
    match *pair {
        [term, offset] => Some(PhraseWord { term, offset }),
        _ => None,
    }
}

impl Question {
    /// The terms that the question names, in its order.
    pub fn terms(&self) -> Vec<u32> {
        match self {
            Question::AtRank(term, _) | Question::AtBound(term, _) => vec![*term],
            Question::Common(terms) => terms.clone(),
            Question::Phrase(words) => words.iter().map(|word| word.term).collect(),
        }
    }
}

#[cfg(test)]
mod tests {
    use super::*;

    fn is_good(numbers: &[u32]) -> bool {
        all_questions(2, numbers).is_ok()
    }

    fn phrase(pairs: &[(u32, u32)]) -> Vec<u32> {
        let mut numbers = vec![4, 2 * pairs.len() as u32];
        pairs
            .iter()
            .for_each(|(term, offset)| numbers.extend([term, offset]));
        numbers
    }

    #[test]
    fn a_phrase_is_one_to_eight_pairs() {
        let pairs: Vec<(u32, u32)> = (0..9).map(|offset| (1, offset)).collect();
        for count in 0..=9 {
            assert_eq!(
                is_good(&phrase(&pairs[..count])),
                (1..=8).contains(&count),
                "{count}"
            );
        }
        for count in (1..=17).step_by(2) {
            let given = &phrase(&pairs)[2..2 + count];
            assert!(!is_good(&[&[4, count as u32], given].concat()), "{count}");
        }
        for count in [16, u32::MAX - 1, u32::MAX] {
            assert!(!is_good(&[4, count, 0, 0]));
        }
    }

    #[test]
    fn offsets_rise_from_0_to_at_most_255() {
        assert!(is_good(&phrase(&[(0, 0), (1, 255)])));
        assert!(is_good(&phrase(&[(0, 0), (0, 254), (0, 255)])));
        assert!(!is_good(&phrase(&[(0, 0), (1, 256)])));
        assert!(!is_good(&phrase(&[(0, 0), (1, u32::MAX)])));
        assert!(!is_good(&phrase(&[(0, 1)])));
        assert!(!is_good(&phrase(&[(0, 1), (1, 2)])));
        assert!(!is_good(&phrase(&[(0, 0), (1, 0)])));
        assert!(!is_good(&phrase(&[(0, 0), (1, 7), (0, 7)])));
        assert!(!is_good(&phrase(&[(0, 0), (1, 7), (0, 6)])));
        assert!(!is_good(&phrase(&[(0, 0), (2, 1)])));
    }

    #[test]
    fn a_phrase_cut_short_anywhere_is_bad_from_its_kind_on() {
        let whole = phrase(&[(0, 0), (1, 3), (0, 9)]);
        for length in 1..whole.len() {
            let cut = [&[1, 2, 0, 0], &whole[..length]].concat();
            assert_eq!(all_questions(2, &cut), Err(&whole[..length]));
        }
    }
}
