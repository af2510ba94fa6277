//! Why a question of kind 4 was refused, where one fault alone decides it.

use crate::plain::form::all_questions;
use crate::plain::{GREATEST_OFFSET, GREATEST_WORDS};

/// What is wrong with a phrase.
#[derive(Clone, Copy, Debug, PartialEq, Eq)]
pub enum Fault {
    /// c is 0.
    NoPair,
    /// c is odd.
    OddCount,
    /// It is cut short behind its c.
    CutShort,
    /// It has nine pairs and is good but for their number.
    NinePairs,
    /// The first offset alone is wrong.
    FirstOffset,
    /// Two equal offsets are all that is wrong.
    EqualOffsets,
    /// An offset below the one before it is all that is wrong.
    FallingOffset,
    /// The last offset alone is wrong, one over its limit.
    OverLimit,
}

impl Fault {
    /// The fault as the report names it.
    pub fn name(self) -> String {
        match self {
            Fault::NoPair => "c = 0".into(),
            Fault::OddCount => "an odd c".into(),
            Fault::CutShort => "a cut behind c".into(),
            Fault::NinePairs => "a ninth pair alone".into(),
            Fault::FirstOffset => "the first offset alone".into(),
            Fault::EqualOffsets => "equal offsets alone".into(),
            Fault::FallingOffset => "a falling offset alone".into(),
            Fault::OverLimit => format!("the offset {} alone", GREATEST_OFFSET + 1),
        }
    }
}

/// The fault of the first bad question, if it is of kind 4 and good but for that fault.
pub fn phrase_fault(term_count: usize, questions: &[u32]) -> Option<Fault> {
    let bad = all_questions(term_count, questions).err()?;
    let [4, count, behind @ ..] = bad else {
        return None;
    };
    let count = *count as usize;
    match behind.get(..count) {
        _ if count == 0 => Some(Fault::NoPair),
        None => (count <= 2 * GREATEST_WORDS).then_some(Fault::CutShort),
        Some(_) if !count.is_multiple_of(2) => Some(Fault::OddCount),
        Some(given) => {
            let pairs = given.chunks(2).map(|pair| (pair[0], pair[1]));
            let (terms, offsets): (Vec<u32>, Vec<u32>) = pairs.unzip();
            let known = terms.iter().all(|term| (*term as usize) < term_count);
            known.then(|| offset_fault(&offsets)).flatten()
        }
    }
}

/// The one thing that is wrong with a phrase's offsets or their number.
fn offset_fault(offsets: &[u32]) -> Option<Fault> {
    let begins = offsets[0] == 0;
    let equal = offsets.windows(2).any(|pair| pair[0] == pair[1]);
    let falls = offsets.windows(2).any(|pair| pair[0] > pair[1]);
    let greatest = *offsets.iter().max()?;
    let within = greatest <= GREATEST_OFFSET;
    match (begins, equal, falls, within) {
        (true, false, false, true) => {
            (offsets.len() == GREATEST_WORDS + 1).then_some(Fault::NinePairs)
        }
        _ if offsets.len() > GREATEST_WORDS => None,
        (false, false, false, true) => Some(Fault::FirstOffset),
        (true, true, false, true) => Some(Fault::EqualOffsets),
        (true, false, true, true) => Some(Fault::FallingOffset),
        (true, false, false, false) => {
            (greatest == GREATEST_OFFSET + 1).then_some(Fault::OverLimit)
        }
        _ => None,
    }
}

#[cfg(test)]
mod tests {
    use super::*;

    /// The fault of a phrase over two terms, behind a good question.
    fn fault(numbers: &[u32]) -> Option<Fault> {
        phrase_fault(2, &[&[1, 2, 0, 0, 4], numbers].concat())
    }

    #[test]
    fn the_count_is_at_fault() {
        assert_eq!(fault(&[2, 0, 0]), None);
        assert_eq!(fault(&[]), None);
        assert_eq!(fault(&[0]), Some(Fault::NoPair));
        assert_eq!(fault(&[3, 0, 0, 1]), Some(Fault::OddCount));
        assert_eq!(fault(&[2]), Some(Fault::CutShort));
        assert_eq!(fault(&[4, 0, 0, 1]), Some(Fault::CutShort));
        assert_eq!(fault(&[u32::MAX, 0, 0]), None);
        let pairs: Vec<u32> = (0..10).flat_map(|offset| [1, offset]).collect();
        let of_pairs = |count: usize| fault(&[&[2 * count as u32], &pairs[..2 * count]].concat());
        assert_eq!(of_pairs(8), None);
        assert_eq!(of_pairs(9), Some(Fault::NinePairs));
        assert_eq!(of_pairs(10), None);
    }

    #[test]
    fn the_offsets_are_at_fault() {
        let of_offsets = |offsets: &[u32]| {
            let pairs: Vec<u32> = offsets.iter().flat_map(|offset| [0, *offset]).collect();
            fault(&[&[pairs.len() as u32], &pairs[..]].concat())
        };
        assert_eq!(of_offsets(&[0, 7, 255]), None);
        assert_eq!(of_offsets(&[1]), Some(Fault::FirstOffset));
        assert_eq!(of_offsets(&[1, 2]), Some(Fault::FirstOffset));
        assert_eq!(of_offsets(&[0, 7, 7]), Some(Fault::EqualOffsets));
        assert_eq!(of_offsets(&[0, 7, 6]), Some(Fault::FallingOffset));
        assert_eq!(of_offsets(&[0, 256]), Some(Fault::OverLimit));
        assert_eq!(of_offsets(&[0, 257]), None);
        assert_eq!(of_offsets(&[1, 256]), None);
        assert_eq!(of_offsets(&[0, 300, 300]), None);
        assert_eq!(of_offsets(&[0, 7, 7, 6]), None);
    }

    #[test]
    fn a_term_at_fault_is_no_fault_of_the_phrase_alone() {
        assert_eq!(fault(&[2, 2, 0]), None);
        assert_eq!(fault(&[4, 0, 0, 2, 0]), None);
    }
}
