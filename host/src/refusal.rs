//! The refusals by name.

use std::error::Error;
use std::fmt;

/// Why the library refused; the first reason found is the one reported.
#[derive(Clone, Copy, Debug, PartialEq, Eq, Hash)]
pub enum Refusal {
    /// Fewer bytes than the header: list 13, term 44, card 11.
    Short = 1,
    /// The stated length differs from the bytes given, or does not fit its container.
    Length = 2,
    /// The version is not known, or the form of a list is not the one that belongs in its place.
    Version = 3,
    /// U, N or T is over its limit, or a closed card's length does not fit four bytes.
    Limit = 4,
    /// n is above U, the length is not the one that U and n give, or bytes are left after the last part.
    Layout = 5,
    /// Runs or pointers, or a bitmap or its numbers, are not those of a valid list.
    Runs = 6,
    /// The parts of a term or a card disagree.
    Parts = 7,
    /// A bad question, or a bad screen.
    Question = 8,
    /// The room lent is too small.
    Room = 9,
    /// The lists handed to a writer are not valid or not as announced, or its session is over.
    Lists = 10,
}

impl Refusal {
    /// Every refusal, by rising number.
    pub const ALL: [Refusal; 10] = [
        Refusal::Short,
        Refusal::Length,
        Refusal::Version,
        Refusal::Limit,
        Refusal::Layout,
        Refusal::Runs,
        Refusal::Parts,
        Refusal::Question,
        Refusal::Room,
        Refusal::Lists,
    ];

    /// The refusal's number, 1 to 10.
    ///
    /// ```
    /// assert_eq!(jundefola::Refusal::Room.number(), 9);
    /// ```
    pub fn number(self) -> u32 {
        self as u32
    }

    /// The refusal with a number; none for 0, which is no refusal, and for a number that is not in use.
    ///
    /// ```
    /// use jundefola::Refusal;
    /// assert_eq!(Refusal::from_number(6), Some(Refusal::Runs));
    /// assert_eq!(Refusal::from_number(0), None);
    /// ```
    pub fn from_number(number: u32) -> Option<Refusal> {
        Refusal::ALL
            .into_iter()
            .find(|refusal| refusal.number() == number)
    }

    /// What the refusal says, without its number.
    pub fn sentence(self) -> &'static str {
        match self {
            Refusal::Short => "there are fewer bytes than the header has",
            Refusal::Length => "the stated length is not that of the bytes given",
            Refusal::Version => {
                "the version is not known, or a list has a form that does not belong there"
            }
            Refusal::Limit => {
                "a range, the number of pages or the number of words is over its limit"
            }
            Refusal::Layout => "the length is not the one that the header gives",
            Refusal::Runs => {
                "the runs or pointers, or the bitmap or its numbers, are not those of a valid list"
            }
            Refusal::Parts => "the parts disagree",
            Refusal::Question => "the question has a wrong form or names a term that is not there",
            Refusal::Room => "the room lent is too small",
            Refusal::Lists => "the lists handed to the writer are not valid or not as announced",
        }
    }
}

/// Gives number and sentence, as `refused 9: the room lent is too small`.
impl fmt::Display for Refusal {
    fn fmt(&self, f: &mut fmt::Formatter<'_>) -> fmt::Result {
        write!(f, "refused {}: {}", self.number(), self.sentence())
    }
}

impl Error for Refusal {}

#[cfg(test)]
mod tests {
    use super::*;

    #[test]
    fn numbers_are_1_to_10_and_lead_back() {
        let numbers: Vec<u32> = Refusal::ALL
            .iter()
            .map(|refusal| refusal.number())
            .collect();
        assert_eq!(numbers, (1..=10).collect::<Vec<u32>>());
        for refusal in Refusal::ALL {
            assert_eq!(Refusal::from_number(refusal.number()), Some(refusal));
        }
        assert_eq!(Refusal::from_number(11), None);
    }
}
