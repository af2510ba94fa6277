//! The editions of an index, and the form that each gives a list.

use super::list::Shape;
use super::refusal;

/// How a block holds a list.
#[derive(Clone, Copy, Debug, PartialEq, Eq)]
pub enum Form {
    /// Pointers, lower run and upper run.
    Runs,
    /// Numbers, and one bit for each number below U.
    Bitmap,
}

impl Form {
    /// Both forms.
    pub const ALL: [Form; 2] = [Form::Runs, Form::Bitmap];

    /// The version in a list block of this form.
    pub fn version(self) -> u8 {
        match self {
            Form::Runs => 1,
            Form::Bitmap => 2,
        }
    }

    /// The form of a list block with this version, among those that are known there.
    pub fn of_version(version: u8, known: &[Form]) -> Result<Form, u32> {
        let form = known.iter().find(|form| form.version() == version);
        form.copied().ok_or(refusal::VERSION)
    }

    /// The form that this one is not.
    pub fn other(self) -> Form {
        match self {
            Form::Runs => Form::Bitmap,
            Form::Bitmap => Form::Runs,
        }
    }
}

/// What a list inside a term holds.
#[derive(Clone, Copy, Debug, PartialEq, Eq)]
pub enum Place {
    /// The pages.
    Pages,
    /// The counts.
    Counts,
    /// The positions.
    Positions,
}

impl Place {
    /// The three lists of a term in their order.
    pub const ALL: [Place; 3] = [Place::Pages, Place::Counts, Place::Positions];
}

/// A version of an index.
#[derive(Clone, Copy, Debug, PartialEq, Eq)]
pub enum Edition {
    /// Every list is in runs.
    First,
    /// Dense pages are bitmaps.
    Second,
}

impl Edition {
    /// Every edition.
    pub const ALL: [Edition; 2] = [Edition::First, Edition::Second];

    /// The number that the host tells, and that a card has.
    pub fn version(self) -> u32 {
        match self {
            Edition::First => 1,
            Edition::Second => 2,
        }
    }

    /// The edition of this version, or refusal 3.
    pub fn of_version(version: u32) -> Result<Edition, u32> {
        let mut all = Edition::ALL.into_iter();
        all.find(|edition| edition.version() == version)
            .ok_or(refusal::VERSION)
    }

    /// The form of a list in this place of a term, by its U and its n.
    pub fn form(self, place: Place, bound: u32, count: usize) -> Form {
        let takes_bitmaps = self == Edition::Second && place == Place::Pages;
        match takes_bitmaps && is_dense(bound, count) {
            true => Form::Bitmap,
            false => Form::Runs,
        }
    }
}

/// Whether the runs of a list with n from 1 to U take more bits than there are numbers below U.
pub fn is_dense(bound: u32, count: usize) -> bool {
    count > 0 && {
        let Shape { width, zeros } = Shape::of(bound, count);
        count + zeros + count * width as usize > bound as usize
    }
}

#[cfg(test)]
mod tests {
    use super::*;
    use crate::plain::GREATEST_BOUND;

    #[test]
    fn equality_is_not_dense() {
        for (bound, count) in [(8, 2), (7, 2), (3, 1), (4, 1), (256, 64), (16, 4)] {
            assert!(!is_dense(bound, count), "{bound} {count}");
            assert!(is_dense(bound, count + 1), "{bound} {count}");
        }
        assert!(is_dense(1, 1));
        assert!(is_dense(2, 1));
        assert!(!is_dense(1, 0));
    }

    /// A list is dense exactly if twice its elements are more than half of U, rounded up.
    fn dense_in_short(bound: u32, count: usize) -> bool {
        2 * count > bound.div_ceil(2) as usize
    }

    #[test]
    fn density_is_said_in_short_by_a_quarter_of_the_bound() {
        let small = 1..700;
        let large = [65_535, 65_536, GREATEST_BOUND - 1, GREATEST_BOUND];
        for bound in small {
            for count in 0..=bound as usize {
                assert_eq!(is_dense(bound, count), dense_in_short(bound, count));
            }
        }
        for bound in large {
            for count in bound as usize / 4 - 2..bound as usize / 4 + 3 {
                assert_eq!(is_dense(bound, count), dense_in_short(bound, count));
            }
        }
    }

    #[test]
    fn only_pages_of_the_second_edition_are_bitmaps() {
        assert_eq!(Edition::Second.form(Place::Pages, 8, 3), Form::Bitmap);
        assert_eq!(Edition::Second.form(Place::Pages, 8, 2), Form::Runs);
        assert_eq!(Edition::Second.form(Place::Pages, 8, 0), Form::Runs);
        assert_eq!(Edition::Second.form(Place::Counts, 8, 3), Form::Runs);
        assert_eq!(Edition::Second.form(Place::Positions, 8, 3), Form::Runs);
        assert_eq!(Edition::First.form(Place::Pages, 8, 3), Form::Runs);
    }
}
