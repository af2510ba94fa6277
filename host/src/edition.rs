//! The editions of a card by name.

/// The edition of a card, told by the version in its header.
///
/// The same words give the same answers in each edition; the bytes of a card, and the looks that an answer takes, may
/// be others.
#[derive(Clone, Copy, Debug, PartialEq, Eq, Hash)]
pub enum Edition {
    /// All lists are runs.
    One = 1,
    /// The pages of a dense word are a bitmap, and all other lists are runs.
    Two = 2,
}

impl Edition {
    /// Every edition, by rising version.
    pub const ALL: [Edition; 2] = [Edition::One, Edition::Two];

    /// The edition with the highest version.
    pub const LATEST: Edition = Edition::Two;

    /// The version that a card of this edition has, and that the calls are told.
    ///
    /// ```
    /// assert_eq!(jundefola::Edition::Two.version(), 2);
    /// ```
    pub fn version(self) -> u32 {
        self as u32
    }

    /// The edition with a version; none for a version that is not known.
    ///
    /// ```
    /// use jundefola::Edition;
    /// assert_eq!(Edition::from_version(1), Some(Edition::One));
    /// assert_eq!(Edition::from_version(0), None);
    /// ```
    pub fn from_version(version: u32) -> Option<Edition> {
        Edition::ALL
            .into_iter()
            .find(|edition| edition.version() == version)
    }
}

/// The version, as the calls take it.
impl From<Edition> for u32 {
    fn from(edition: Edition) -> u32 {
        edition.version()
    }
}

#[cfg(test)]
mod tests {
    use super::*;

    #[test]
    fn versions_are_1_and_2_and_lead_back() {
        let versions = Edition::ALL.map(Edition::version);
        assert_eq!(versions, [1, 2]);
        assert_eq!(versions.map(Edition::from_version), Edition::ALL.map(Some));
        assert_eq!(Edition::LATEST.version(), 2);
        for unknown in [0, 3, u32::MAX] {
            assert_eq!(Edition::from_version(unknown), None);
        }
    }
}
