//! Editions, and the versions that a host tells.

use super::random::Random;
use crate::plain::edition::Edition;

/// Versions that no edition has; some would be known if cut to a byte.
const UNKNOWN: [u32; 6] = [0, 3, 257, 258, 1 << 31, u32::MAX];

/// One of the editions.
pub fn edition(random: &mut Random) -> Edition {
    random.pick(&Edition::ALL)
}

/// A version that no edition has.
pub fn unknown(random: &mut Random) -> u32 {
    random.pick(&UNKNOWN)
}

/// The version of this edition, in some cases another's, or one that no edition has.
pub fn told(random: &mut Random, edition: Edition) -> u32 {
    match random.from_to(0, 19) {
        0 => unknown(random),
        1 | 2 => self::edition(random).version(),
        _ => edition.version(),
    }
}
