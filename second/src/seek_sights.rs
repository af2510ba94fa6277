//! What the seeks on bitmaps of a question or a screen have shown.

use crate::plain::edition::Form;
use crate::plain::list::List;
use crate::plain::meeting::{meet_watched, Step};
use crate::plain::seek::{Cursor, Formed};

/// The most pages of a list whose seeks are watched.
pub const MOST_WATCHED: u32 = 1 << 13;

/// Something that a seek on a bitmap has done.
#[derive(Clone, Copy, Debug, PartialEq, Eq)]
pub enum SeekSight {
    /// It stayed where its cursor was.
    Stays,
    /// It found its own bound.
    AtOnce,
    /// It found a page further on in the bound's word.
    SameWord,
    /// It passed words before it found a page.
    PassesWords,
    /// It found none up to the last word.
    NoneToTheLast,
    /// It found none in the last word, where it began.
    NoneInTheLast,
    /// It was for U, or a bound above.
    NoneAtU,
    /// Its bound was in a word behind that of its cursor.
    LeavesItsWord,
}

impl SeekSight {
    /// Every sight, with what is counted as the report names it.
    pub const NAMED: [(SeekSight, &'static str); 8] = [
        (SeekSight::Stays, "seeks on a bitmap that stay"),
        (SeekSight::AtOnce, "seeks on a bitmap that find their bound"),
        (
            SeekSight::SameWord,
            "seeks on a bitmap that find in their bound's word",
        ),
        (SeekSight::PassesWords, "seeks on a bitmap that pass words"),
        (
            SeekSight::NoneToTheLast,
            "seeks on a bitmap that find none up to the last word",
        ),
        (
            SeekSight::NoneInTheLast,
            "seeks on a bitmap that find none in the last word",
        ),
        (SeekSight::NoneAtU, "seeks on a bitmap from U on"),
        (
            SeekSight::LeavesItsWord,
            "seeks on a bitmap for a bound in a later word",
        ),
    ];
}

/// What one seek has shown.
fn of_step(step: &Step) -> Vec<SeekSight> {
    let bound = step.bound as usize;
    let walks = step.looks > 0;
    let own_word = match step.before {
        Cursor::On(number) => Some(step.on.bit_of(number) / 64),
        _ => None,
    };
    let stays = !walks && step.found.is_some();
    let sights = [
        (stays, SeekSight::Stays),
        (walks && step.found == Some(step.bound), SeekSight::AtOnce),
        (
            walks && step.looks == 1 && step.found > Some(step.bound),
            SeekSight::SameWord,
        ),
        (
            step.looks > 1 && step.found.is_some(),
            SeekSight::PassesWords,
        ),
        (
            step.looks > 1 && step.found.is_none(),
            SeekSight::NoneToTheLast,
        ),
        (
            step.looks == 1 && step.found.is_none(),
            SeekSight::NoneInTheLast,
        ),
        (bound >= step.on.bits(), SeekSight::NoneAtU),
        (
            walks && own_word.is_some_and(|word| word < bound / 64),
            SeekSight::LeavesItsWord,
        ),
    ];
    let holding = sights.into_iter().filter(|(holds, _)| *holds);
    holding.map(|(_, sight)| sight).collect()
}

/// What the seeks on bitmaps show while so many common pages from a bound on are listed.
pub fn seek_sights(lists: &[(List, Form)], from: u32, most: usize) -> Vec<SeekSight> {
    let mut sights: Vec<SeekSight> = Vec::new();
    let formed = lists.iter().map(|(list, form)| Formed::of(list, *form));
    meet_watched(formed.collect(), from, most, &mut |step| {
        if step.on.form == Form::Bitmap {
            for sight in of_step(&step) {
                if !sights.contains(&sight) {
                    sights.push(sight);
                }
            }
        }
    });
    sights
}

#[cfg(test)]
mod tests {
    use super::*;

    fn shown(pages: &[u32], from: u32, most: usize) -> Vec<SeekSight> {
        let list = List {
            bound: 257,
            elements: pages.to_vec(),
        };
        let mut sights = seek_sights(&[(list, Form::Bitmap)], from, most);
        sights.sort_by_key(|sight| *sight as usize);
        sights
    }

    #[test]
    fn a_seek_shows_how_far_it_goes() {
        let all: Vec<u32> = (0..257).collect();
        assert_eq!(shown(&all, 5, 1), [SeekSight::AtOnce]);
        assert_eq!(shown(&all[7..], 5, 1), [SeekSight::SameWord]);
        assert_eq!(shown(&all[64..], 5, 1), [SeekSight::PassesWords]);
        assert_eq!(shown(&all[..64], 192, 1), [SeekSight::NoneToTheLast]);
        assert_eq!(shown(&all[..64], 256, 1), [SeekSight::NoneInTheLast]);
        assert_eq!(shown(&all, 257, 1), [SeekSight::NoneAtU]);
        let leaves = [SeekSight::AtOnce, SeekSight::LeavesItsWord];
        assert_eq!(shown(&all[63..], 63, 2), leaves);
    }

    #[test]
    fn runs_show_nothing() {
        let list = List {
            bound: 257,
            elements: (0..257).collect(),
        };
        assert_eq!(seek_sights(&[(list, Form::Runs)], 0, 9), []);
    }
}
