//! Libraries with one slip in the call for a screen, each of which the comparison has to find.

use crate::case::Case;
use crate::compare::Side;
use crate::gen::screens;
use crate::host_calls::Plain;
use crate::plain::refusal;
use crate::plain::screen::{Screened, Wanted};
use crate::plain::{GREATEST_SCREEN, GREATEST_WORDS};
use crate::screen_calls::ScreenCalls;
use crate::slips;
use crate::text::Stored;

/// A library with one slip in it, over the plain program.
#[derive(Clone, Copy, Debug, PartialEq, Eq)]
enum Slip {
    None,
    SeeksAfterTheLastPage,
    CountsFromZero,
    ShowsFromZero,
    ShowsBehindTheBound,
    GoesOnFromTheLastPage,
    IsFullWithFewer,
    IsNotFullAtTheEnd,
    TakesNoPages,
    TakesOnePageMore,
    TakesNineWords,
    LaysPagesBeforeTheRoom,
    LaysCountsBeforeTheRoom,
    NeedsRoomForAll,
    NeedsNoRoomForCounts,
    LooksAtRoomBeforeTheQuestion,
    LooksAtTheQuestionBeforeTheCard,
    ClearsBehindThePages,
    ClearsBehindTheCounts,
    TellsPagesOnARefusal,
}

const SLIPS: [Slip; 19] = [
    Slip::SeeksAfterTheLastPage,
    Slip::CountsFromZero,
    Slip::ShowsFromZero,
    Slip::ShowsBehindTheBound,
    Slip::GoesOnFromTheLastPage,
    Slip::IsFullWithFewer,
    Slip::IsNotFullAtTheEnd,
    Slip::TakesNoPages,
    Slip::TakesOnePageMore,
    Slip::TakesNineWords,
    Slip::LaysPagesBeforeTheRoom,
    Slip::LaysCountsBeforeTheRoom,
    Slip::NeedsRoomForAll,
    Slip::NeedsNoRoomForCounts,
    Slip::LooksAtRoomBeforeTheQuestion,
    Slip::LooksAtTheQuestionBeforeTheCard,
    Slip::ClearsBehindThePages,
    Slip::ClearsBehindTheCounts,
    Slip::TellsPagesOnARefusal,
];

/// What a screen gives in rooms that are long enough.
fn in_any_room(card: &[u8], wanted: &Wanted) -> (Screened, Vec<u32>, [u32; 2]) {
    let mut pages = vec![0; GREATEST_SCREEN as usize];
    let mut counts = [0; 2];
    let screened = Plain.screen(card, wanted, &mut pages, &mut counts);
    pages.truncate(screened.found);
    (screened, pages, counts)
}

impl Slip {
    /// What the slip takes the question for.
    fn taken_for(self, wanted: &Wanted) -> Wanted {
        let mut taken = wanted.clone();
        match self {
            Slip::ShowsFromZero => taken.bound = 0,
            Slip::ShowsBehindTheBound => taken.bound = wanted.bound.saturating_add(1),
            Slip::TakesNoPages => taken.most = wanted.most.max(1),
            Slip::TakesOnePageMore if wanted.most == GREATEST_SCREEN + 1 => {
                taken.most = GREATEST_SCREEN;
            }
            Slip::TakesNineWords => taken.words.truncate(GREATEST_WORDS),
            _ => {}
        }
        taken
    }

    /// What the slip writes in spite of a room that is too short.
    fn lay_too_early(self, whole: &[u32], counts: [u32; 2], rooms: [&mut [u32]; 2]) {
        let [pages_room, counts_room] = rooms;
        let fitting = whole.len().min(pages_room.len());
        match self {
            Slip::LaysPagesBeforeTheRoom => {
                pages_room[..fitting].copy_from_slice(&whole[..fitting])
            }
            Slip::LaysCountsBeforeTheRoom if counts_room.len() >= 2 => {
                counts_room[..2].copy_from_slice(&counts);
            }
            _ => {}
        }
    }

    /// What the slip gives back where the plain program refuses.
    fn refusing(self, given: Screened, wanted: &Wanted, sizes: [usize; 2]) -> Screened {
        let bad_most = !(1..=GREATEST_SCREEN).contains(&wanted.most);
        let [pages, counts] = sizes;
        match (self, given.refusal) {
            (Slip::TellsPagesOnARefusal, refusal::ROOM) => Screened {
                found: pages + 1,
                ..given
            },
            (Slip::NeedsNoRoomForCounts, refusal::ROOM) if counts < 2 => Screened::refused(0),
            (Slip::LooksAtRoomBeforeTheQuestion, refusal::QUESTION) if counts < 2 => {
                Screened::refused(refusal::ROOM)
            }
            (Slip::LooksAtTheQuestionBeforeTheCard, 1..refusal::QUESTION) if bad_most => {
                Screened::refused(refusal::QUESTION)
            }
            _ => given,
        }
    }

    /// What the slip gives back where the plain program shows these pages.
    fn showing(self, given: Screened, pages: &[u32], card: &[u8], wanted: &Wanted) -> Screened {
        let next = pages.last().map_or(0, |last| last + 1);
        let rest = Wanted {
            bound: next,
            ..wanted.clone()
        };
        let (full, next) = match self {
            Slip::GoesOnFromTheLastPage if given.full == 1 => (1, next - 1),
            Slip::IsFullWithFewer if given.found > 0 => (1, next),
            Slip::IsNotFullAtTheEnd if in_any_room(card, &rest).0.found == 0 => (0, 0),
            _ => (given.full, given.next),
        };
        Screened {
            full,
            next,
            ..given
        }
    }

    /// What the slip leaves in the rooms of a screen that was shown.
    fn change_rooms(self, given: Screened, from_zero: [u32; 2], rooms: [&mut [u32]; 2]) {
        let [pages, counts] = rooms;
        match self {
            Slip::SeeksAfterTheLastPage if given.full == 1 => counts[0] += 1,
            Slip::CountsFromZero => counts[..2].copy_from_slice(&from_zero),
            Slip::ClearsBehindThePages => pages[given.found..].fill(0),
            Slip::ClearsBehindTheCounts => counts[2..].fill(0),
            _ => {}
        }
    }
}

impl ScreenCalls for Slip {
    fn screen(
        &self,
        card: &[u8],
        wanted: &Wanted,
        pages: &mut [u32],
        counts: &mut [u32],
    ) -> Screened {
        let taken = self.taken_for(wanted);
        let (shown, whole, told) = in_any_room(card, &taken);
        let short_of_all = shown.refusal == 0 && pages.len() < taken.most as usize;
        if *self == Slip::NeedsRoomForAll && short_of_all {
            return Screened::refused(refusal::ROOM);
        }
        let given = Plain.screen(card, &taken, pages, counts);
        if given.refusal != 0 {
            let sizes = [pages.len(), counts.len()];
            if given.refusal == refusal::ROOM {
                self.lay_too_early(&whole, told, [pages, counts]);
            }
            return self.refusing(given, wanted, sizes);
        }
        let from_zero = Wanted {
            bound: 0,
            ..taken.clone()
        };
        let (_, _, counts_from_zero) = in_any_room(card, &from_zero);
        self.change_rooms(given, counts_from_zero, [pages, counts]);
        self.showing(given, &whole, card, &taken)
    }
}

/// The number of differences that a slip makes on some cases.
fn differences(slip: Slip, cases: &[Stored]) -> usize {
    let side = Side {
        calls: &Plain,
        streams: &Plain,
        screens: &slip,
    };
    slips::differences(side, cases)
}

fn stored_calls() -> Vec<Stored> {
    slips::stored_calls(|case| matches!(case, Case::Screen(_)))
}

fn seeded_calls() -> Vec<Stored> {
    let sets = (0..80).flat_map(|number| screens::set(3, number));
    sets.map(|call| call.stored).collect()
}

#[test]
fn every_slip_alone_is_found_by_stored_and_by_seeded_calls() {
    let sets = [stored_calls(), seeded_calls()];
    slips::are_found(Slip::None, &SLIPS, &sets, differences);
}
