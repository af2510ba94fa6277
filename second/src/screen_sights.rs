//! The edges and limits of a screen that a compared call has shown.

use crate::case::{Case, Outcome};
use crate::gen::full_size::LONG;
use crate::plain::edition::Form;
use crate::plain::list::{List, Shape, ZEROS_PER_POINTER};
use crate::plain::screen::{Screened, Wanted};
use crate::plain::{refusal, GREATEST_BOUND, GREATEST_SCREEN, GREATEST_WORDS};
use crate::screen_case::{ScreenAfter, ScreenCase};
use crate::screen_faults::{of_bad_card, of_bad_question, of_short_rooms, Fault};
use crate::sights::page_lists;

/// Something about screens that a whole run must have seen.
#[derive(Clone, Copy, Debug, PartialEq, Eq)]
pub enum ScreenSight {
    /// A full screen with common pages behind it.
    Full,
    /// A full screen with no common page behind it.
    JustFull,
    /// A screen with fewer pages than were asked for.
    Fewer,
    /// An empty screen right behind the last common page.
    EmptyBehind,
    /// An empty screen from 0 on.
    EmptyFromZero,
    /// A screen whose first page is its bound, which is not 0.
    BoundOnPage,
    /// A screen with common pages on both sides of its bound, which is none.
    BoundBetween,
    /// The bound U was asked for of words with pages.
    BoundAtU,
    /// The bound U + 1 was asked for of words with pages.
    BoundAboveU,
    /// The largest number was asked for as a bound of words with pages.
    LargestBound,
    /// A full screen whose last page is the card's.
    LastPage,
    /// The same with N at its limit.
    LargestNext,
    /// A full screen of one page.
    OfOne,
    /// A full screen of as many pages as it can have.
    OfMost,
    /// A screen with pages that eight words hold.
    OfEight,
    /// A screen with pages that names a word twice.
    WordTwice,
    /// A screen that names a word on no page.
    WordNowhere,
    /// A screen with pages that names the last word of several.
    LastWord,
    /// A screen with pages whose first seek begins at a pointer.
    FirstSeekByPointer,
    /// A screen whose first seek begins at the run's end.
    FirstSeekAtEnd,
    /// A screen that just fits, with fewer pages than were asked for.
    ExactRoom,
    /// An empty screen without room for pages.
    NoRoomNeeded,
    /// A screen with pages in more room than it can fill.
    LongerPages,
    /// A screen with more room for counts than they take.
    LongerCounts,
    /// A screen with as many seeks as it can have.
    MostSeeks,
    /// A screen over a list of full size.
    Long,
    /// A screen was refused for this fault.
    Refused(Fault),
}

impl ScreenSight {
    /// Every sight, in the order of the report.
    pub const ALL: [ScreenSight; 40] = [
        ScreenSight::Full,
        ScreenSight::JustFull,
        ScreenSight::Fewer,
        ScreenSight::EmptyBehind,
        ScreenSight::EmptyFromZero,
        ScreenSight::BoundOnPage,
        ScreenSight::BoundBetween,
        ScreenSight::BoundAtU,
        ScreenSight::BoundAboveU,
        ScreenSight::LargestBound,
        ScreenSight::LastPage,
        ScreenSight::LargestNext,
        ScreenSight::OfOne,
        ScreenSight::OfMost,
        ScreenSight::OfEight,
        ScreenSight::WordTwice,
        ScreenSight::WordNowhere,
        ScreenSight::LastWord,
        ScreenSight::FirstSeekByPointer,
        ScreenSight::FirstSeekAtEnd,
        ScreenSight::ExactRoom,
        ScreenSight::NoRoomNeeded,
        ScreenSight::LongerPages,
        ScreenSight::LongerCounts,
        ScreenSight::MostSeeks,
        ScreenSight::Long,
        ScreenSight::Refused(Fault::NoPages),
        ScreenSight::Refused(Fault::OnePageTooMany),
        ScreenSight::Refused(Fault::LargestMost),
        ScreenSight::Refused(Fault::NoWords),
        ScreenSight::Refused(Fault::NineWords),
        ScreenSight::Refused(Fault::NoSuchWord),
        ScreenSight::Refused(Fault::CardBeforeQuestion),
        ScreenSight::Refused(Fault::CardBeforeRoom),
        ScreenSight::Refused(Fault::QuestionBeforeRoom),
        ScreenSight::Refused(Fault::PagesOneShort),
        ScreenSight::Refused(Fault::PagesWithoutRoom),
        ScreenSight::Refused(Fault::CountsOneShort),
        ScreenSight::Refused(Fault::CountsWithoutRoom),
        ScreenSight::Refused(Fault::BothShort),
    ];

    /// Its place among all.
    pub fn place(self) -> usize {
        let place = ScreenSight::ALL.iter().position(|sight| *sight == self);
        place.expect("every sight is among all")
    }

    /// What is counted, as the report names it.
    pub fn name(self) -> String {
        match self {
            ScreenSight::Full => "full screens with pages behind them".into(),
            ScreenSight::JustFull => "full screens with no page behind them".into(),
            ScreenSight::Fewer => "screens with fewer pages than r".into(),
            ScreenSight::EmptyBehind => "empty screens behind the last page".into(),
            ScreenSight::EmptyFromZero => "empty screens from 0 on".into(),
            ScreenSight::BoundOnPage => "screens whose bound is their first page".into(),
            ScreenSight::BoundBetween => "screens whose bound is between two pages".into(),
            ScreenSight::BoundAtU => "screens from U on".into(),
            ScreenSight::BoundAboveU => "screens from U + 1 on".into(),
            ScreenSight::LargestBound => format!("screens from {} on", u32::MAX),
            ScreenSight::LastPage => "full screens up to the last page".into(),
            ScreenSight::LargestNext => format!("full screens up to the page {GREATEST_BOUND} - 1"),
            ScreenSight::OfOne => "full screens of 1 page".into(),
            ScreenSight::OfMost => format!("full screens of {GREATEST_SCREEN} pages"),
            ScreenSight::OfEight => format!("screens with pages of {GREATEST_WORDS} words"),
            ScreenSight::WordTwice => "screens with pages of a word named twice".into(),
            ScreenSight::WordNowhere => "screens of a word on no page".into(),
            ScreenSight::LastWord => "screens with pages of the last word".into(),
            ScreenSight::FirstSeekByPointer => "screens whose first seek is by a pointer".into(),
            ScreenSight::FirstSeekAtEnd => "screens whose first seek is at the run's end".into(),
            ScreenSight::ExactRoom => "screens below r in an exact room".into(),
            ScreenSight::NoRoomNeeded => "empty screens without room for pages".into(),
            ScreenSight::LongerPages => "screens in more room than r".into(),
            ScreenSight::LongerCounts => "screens in more room for counts".into(),
            ScreenSight::MostSeeks => "screens with as many seeks as there can be".into(),
            ScreenSight::Long => format!("screens of a list of {LONG} or more pages"),
            ScreenSight::Refused(fault) => fault.name().into(),
        }
    }
}

/// What a call for a screen has shown, by what the plain program gives for it.
pub fn screen_sights(case: &Case, plain: &Outcome) -> Vec<ScreenSight> {
    let (Case::Screen(case), Outcome::Screened(after)) = (case, plain) else {
        return Vec::new();
    };
    let faults = match after.screened.refusal {
        0 => return Shown::of(case, after).sights(),
        refusal::QUESTION => of_bad_question(case, page_lists(&case.card).len()),
        refusal::ROOM => {
            let left = from_bound(&case.wanted, &common(&named_lists(case))).len();
            of_short_rooms(case, left.min(case.wanted.most as usize))
        }
        _ => of_bad_card(case),
    };
    faults.into_iter().map(ScreenSight::Refused).collect()
}

/// The pages of a word, and the form that they have on the card.
struct Named {
    list: List,
    form: Form,
}

impl Named {
    /// The shape of its runs, if it has any.
    fn shape(&self) -> Option<Shape> {
        let has_runs = self.form == Form::Runs;
        self.list.shape().filter(|_| has_runs)
    }
}

/// The pages of the words that are named, on an accepted card.
fn named_lists(case: &ScreenCase) -> Vec<Named> {
    let lists = page_lists(&case.card);
    let words = case.wanted.words.iter();
    let blocks = words.map(|word| &lists[*word as usize]);
    let named = blocks.map(|block| Named {
        list: block.list(),
        form: block.form(),
    });
    named.collect()
}

fn shortest(lists: &[Named]) -> &Named {
    let shortest = lists.iter().min_by_key(|named| named.list.elements.len());
    shortest.expect("a screen has a word")
}

/// The pages that all of the lists hold.
fn common(lists: &[Named]) -> Vec<u32> {
    let on_all = |page: &u32| {
        let mut others = lists.iter();
        others.all(|named| named.list.elements.binary_search(page).is_ok())
    };
    let pages = shortest(lists).list.elements.iter().copied();
    pages.filter(on_all).collect()
}

/// The pages that are at or above the bound.
fn from_bound<'a>(wanted: &Wanted, pages: &'a [u32]) -> &'a [u32] {
    &pages[pages.partition_point(|page| *page < wanted.bound)..]
}

/// The zeros that a first seek for this bound passes by a pointer.
fn zeros_passed(named: &Named, bound: u32) -> usize {
    match named.shape() {
        Some(shape) if bound < named.list.bound => {
            let zeros = (bound >> shape.width) as usize;
            zeros - zeros % ZEROS_PER_POINTER
        }
        _ => 0,
    }
}

/// All zeros of the upper run, if a zero is its last bit.
fn zeros_below_end(named: &Named) -> usize {
    let end = named.list.end() as usize;
    let of_shape = |shape: &Shape| end <= shape.zeros << shape.width;
    let shape = named.shape().filter(of_shape);
    shape.map_or(0, |shape| shape.zeros)
}

/// A screen that was shown, with the lists that it is of and their common pages.
struct Shown<'a> {
    case: &'a ScreenCase,
    screened: Screened,
    seeks: u32,
    lists: Vec<Named>,
    common: Vec<u32>,
    term_count: usize,
}

impl<'a> Shown<'a> {
    fn of(case: &'a ScreenCase, after: &ScreenAfter) -> Shown<'a> {
        let lists = named_lists(case);
        let common = common(&lists);
        Shown {
            case,
            screened: after.screened,
            seeks: after.counts.room[0],
            lists,
            common,
            term_count: page_lists(&case.card).len(),
        }
    }

    fn sights(&self) -> Vec<ScreenSight> {
        let groups = [
            self.of_pages(),
            self.of_bound(),
            self.of_words(),
            self.of_seeks(),
            self.of_rooms(),
        ];
        let holding = groups.iter().flatten().filter(|(holds, _)| *holds);
        holding.map(|(_, sight)| *sight).collect()
    }

    /// The first page shown, if there is one.
    fn first(&self) -> Option<u32> {
        let pages = from_bound(&self.case.wanted, &self.common);
        pages.first().copied()
    }

    fn of_pages(&self) -> Vec<(bool, ScreenSight)> {
        let Screened {
            found, full, next, ..
        } = self.screened;
        let left = from_bound(&self.case.wanted, &self.common).len() - found;
        let most = self.case.wanted.most;
        let full = full == 1;
        let last = full && next == self.lists[0].list.bound;
        vec![
            (full && left > 0, ScreenSight::Full),
            (full && left == 0, ScreenSight::JustFull),
            (found > 0 && !full, ScreenSight::Fewer),
            (full && most == 1, ScreenSight::OfOne),
            (full && most == GREATEST_SCREEN, ScreenSight::OfMost),
            (last, ScreenSight::LastPage),
            (last && next == GREATEST_BOUND, ScreenSight::LargestNext),
        ]
    }

    fn of_bound(&self) -> Vec<(bool, ScreenSight)> {
        let bound = self.case.wanted.bound;
        let (first, last) = (self.first(), self.common.last());
        let pages_below = self.common.first().is_some_and(|page| *page < bound);
        let between = pages_below && first.is_some_and(|page| page > bound);
        let behind = bound > 0 && last == Some(&(bound - 1));
        let has_pages = !shortest(&self.lists).list.elements.is_empty();
        let limit = self.lists[0].list.bound;
        vec![
            (behind, ScreenSight::EmptyBehind),
            (bound == 0 && first.is_none(), ScreenSight::EmptyFromZero),
            (bound > 0 && first == Some(bound), ScreenSight::BoundOnPage),
            (between, ScreenSight::BoundBetween),
            (has_pages && bound == limit, ScreenSight::BoundAtU),
            (has_pages && bound == limit + 1, ScreenSight::BoundAboveU),
            (has_pages && bound == u32::MAX, ScreenSight::LargestBound),
        ]
    }

    fn of_words(&self) -> Vec<(bool, ScreenSight)> {
        let mut words = self.case.wanted.words.clone();
        let eight = words.len() == GREATEST_WORDS;
        words.sort_unstable();
        let twice = words.windows(2).any(|pair| pair[0] == pair[1]);
        let last = words.last().map(|word| *word as usize + 1) == Some(self.term_count);
        let several = self.term_count > 1;
        let shown = self.screened.found > 0;
        let nowhere = shortest(&self.lists).list.elements.is_empty();
        let long = |named: &Named| named.list.elements.len() >= LONG as usize;
        vec![
            (shown && eight, ScreenSight::OfEight),
            (shown && twice, ScreenSight::WordTwice),
            (nowhere, ScreenSight::WordNowhere),
            (shown && last && several, ScreenSight::LastWord),
            (self.lists.iter().any(long), ScreenSight::Long),
        ]
    }

    fn of_seeks(&self) -> Vec<(bool, ScreenSight)> {
        let lead = shortest(&self.lists);
        let zeros = zeros_passed(lead, self.case.wanted.bound);
        let by_pointer = zeros > 0;
        let at_end = by_pointer && zeros == zeros_below_end(lead);
        let shown = self.screened.found > 0;
        let most_seeks = self.lists.len() * lead.list.elements.len() + 1;
        let as_many = self.seeks as usize == most_seeks;
        vec![
            (shown && by_pointer, ScreenSight::FirstSeekByPointer),
            (at_end, ScreenSight::FirstSeekAtEnd),
            (shown && as_many, ScreenSight::MostSeeks),
        ]
    }

    fn of_rooms(&self) -> Vec<(bool, ScreenSight)> {
        let Screened { found, .. } = self.screened;
        let most = self.case.wanted.most as usize;
        let (pages, counts) = (self.case.pages.len(), self.case.counts.len());
        vec![
            (
                found > 0 && found < most && pages == found,
                ScreenSight::ExactRoom,
            ),
            (pages == 0, ScreenSight::NoRoomNeeded),
            (found > 0 && pages > most, ScreenSight::LongerPages),
            (counts > 2, ScreenSight::LongerCounts),
        ]
    }
}

#[cfg(test)]
mod tests {
    use super::*;
    use crate::compare::Decided;
    use crate::gen::screens;
    use crate::stored;
    use crate::text::Stored;

    fn unseen(calls: impl Iterator<Item = Decided>) -> Vec<ScreenSight> {
        let mut seen = [0; ScreenSight::ALL.len()];
        for Decided { stored, plain } in calls {
            for sight in screen_sights(&stored.case, &plain) {
                seen[sight.place()] += 1;
            }
        }
        let all = ScreenSight::ALL.into_iter();
        all.filter(|sight| seen[sight.place()] == 0).collect()
    }

    #[test]
    fn the_stored_calls_show_every_sight_but_a_long_list() {
        let edges = stored::edges().expect("the edges can be read");
        let is_screen = |stored: &Stored| matches!(stored.case, Case::Screen(_));
        let edges = edges.into_iter().map(|(_, stored)| stored);
        let calls = edges.filter(is_screen).map(Decided::now);
        assert_eq!(unseen(calls), [ScreenSight::Long]);
    }

    #[test]
    fn the_seeded_calls_show_every_sight_but_a_long_list() {
        let calls = (0..400).flat_map(|number| screens::set(4, number));
        assert_eq!(unseen(calls), [ScreenSight::Long]);
    }
}
