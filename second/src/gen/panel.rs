//! A panel that shows screens of one card, which is taken apart once, and the calls it has made.

use super::random::Random;
use super::rooms;
use crate::case::{Case, Outcome, RoomAfter};
use crate::compare::Decided;
use crate::plain::meeting::Met;
use crate::plain::screen::{Screened, Wanted};
use crate::plain::seek::Formed;
use crate::plain::term::Term;
use crate::screen_case::{ScreenAfter, ScreenCase};
use crate::text::Stored;

/// The card with its terms, or with its refusal, and the calls.
pub struct Panel<'a> {
    card: &'a [u8],
    terms: Result<&'a [Term], u32>,
    calls: Vec<Decided>,
}

impl<'a> Panel<'a> {
    /// A panel for a card that has been checked.
    pub fn of(card: &'a [u8], terms: Result<&'a [Term], u32>) -> Panel<'a> {
        Panel {
            card,
            terms,
            calls: Vec::new(),
        }
    }

    /// A screen in rooms that it fits in.
    pub fn show(&mut self, random: &mut Random, wanted: Wanted) {
        let found = self.found(&wanted);
        let pages = found + random.pick(&[0, 1, 70]);
        let counts = 2 + random.pick(&[0, 0, 1]);
        self.show_in(random, wanted, pages, counts);
    }

    /// A screen in rooms of any size.
    pub fn show_anywhere(&mut self, random: &mut Random, wanted: Wanted) {
        let pages = rooms::size(random, self.found(&wanted));
        let counts = random.pick(&[0, 1, 2, 2, 2, 2, 2, 2, 3, 9]);
        self.show_in(random, wanted, pages, counts);
    }

    /// A screen in rooms from none at all up to more than it fills.
    pub fn show_in_each_room(&mut self, random: &mut Random, wanted: Wanted) {
        let found = self.found(&wanted);
        let mut sizes = vec![0, found.saturating_sub(1), found, found + 1];
        sizes.dedup();
        for pages in sizes {
            for counts in 0..=3 {
                self.show_in(random, wanted.clone(), pages, counts);
            }
        }
    }

    /// The screens of these words from 0 on until one is not full, which have to give these pages.
    pub fn show_all(&mut self, random: &mut Random, words: &[u32], most: u32, pages: &[u32]) {
        let mut left = pages;
        let mut bound = 0;
        loop {
            let (shown, behind) = left.split_at(left.len().min(most as usize));
            let words = words.to_vec();
            self.show(random, Wanted { bound, most, words });
            self.expect_pages(shown);
            let screened = Screened::showing(shown, most);
            if screened.full == 0 {
                return;
            }
            left = behind;
            bound = screened.next;
        }
    }

    /// Asks for the common pages of these words, and gives them.
    pub fn ask_common(&mut self, words: &[u32]) -> Vec<u32> {
        let questions = [&[3, words.len() as u32], words].concat();
        let lead = self.lists(words).map(|on| on.list.elements.len()).min();
        let case = Case::Ask {
            card: self.card.to_vec(),
            questions,
            room: vec![0; 3 + lead.unwrap_or(0)],
        };
        let decided = Decided::now(Stored::seeded(case));
        let pages = match &decided.plain {
            Outcome::Asked { used, after, .. } => after.room[3..*used].to_vec(),
            _ => Vec::new(),
        };
        self.calls.push(decided);
        pages
    }

    /// The calls it has made.
    pub fn into_calls(self) -> Vec<Decided> {
        self.calls
    }

    fn met(&self, wanted: &Wanted) -> Result<Met, u32> {
        wanted.of_terms(self.terms?)
    }

    fn found(&self, wanted: &Wanted) -> usize {
        self.met(wanted).map_or(0, |met| met.pages.len())
    }

    fn lists<'b>(&'b self, words: &'b [u32]) -> impl Iterator<Item = Formed<'a>> + 'b {
        let terms = self.terms.unwrap_or(&[]);
        words
            .iter()
            .map(|word| terms[*word as usize].formed_pages())
    }

    fn show_in(&mut self, random: &mut Random, wanted: Wanted, pages: usize, counts: usize) {
        let case = ScreenCase {
            card: self.card.to_vec(),
            pages: rooms::numbers(random, pages),
            counts: rooms::numbers(random, counts),
            wanted,
        };
        let (mut pages, mut counts) = (case.pages.clone(), case.counts.clone());
        let met = self.met(&case.wanted);
        let screened = case.wanted.put(met, &mut pages, &mut counts);
        let plain = Outcome::Screened(ScreenAfter {
            screened,
            pages: RoomAfter::kept(pages),
            counts: RoomAfter::kept(counts),
        });
        let stored = Stored::seeded(Case::Screen(case));
        self.calls.push(Decided { stored, plain });
    }

    /// Says of the last call that it has to show these pages, with counts that are within their bounds.
    fn expect_pages(&mut self, shown: &[u32]) {
        let mut last = self.calls.pop().expect("a call was made");
        if let (Case::Screen(case), Outcome::Screened(after)) = (&last.stored.case, &last.plain) {
            let behind = &case.pages[shown.len()..];
            let mut counts = after.counts.clone();
            let most = self.most_counts(&case.wanted.words, counts.room[0]);
            counts.room[0] = counts.room[0].min(most[0]);
            counts.room[1] = counts.room[1].min(most[1]);
            last.stored.gives = Some(Outcome::Screened(ScreenAfter {
                screened: Screened::showing(shown, case.wanted.most),
                pages: RoomAfter::kept([shown, behind].concat()),
                counts,
            }));
        }
        self.calls.push(last);
    }

    /// The most seeks that a screen of these words can take, and the most looks with so many.
    fn most_counts(&self, words: &[u32], seeks: u32) -> [u32; 2] {
        let lead = self.lists(words).map(|on| on.list.elements.len()).min();
        let all_words: usize = self.lists(words).map(|on| on.bits().div_ceil(64)).sum();
        let most_seeks = words.len() * lead.unwrap_or(0) + 1;
        [most_seeks as u32, seeks + all_words as u32]
    }
}
