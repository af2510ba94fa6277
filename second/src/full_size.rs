//! Calls at full size: a card of some megabytes is built and taken apart
//! once, and then lent to many calls.

use crate::case::{Case, Outcome, RoomAfter};
use crate::compare::Decided;
use crate::gen::cards::Card;
use crate::gen::full_size::{self, LONG};
use crate::gen::panel::Panel;
use crate::gen::random::Random;
use crate::gen::raw::{RawCard, RawList};
use crate::gen::{calls, questions, rooms, screens, streams};
use crate::plain::ask::{reply_over, Reply};
use crate::plain::edition::Form;
use crate::plain::index::check_index;
use crate::plain::list::List;
use crate::plain::term::Term;
use crate::plain::GREATEST_WORDS;
use crate::text::Stored;
use std::cmp::Reverse;

/// The calls that are made with one card.
pub const CALLS: u64 = 48;

/// A card with its pieces, its bytes and the terms read from them.
pub struct FullCard {
    seed: u64,
    number: u64,
    card: Card,
    pieces: RawCard,
    bytes: Vec<u8>,
    terms: Vec<Term>,
}

impl FullCard {
    /// The card of this number for this seed.
    pub fn of(seed: u64, number: u64) -> FullCard {
        FullCard::around(seed, number, LONG)
    }

    fn around(seed: u64, number: u64, long: u32) -> FullCard {
        let mut random = Random::of_case(seed, 3, number);
        let card = full_size::card(&mut random, number, long);
        let pieces = RawCard::of(&card);
        let bytes = pieces.bytes();
        let terms = check_index(&bytes).expect("the generator makes valid cards");
        FullCard {
            seed,
            number,
            card,
            pieces,
            bytes,
            terms,
        }
    }

    /// The call of this number, below `CALLS`, with this card.
    pub fn call(&self, call: u64) -> Decided {
        let mut random = Random::of_case(self.seed, 4, self.number * CALLS + call);
        let random = &mut random;
        let long = random.pick(&self.longest()) as usize;
        let list = self.lists_of(long)[random.place(3)];
        let word = &self.card.words[long];
        let (card, pieces) = (&self.card, &self.pieces);
        let case = match call % 24 {
            3 | 15 => return self.screen(random),
            7 | 19 => calls::write_list_of(random, list.clone()),
            8 | 20 => calls::check_list_of(random, RawList::of(list, Form::Runs)),
            9 | 21 => calls::write_term_of(random, card.edition, card.pages, word.clone()),
            10 | 22 => calls::check_term_of(random, card.term(long)),
            11 => calls::close_index_of(random, card, pieces.clone()),
            23 => calls::check_index_of(random, card, pieces.clone()),
            _ if call == 0 => return self.tour(random),
            _ => return self.questions(random),
        };
        Decided::now(Stored::seeded(case))
    }

    /// The calls that write its longest word run by run.
    pub fn session(&self) -> Vec<Decided> {
        let mut random = Random::of_case(self.seed, 8, self.number);
        let longest = self.longest()[0] as usize;
        streams::session_of(&mut random, &self.card, longest)
    }

    /// The numbers of the words that stand anywhere, the longest first.
    fn by_length(&self) -> Vec<u32> {
        let pages = |number: &u32| self.card.words[*number as usize].pages.len();
        let all = 0..self.card.words.len() as u32;
        let mut numbers: Vec<u32> = all.filter(|number| pages(number) > 0).collect();
        numbers.sort_by_key(|number| Reverse(pages(number)));
        numbers
    }

    /// The longest words, as many as a question can have.
    fn longest(&self) -> Vec<u32> {
        self.by_length().into_iter().take(GREATEST_WORDS).collect()
    }

    fn lists_of(&self, word: usize) -> [&List; 3] {
        self.terms[word].lists()
    }

    /// Every kind of question, of eight words where it can have them, with
    /// all the room it needs.
    fn tour(&self, random: &mut Random) -> Decided {
        let words = self.by_length();
        let rare = words[words.len() - 1];
        let eight: Vec<u32> = words.into_iter().cycle().take(GREATEST_WORDS).collect();
        let questions = questions::tour(random, &self.card, &eight, rare);
        let whole = reply_over(&self.terms, &questions, usize::MAX);
        let size = whole.answers.iter().map(Vec::len).sum();
        self.asked(questions, whole, rooms::numbers(random, size))
    }

    fn questions(&self, random: &mut Random) -> Decided {
        let questions = match random.once_in(10) {
            true => questions::bad_questions(random, &self.card),
            false => questions::questions(random, &self.card),
        };
        let whole = reply_over(&self.terms, &questions, usize::MAX);
        let size = calls::answer_room(random, &whole.answers);
        self.asked(questions, whole, rooms::numbers(random, size))
    }

    /// A screen of this card, mostly a good one of its longest words.
    fn screen(&self, random: &mut Random) -> Decided {
        let mut panel = Panel::of(&self.bytes, Ok(&self.terms));
        if random.once_in(4) {
            let wanted = screens::wanted(random, &self.card);
            panel.show_anywhere(random, wanted);
        } else {
            let longest: Vec<u32> = self.longest().into_iter().take(3).collect();
            let mut wanted = screens::good(random, &self.card);
            wanted.words = vec![random.pick(&longest), random.pick(&longest)];
            panel.show(random, wanted);
        }
        panel.into_calls().remove(0)
    }

    /// Asking this card, by the reply that all the room would give.
    fn asked(&self, questions: Vec<u32>, whole: Reply, room: Vec<u32>) -> Decided {
        let mut after = room.clone();
        let (refusal, answered, used) = whole.cut_to(room.len()).put(&mut after);
        let plain = Outcome::Asked {
            refusal,
            answered,
            used,
            after: RoomAfter::kept(after),
        };
        let card = self.bytes.clone();
        let case = Case::Ask {
            card,
            questions,
            room,
        };
        Decided {
            stored: Stored::seeded(case),
            plain,
        }
    }
}

#[cfg(test)]
mod tests {
    use super::*;
    use crate::compare::plain_outcome;
    use crate::gen::full_size::SHAPES;

    #[test]
    fn a_call_is_decided_as_one_that_stands_alone() {
        for number in 0..SHAPES {
            let card = FullCard::around(4, number, 1_024);
            for call in 0..CALLS {
                let Decided { stored, plain } = card.call(call);
                let alone = plain_outcome(&stored.case);
                assert!(plain == alone, "card {number}, call {call}");
            }
        }
    }
}
