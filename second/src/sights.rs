//! The edges and limits of document 01 and its amendments that a compared case has shown.

use crate::case::{Case, Outcome};
use crate::gen::full_size::LONG;
use crate::phrase_faults::{phrase_fault, Fault};
use crate::plain::bytes::{next_part, number_at};
use crate::plain::edition::Form;
use crate::plain::form::{all_questions, PhraseWord, Question};
use crate::plain::index::INDEX_HEADER;
use crate::plain::list::{check_list_of, List, Shape, LIST_HEADER};
use crate::plain::term::{TERM_HEADER, TERM_OPENING};
use crate::plain::{refusal, GREATEST_BOUND, GREATEST_OFFSET, GREATEST_TERMS, GREATEST_WORDS};

/// The pointers of a list that has many of them.
pub const MANY_POINTERS: usize = 256;

/// Something that a whole run must have seen.
#[derive(Clone, Copy, Debug, PartialEq, Eq)]
pub enum Sight {
    /// A written list has pointers.
    WrittenPointers,
    /// A written list has many pointers.
    WrittenManyPointers,
    /// A written list has its last pointer at the run's end.
    WrittenPointerAtEnd,
    /// A written list has the greatest U.
    WrittenGreatestBound,
    /// A question of kind 1 was answered.
    AtRank,
    /// A question of kind 2 was answered.
    AtBound,
    /// A question of kind 3 was answered.
    Common,
    /// A question of kind 4 was answered.
    Phrase,
    /// A question of kind 3 with eight words was answered.
    CommonOfEight,
    /// A question of kind 4 with eight words was answered.
    PhraseOfEight,
    /// A phrase with a dropped word was found.
    GapFound,
    /// A phrase with a dropped word was not found.
    GapNotFound,
    /// A phrase with the greatest offset was found.
    LargestOffset,
    /// A phrase with a dropped word that names a word twice was found.
    WordTwiceFound,
    /// A phrase with this fault was refused.
    Refused(Fault),
    /// A card with the greatest T answered a question.
    GreatestTerms,
    /// A card with the greatest N answered a question.
    GreatestPages,
    /// A question was answered over pages with many pointers.
    AskedManyPointers,
    /// A question was answered over pages with the last pointer at the run's end.
    AskedPointerAtEnd,
    /// A bound was asked for whose seek begins at the run's end.
    SeekAtEnd,
    /// A bound found no page of a word that has pages.
    NoneBehindPages,
    /// A bound was asked for on a word that has no page.
    NoneWithoutPages,
    /// A bound equal to U was asked for on a word that has pages.
    BoundAtU,
    /// The largest number was asked for as a bound on a word that has pages.
    LargestBound,
    /// A bound that finds no page was refused with one number of room left.
    NoneRefused,
    /// A bound that finds no page was answered in the last two numbers of the room.
    NoneInLastTwo,
    /// A question was answered over a list of full size.
    AskedLong,
}

impl Sight {
    /// Every sight, in the order of the report.
    pub const ALL: [Sight; 34] = [
        Sight::WrittenPointers,
        Sight::WrittenManyPointers,
        Sight::WrittenPointerAtEnd,
        Sight::WrittenGreatestBound,
        Sight::AtRank,
        Sight::AtBound,
        Sight::Common,
        Sight::Phrase,
        Sight::CommonOfEight,
        Sight::PhraseOfEight,
        Sight::GapFound,
        Sight::GapNotFound,
        Sight::LargestOffset,
        Sight::WordTwiceFound,
        Sight::Refused(Fault::NoPair),
        Sight::Refused(Fault::OddCount),
        Sight::Refused(Fault::CutShort),
        Sight::Refused(Fault::NinePairs),
        Sight::Refused(Fault::FirstOffset),
        Sight::Refused(Fault::EqualOffsets),
        Sight::Refused(Fault::FallingOffset),
        Sight::Refused(Fault::OverLimit),
        Sight::GreatestTerms,
        Sight::GreatestPages,
        Sight::AskedManyPointers,
        Sight::AskedPointerAtEnd,
        Sight::SeekAtEnd,
        Sight::NoneBehindPages,
        Sight::NoneWithoutPages,
        Sight::BoundAtU,
        Sight::LargestBound,
        Sight::NoneRefused,
        Sight::NoneInLastTwo,
        Sight::AskedLong,
    ];

    /// Its place among all.
    pub fn place(self) -> usize {
        let place = Sight::ALL.iter().position(|sight| *sight == self);
        place.expect("every sight is among all")
    }

    /// What is counted, as the report names it.
    pub fn name(self) -> String {
        match self {
            Sight::WrittenPointers => "lists written with pointers".into(),
            Sight::WrittenManyPointers => {
                format!("lists written with {MANY_POINTERS} or more pointers")
            }
            Sight::WrittenPointerAtEnd => "lists written with a pointer at the run's end".into(),
            Sight::WrittenGreatestBound => "lists written with U at its limit".into(),
            Sight::AtRank => "questions of kind 1 answered".into(),
            Sight::AtBound => "questions of kind 2 answered".into(),
            Sight::Common => "questions of kind 3 answered".into(),
            Sight::Phrase => "questions of kind 4 answered".into(),
            Sight::CommonOfEight => "questions of kind 3 with 8 words answered".into(),
            Sight::PhraseOfEight => "questions of kind 4 with 8 words answered".into(),
            Sight::GapFound => "phrases with a dropped word found".into(),
            Sight::GapNotFound => "phrases with a dropped word not found".into(),
            Sight::LargestOffset => format!("phrases with the offset {GREATEST_OFFSET} found"),
            Sight::WordTwiceFound => "phrases with a dropped word and a word twice found".into(),
            Sight::Refused(fault) => format!("phrases refused for {}", fault.name()),
            Sight::GreatestTerms => "questions answered on a card with T at its limit".into(),
            Sight::GreatestPages => "questions answered on a card with N at its limit".into(),
            Sight::AskedManyPointers => {
                format!("questions answered on a list with {MANY_POINTERS} or more pointers")
            }
            Sight::AskedPointerAtEnd => {
                "questions answered on a list with a pointer at the run's end".into()
            }
            Sight::SeekAtEnd => "bounds answered whose seek begins at the run's end".into(),
            Sight::NoneBehindPages => "bounds answered with none on a word with pages".into(),
            Sight::NoneWithoutPages => "bounds answered with none on a word without pages".into(),
            Sight::BoundAtU => "bounds answered that are U on a word with pages".into(),
            Sight::LargestBound => {
                format!("bounds answered that are {} on a word with pages", u32::MAX)
            }
            Sight::NoneRefused => "bounds with none refused with one number of room left".into(),
            Sight::NoneInLastTwo => "bounds with none answered in the last two numbers".into(),
            Sight::AskedLong => format!("questions answered on a list of {LONG} or more pages"),
        }
    }
}

/// What a case has shown, by what the plain program gives for it.
pub fn sights(case: &Case, plain: &Outcome) -> Vec<Sight> {
    match (case, plain) {
        (Case::WriteList { .. }, Outcome::Written { length, after, .. }) if *length > 0 => {
            of_written(&ListBlock(&after.room[..*length]))
        }
        (
            Case::Ask {
                card, questions, ..
            },
            Outcome::Asked {
                refusal: 0 | refusal::ROOM,
                answered,
                after,
                ..
            },
        ) => of_good_questions(card, questions, *answered, &after.room),
        (
            Case::Ask {
                card, questions, ..
            },
            Outcome::Asked {
                refusal: refusal::QUESTION,
                ..
            },
        ) => {
            let fault = phrase_fault(page_lists(card).len(), questions);
            fault.map(Sight::Refused).into_iter().collect()
        }
        _ => Vec::new(),
    }
}

/// The sights of those that hold.
fn holding(all: &[(bool, Sight)]) -> impl Iterator<Item = Sight> + '_ {
    all.iter()
        .filter(|(holds, _)| *holds)
        .map(|(_, sight)| *sight)
}

fn of_written(list: &ListBlock) -> Vec<Sight> {
    let sights = [
        (list.pointers() > 0, Sight::WrittenPointers),
        (list.pointers() >= MANY_POINTERS, Sight::WrittenManyPointers),
        (list.has_pointer_at_end(), Sight::WrittenPointerAtEnd),
        (list.bound() == GREATEST_BOUND, Sight::WrittenGreatestBound),
    ];
    holding(&sights).collect()
}

/// The sights of good questions over an accepted card, the first so many of
/// them answered in the room, and of the next, which did not fit.
fn of_good_questions(card: &[u8], questions: &[u32], answered: usize, room: &[u32]) -> Vec<Sight> {
    let pages = page_lists(card);
    let greatest_terms = pages.len() == GREATEST_TERMS as usize;
    let greatest_pages = number_at(card, 5) == GREATEST_BOUND;
    let questions = all_questions(pages.len(), questions).expect("all are good");
    let mut sights = Vec::new();
    let mut left = room;
    for question in &questions[..answered] {
        let (answer, after) = left.split_at(1 + left[0] as usize);
        let terms = question.terms();
        let lists: Vec<&ListBlock> = terms.iter().map(|term| &pages[*term as usize]).collect();
        sights.extend(of_question(question));
        sights.extend(of_asked(&lists));
        match question {
            Question::AtBound(_, bound) => sights.extend(of_bound(lists[0], *bound, left)),
            Question::Phrase(words) => sights.extend(of_phrase(words, answer.len() > 1)),
            _ => {}
        }
        sights.extend(holding(&[
            (greatest_terms, Sight::GreatestTerms),
            (greatest_pages, Sight::GreatestPages),
        ]));
        left = after;
    }
    sights.extend(of_refused(&pages, questions.get(answered), left));
    sights
}

/// The sights of a phrase that stands somewhere, or does not.
fn of_phrase(words: &[PhraseWord], found: bool) -> Vec<Sight> {
    let last = words[words.len() - 1].offset;
    let gap = last as usize >= words.len();
    let mut terms: Vec<u32> = words.iter().map(|word| word.term).collect();
    terms.sort_unstable();
    let twice = terms.windows(2).any(|pair| pair[0] == pair[1]);
    let sights = [
        (gap && found, Sight::GapFound),
        (gap && !found, Sight::GapNotFound),
        (last == GREATEST_OFFSET && found, Sight::LargestOffset),
        (gap && twice && found, Sight::WordTwiceFound),
    ];
    holding(&sights).collect()
}

/// The sights of a bound whose answer stands at the front of the room.
fn of_bound(list: &ListBlock, bound: u32, room: &[u32]) -> Vec<Sight> {
    let finds_none = room[0] == 1;
    let has_pages = list.count() > 0;
    let sights = [
        (list.seek_begins_at_end(bound), Sight::SeekAtEnd),
        (finds_none && has_pages, Sight::NoneBehindPages),
        (finds_none && !has_pages, Sight::NoneWithoutPages),
        (has_pages && bound == list.bound(), Sight::BoundAtU),
        (has_pages && bound == u32::MAX, Sight::LargestBound),
        (finds_none && room.len() == 2, Sight::NoneInLastTwo),
    ];
    holding(&sights).collect()
}

/// The sight of a question that did not fit in the room.
fn of_refused(pages: &[ListBlock], question: Option<&Question>, room: &[u32]) -> Option<Sight> {
    match (question, room) {
        (Some(Question::AtBound(word, bound)), [_]) => pages[*word as usize]
            .lies_below(*bound)
            .then_some(Sight::NoneRefused),
        _ => None,
    }
}

fn of_question(question: &Question) -> Vec<Sight> {
    let eight_words = question.terms().len() == GREATEST_WORDS;
    match (question, eight_words) {
        (Question::AtRank(..), _) => vec![Sight::AtRank],
        (Question::AtBound(..), _) => vec![Sight::AtBound],
        (Question::Common(_), false) => vec![Sight::Common],
        (Question::Common(_), true) => vec![Sight::Common, Sight::CommonOfEight],
        (Question::Phrase(_), false) => vec![Sight::Phrase],
        (Question::Phrase(_), true) => vec![Sight::Phrase, Sight::PhraseOfEight],
    }
}

fn of_asked(lists: &[&ListBlock]) -> Vec<Sight> {
    let any = |holds: &dyn Fn(&ListBlock) -> bool| lists.iter().any(|list| holds(list));
    let sights = [
        (
            any(&|list| list.pointers() >= MANY_POINTERS),
            Sight::AskedManyPointers,
        ),
        (
            any(&|list| list.has_pointer_at_end()),
            Sight::AskedPointerAtEnd,
        ),
        (any(&|list| list.count() >= LONG), Sight::AskedLong),
    ];
    holding(&sights).collect()
}

/// The block of a list, mostly a valid one.
pub struct ListBlock<'a>(pub &'a [u8]);

impl ListBlock<'_> {
    /// The list itself.
    pub fn list(&self) -> List {
        let list = self.list_if(|_, _, _| true);
        list.expect("the list is valid")
    }

    /// The list, if the block is valid and this says that its form is right for U and n.
    pub fn list_if(&self, is_right: impl Fn(Form, u32, usize) -> bool) -> Option<List> {
        check_list_of(self.0, &Form::ALL, is_right).ok()
    }

    /// Its form.
    pub fn form(&self) -> Form {
        self.form_if_known().expect("the list is valid")
    }

    /// Its form, if its version is that of one.
    pub fn form_if_known(&self) -> Option<Form> {
        Form::of_version(self.0[4], &Form::ALL).ok()
    }

    /// U.
    pub fn bound(&self) -> u32 {
        number_at(self.0, 5)
    }

    /// n.
    pub fn count(&self) -> u32 {
        number_at(self.0, 9)
    }

    /// The shape of its runs, if it has any.
    fn shape(&self) -> Option<Shape> {
        let count = self.count() as usize;
        let has_runs = count > 0 && self.form() == Form::Runs;
        has_runs.then(|| Shape::of(self.bound(), count))
    }

    fn pointers(&self) -> usize {
        self.shape().map_or(0, Shape::pointers)
    }

    fn has_pointer_at_end(&self) -> bool {
        let Some(shape) = self.shape() else {
            return false;
        };
        let last = shape.pointers().checked_sub(1);
        let run_end = self.count() as usize + shape.zeros;
        last.is_some_and(|last| number_at(self.0, LIST_HEADER + 4 * last) as usize == run_end)
    }

    /// Whether every element is below this bound.
    fn lies_below(&self, bound: u32) -> bool {
        self.list().elements.iter().all(|element| *element < bound)
    }

    /// Whether a fresh seek for this bound goes by a pointer to the run's end.
    fn seek_begins_at_end(&self, bound: u32) -> bool {
        let has_all_zeros_before = |shape: Shape| (bound >> shape.width) as usize == shape.zeros;
        self.has_pointer_at_end()
            && bound < self.bound()
            && self.shape().is_some_and(has_all_zeros_before)
    }
}

/// The pages of each word of an accepted card.
pub fn page_lists(card: &[u8]) -> Vec<ListBlock<'_>> {
    let mut lists = Vec::new();
    let mut rest = &card[INDEX_HEADER..];
    while let Ok(term) = next_part(&mut rest, TERM_HEADER) {
        let pages = next_part(&mut &term[TERM_OPENING..], LIST_HEADER);
        lists.push(ListBlock(pages.expect("the card is accepted")));
    }
    lists
}

#[cfg(test)]
mod tests {
    use super::*;
    use crate::compare::plain_outcome;
    use crate::gen::cards::{Card, Word};
    use crate::gen::raw::RawCard;
    use crate::plain::edition::Edition;

    fn shown(case: &Case) -> Vec<Sight> {
        sights(case, &plain_outcome(case))
    }

    fn written(bound: u32, list: Vec<u32>) -> Vec<Sight> {
        let room = vec![0; 4_000_000];
        shown(&Case::WriteList { bound, list, room })
    }

    #[test]
    fn a_written_list_shows_its_pointers_and_its_bound() {
        assert_eq!(written(255, (0..255).collect()), []);
        assert_eq!(written(300, (0..300).collect()), [Sight::WrittenPointers]);
        let to_the_end = [Sight::WrittenPointers, Sight::WrittenPointerAtEnd];
        assert_eq!(written(256, (0..256).collect()), to_the_end);
        let many = [Sight::WrittenPointers, Sight::WrittenManyPointers];
        assert_eq!(written(65_537, (0..65_537).collect()), many);
        let greatest = [Sight::WrittenGreatestBound];
        assert_eq!(written(GREATEST_BOUND, vec![7]), greatest);
        assert_eq!(written(GREATEST_BOUND, Vec::new()), greatest);
        assert_eq!(written(GREATEST_BOUND + 1, Vec::new()), []);
    }

    fn first_edition(pages: u32, words: Vec<Word>) -> Vec<u8> {
        let edition = Edition::First;
        RawCard::of(&Card {
            edition,
            pages,
            words,
        })
        .bytes()
    }

    /// What is shown by a question to a card whose words all stand on these pages.
    fn asked(pages: u32, on: &[u32], words: usize, questions: &[u32], room: usize) -> Vec<Sight> {
        let mut word = Word::nowhere();
        on.iter().for_each(|page| word.stand(*page, &[0]));
        let words = vec![word; words];
        shown(&Case::Ask {
            card: first_edition(pages, words),
            questions: questions.to_vec(),
            room: vec![0; room],
        })
    }

    #[test]
    fn an_answered_question_shows_its_kind_and_its_words() {
        let of_kind = |questions: &[u32]| asked(9, &[3], 2, questions, 99);
        assert_eq!(of_kind(&[1, 2, 0, 0]), [Sight::AtRank]);
        assert_eq!(of_kind(&[2, 2, 1, 3]), [Sight::AtBound]);
        assert_eq!(of_kind(&[3, 2, 1, 0]), [Sight::Common]);
        assert_eq!(of_kind(&[4, 2, 1, 0]), [Sight::Phrase]);
        let eight = [Sight::Common, Sight::CommonOfEight];
        assert_eq!(of_kind(&[3, 8, 0, 0, 0, 0, 0, 0, 0, 1]), eight);
        let eight = [Sight::Phrase, Sight::PhraseOfEight];
        let pairs: Vec<u32> = (0..8).flat_map(|offset| [0, offset]).collect();
        assert_eq!(of_kind(&[&[4, 16], &pairs[..]].concat()), eight);
        assert_eq!(of_kind(&[5, 1, 0]), []);
        assert_eq!(asked(9, &[3], 1, &[4, 2, 0, 0], 2), []);
        assert_eq!(
            asked(9, &[3], 1, &[1, 2, 0, 0, 4, 2, 0, 0], 2),
            [Sight::AtRank]
        );
    }

    /// What a phrase shows over a card with word 0 at 0, 3 and 255 of a page, and word 1 at 4.
    fn of_pairs(pairs: &[u32]) -> Vec<Sight> {
        let word_at = |positions: &[u32]| {
            let mut word = Word::nowhere();
            word.stand(0, positions);
            word
        };
        let words = vec![word_at(&[0, 3, 255]), word_at(&[4])];
        shown(&Case::Ask {
            card: first_edition(1, words),
            questions: [&[4, pairs.len() as u32], pairs].concat(),
            room: vec![0; 9],
        })
    }

    #[test]
    fn a_phrase_shows_its_gaps() {
        assert_eq!(of_pairs(&[0, 0, 1, 1]), [Sight::Phrase]);
        assert_eq!(of_pairs(&[0, 0, 1, 4]), [Sight::Phrase, Sight::GapFound]);
        assert_eq!(of_pairs(&[0, 0, 1, 2]), [Sight::Phrase, Sight::GapNotFound]);
        let twice = [Sight::Phrase, Sight::GapFound, Sight::WordTwiceFound];
        assert_eq!(of_pairs(&[0, 0, 0, 3]), twice);
        let greatest = [
            Sight::Phrase,
            Sight::GapFound,
            Sight::LargestOffset,
            Sight::WordTwiceFound,
        ];
        assert_eq!(of_pairs(&[0, 0, 0, 255]), greatest);
        let not_found = [Sight::Phrase, Sight::GapNotFound];
        assert_eq!(of_pairs(&[1, 0, 0, 255]), not_found);
    }

    #[test]
    fn a_refused_phrase_shows_its_fault() {
        assert_eq!(of_pairs(&[]), [Sight::Refused(Fault::NoPair)]);
        assert_eq!(of_pairs(&[0, 1]), [Sight::Refused(Fault::FirstOffset)]);
        assert_eq!(of_pairs(&[2, 0]), []);
    }

    #[test]
    fn a_bound_behind_the_last_pointer_shows_a_seek_at_the_runs_end() {
        let even: Vec<u32> = (0..256).map(|i| 2 * i).collect();
        let at_bound = |bound| asked(513, &even, 1, &[2, 2, 0, bound], 3);
        let found = [Sight::AtBound, Sight::AskedPointerAtEnd];
        assert_eq!(at_bound(510), found);
        let none = [&found[..], &[Sight::NoneBehindPages]].concat();
        assert_eq!(at_bound(511), none);
        assert_eq!(at_bound(513), [&none[..], &[Sight::BoundAtU]].concat());
        let seek_at_end = [Sight::SeekAtEnd, Sight::NoneBehindPages];
        assert_eq!(at_bound(512), [found, seek_at_end].concat());
    }

    #[test]
    fn a_bound_shows_how_it_finds_none() {
        let at_bound = |on: &[u32], bound| {
            let mut sights = asked(9, on, 1, &[2, 2, 0, bound], 3);
            assert_eq!(sights.remove(0), Sight::AtBound);
            sights
        };
        assert_eq!(at_bound(&[3], 3), []);
        assert_eq!(at_bound(&[3], 4), [Sight::NoneBehindPages]);
        let at_u = [Sight::NoneBehindPages, Sight::BoundAtU];
        assert_eq!(at_bound(&[3], 9), at_u);
        let largest = [Sight::NoneBehindPages, Sight::LargestBound];
        assert_eq!(at_bound(&[3], u32::MAX), largest);
        for bound in [0, 9, u32::MAX] {
            assert_eq!(at_bound(&[], bound), [Sight::NoneWithoutPages]);
        }
    }

    #[test]
    fn a_bound_that_finds_none_shows_the_room_it_is_left() {
        let in_room = |questions: &[u32], room| {
            let mut sights = asked(9, &[3], 1, questions, room);
            sights.retain(|sight| [Sight::NoneRefused, Sight::NoneInLastTwo].contains(sight));
            sights
        };
        let (found, none) = ([2, 2, 0, 3], [2, 2, 0, 4]);
        assert_eq!(in_room(&none, 0), []);
        assert_eq!(in_room(&none, 1), [Sight::NoneRefused]);
        assert_eq!(in_room(&none, 2), [Sight::NoneInLastTwo]);
        assert_eq!(in_room(&none, 3), []);
        assert_eq!(in_room(&found, 1), []);
        let both = [found, none].concat();
        assert_eq!(in_room(&both, 2), []);
        assert_eq!(in_room(&both, 4), [Sight::NoneRefused]);
        assert_eq!(in_room(&both, 5), [Sight::NoneInLastTwo]);
    }

    #[test]
    fn an_answered_question_shows_its_card_and_its_lists() {
        let at_rank = |pages, on: &[u32], words| {
            let mut sights = asked(pages, on, words, &[1, 2, 0, 0], 2);
            assert_eq!(sights.remove(0), Sight::AtRank);
            sights
        };
        assert_eq!(at_rank(1, &[0], 4_095), []);
        assert_eq!(at_rank(1, &[0], 4_096), [Sight::GreatestTerms]);
        assert_eq!(at_rank(GREATEST_BOUND, &[0], 1), [Sight::GreatestPages]);
        let all: Vec<u32> = (0..LONG).collect();
        assert_eq!(at_rank(256, &all[..256], 1), [Sight::AskedPointerAtEnd]);
        assert_eq!(
            at_rank(65_537, &all[..65_537], 1),
            [Sight::AskedManyPointers]
        );
        let long = [Sight::AskedManyPointers, Sight::AskedLong];
        assert_eq!(at_rank(LONG + 1, &all, 1), long);
    }
}
