//! Libraries with one slip in what editions and forms ask of them, each of which the comparison has to find.

use crate::case::{Case, Kind};
use crate::compare::{Decided, Other, Side};
use crate::gen::{calls, screens};
use crate::host_calls::{Asked, HostCalls, Plain, Written};
use crate::plain::bits::bytes_to_run;
use crate::plain::bytes::{number_at, push_number, put};
use crate::plain::edition::{is_dense, Edition, Form, Place};
use crate::plain::form::{all_questions, Question};
use crate::plain::index::check_index;
use crate::plain::list::{check_list_of, Shape};
use crate::plain::meeting::{meet_watched, Step};
use crate::plain::screen::{Screened, Wanted};
use crate::plain::seek::{Cursor, Formed};
use crate::plain::term::{take_apart_by, Term};
use crate::plain::{refusal, GREATEST_BOUND, GREATEST_TERMS};
use crate::screen_calls::ScreenCalls;
use crate::slips;
use crate::text::Stored;
use std::path::PathBuf;

/// A library with one slip in it, over the plain program.
#[derive(Clone, Copy, Debug, PartialEq, Eq)]
enum Slip {
    None,
    DenseAtEquality,
    NumbersCountTheirOwnPage,
    StartsAtTheCursor,
    StartsAtTheNumber,
    CountsRankWords,
    StopsBehindTheLastPage,
    TakesBitmapsInFirst,
    TakesRunsForDense,
    TakesSparseBitmaps,
    TakesEmptyBitmaps,
    TakesBitmapsForCounts,
    TakesBitmapsForPositions,
    TakesLoneBitmaps,
    TakesSpareBits,
    TakesAnyNumbers,
    LengthBeforeForm,
    FormBeforeLimit,
    FormBeforeCount,
    UnknownBehindLimit,
    TermHasTheCardsVersion,
    ToldBeforeTheBlock,
    ToldBehindTheInputs,
    ToldBehindTheLimits,
    ToldBeforeTheRoom,
    CutsTheVersionToAByte,
    ClosesAsTheFirst,
}

const SLIPS: [Slip; 26] = [
    Slip::DenseAtEquality,
    Slip::NumbersCountTheirOwnPage,
    Slip::StartsAtTheCursor,
    Slip::StartsAtTheNumber,
    Slip::CountsRankWords,
    Slip::StopsBehindTheLastPage,
    Slip::TakesBitmapsInFirst,
    Slip::TakesRunsForDense,
    Slip::TakesSparseBitmaps,
    Slip::TakesEmptyBitmaps,
    Slip::TakesBitmapsForCounts,
    Slip::TakesBitmapsForPositions,
    Slip::TakesLoneBitmaps,
    Slip::TakesSpareBits,
    Slip::TakesAnyNumbers,
    Slip::LengthBeforeForm,
    Slip::FormBeforeLimit,
    Slip::FormBeforeCount,
    Slip::UnknownBehindLimit,
    Slip::TermHasTheCardsVersion,
    Slip::ToldBeforeTheBlock,
    Slip::ToldBehindTheInputs,
    Slip::ToldBehindTheLimits,
    Slip::ToldBeforeTheRoom,
    Slip::CutsTheVersionToAByte,
    Slip::ClosesAsTheFirst,
];

/// Whether runs of these numbers take exactly as many bits as a bitmap.
fn is_equal(bound: u32, count: usize) -> bool {
    count > 0 && {
        let Shape { width, zeros } = Shape::of(bound, count);
        count + zeros + count * width as usize == bound as usize
    }
}

/// The pages' block inside a term block: its version, U and n.
struct Pages {
    version: u8,
    bound: u32,
    count: u32,
}

impl Pages {
    /// Where the numbers of the pages begin in a term block.
    const NUMBERS: usize = 18;

    /// The pages of a block that is at least as long as a term's header.
    fn of(term: &[u8]) -> Pages {
        Pages {
            version: term[9],
            bound: number_at(term, 10),
            count: number_at(term, 14),
        }
    }

    fn form(&self) -> Option<Form> {
        Form::of_version(self.version, &Form::ALL).ok()
    }

    /// The same of a term whose pages are a bitmap that lies in the block whole.
    fn of_bitmap(term: &[u8]) -> Option<Pages> {
        let pages = Pages::of(term);
        let map_end = pages.map_start() + pages.bound.div_ceil(64) as usize * 8;
        let good = pages.form() == Some(Form::Bitmap) && map_end <= term.len();
        good.then_some(pages)
    }

    fn map_start(&self) -> usize {
        Pages::NUMBERS + 4 * (self.bound / 256) as usize
    }

    /// Clears the bits behind U.
    fn clear_spare(&self, term: &mut [u8]) {
        let start = self.map_start();
        for bit in self.bound..self.bound.div_ceil(64) * 64 {
            let (word, bit) = (bit as usize / 64, bit as usize % 64);
            term[start + 8 * word + 7 - bit / 8] &= !(1 << (bit % 8));
        }
    }

    /// Writes the numbers that the map gives, each counted up to so many bits behind its multiple of 256.
    fn put_numbers(&self, term: &mut [u8], behind: usize) {
        let map = bytes_to_run(&term[self.map_start()..]);
        let map = &map[..self.bound as usize];
        for number in 1..=self.bound as usize / 256 {
            let end = map.len().min(256 * number + behind);
            let ones = map[..end].iter().filter(|bit| **bit).count();
            let mut bytes = Vec::new();
            push_number(&mut bytes, ones as u32);
            let place = Pages::NUMBERS + 4 * (number - 1);
            term[place..place + 4].copy_from_slice(&bytes);
        }
    }
}

impl Slip {
    /// The version as the slip takes it.
    fn version(self, told: u32) -> u32 {
        match self {
            Slip::CutsTheVersionToAByte => told % 256,
            _ => told,
        }
    }

    /// Whether the slip takes a form that is not the one of its place.
    fn takes(self, edition: Edition, place: Place, form: Form, numbers: (u32, usize)) -> bool {
        let (bound, count) = numbers;
        let pages = place == Place::Pages;
        let second = edition == Edition::Second;
        let dense = is_dense(bound, count);
        match (self, form) {
            (Slip::TakesRunsForDense, Form::Runs) => true,
            (Slip::TakesBitmapsInFirst, Form::Bitmap) => !second && pages && dense,
            (Slip::TakesSparseBitmaps, Form::Bitmap) => second && pages && !dense && count > 0,
            (Slip::TakesEmptyBitmaps, Form::Bitmap) => second && pages && count == 0,
            (Slip::TakesBitmapsForCounts, Form::Bitmap) => second && place == Place::Counts,
            (Slip::TakesBitmapsForPositions, Form::Bitmap) => second && place == Place::Positions,
            (Slip::DenseAtEquality, Form::Bitmap) => second && pages && is_equal(bound, count),
            (Slip::LengthBeforeForm, _) => true,
            _ => false,
        }
    }

    /// What the slip gives where the plain program gives 3 for a term of this edition.
    fn with_other_forms(self, edition: Edition, block: &[u8]) -> u32 {
        let taken = take_apart_by(edition, block, &|place, form, bound, count| {
            let right = form == edition.form(place, bound, count);
            right || self.takes(edition, place, form, (bound, count))
        });
        match (self, taken.err().unwrap_or(0)) {
            (Slip::LengthBeforeForm, refusal::SIZE) => refusal::SIZE,
            (Slip::LengthBeforeForm, _) => refusal::VERSION,
            (_, refusal) => refusal,
        }
    }

    /// What the slip gives for a term that the plain program refuses with this number.
    fn refusing(self, edition: Edition, block: &[u8], refused: u32) -> u32 {
        let pages = Pages::of(block);
        let bitmap_in_first = edition == Edition::First && pages.form() == Some(Form::Bitmap);
        let over = pages.bound > GREATEST_BOUND;
        let too_many = pages.count > pages.bound;
        match (self, refused) {
            (Slip::FormBeforeLimit, refusal::LIMIT) if bitmap_in_first && over => refusal::VERSION,
            (Slip::FormBeforeCount, refusal::SIZE) if bitmap_in_first && too_many => {
                refusal::VERSION
            }
            (Slip::UnknownBehindLimit, refusal::VERSION) if pages.form().is_none() && over => {
                refusal::LIMIT
            }
            (Slip::TermHasTheCardsVersion, refusal::VERSION) if block[4] == 2 => {
                let mut changed = block.to_vec();
                changed[4] = 1;
                Plain.check_term(edition.version(), &changed)
            }
            (Slip::TakesSpareBits | Slip::TakesAnyNumbers, refusal::RUNS) => {
                self.with_bitmap_put_right(edition, block)
            }
            (_, refusal::VERSION) => self.with_other_forms(edition, block),
            _ => refused,
        }
    }

    fn with_bitmap_put_right(self, edition: Edition, block: &[u8]) -> u32 {
        let mut changed = block.to_vec();
        if let Some(pages) = Pages::of_bitmap(block) {
            match self {
                Slip::TakesSpareBits => pages.clear_spare(&mut changed),
                _ => pages.put_numbers(&mut changed, 0),
            }
        }
        Plain.check_term(edition.version(), &changed)
    }

    /// The looks of a seek as the slip counts them.
    fn looks(self, step: &Step) -> u32 {
        if step.on.form == Form::Runs || step.looks == 0 {
            return step.looks;
        }
        let own_bit = match step.before {
            Cursor::On(number) => step.on.bit_of(number),
            _ => 0,
        };
        let bound = step.bound as usize;
        let last_page = step.on.bit_of(step.on.list.elements.len() - 1);
        let end = step.found.map_or(step.on.bits() - 1, |page| page as usize);
        let words = |start: usize, end: usize| (end / 64 - start / 64 + 1) as u32;
        match (self, step.found) {
            (Slip::StartsAtTheCursor, _) => words(own_bit, end),
            (Slip::StartsAtTheNumber, _) => words(bound / 256 * 256, end),
            (Slip::CountsRankWords, Some(page)) => step.looks + page / 64 % 4 + 1,
            (Slip::StopsBehindTheLastPage, None) => words(bound, last_page.max(bound)),
            _ => step.looks,
        }
    }

    /// All looks for the common pages of these terms.
    fn all_looks(self, terms: &[Term], words: &[u32], from: u32, most: usize) -> u32 {
        let lists: Vec<Formed> = words
            .iter()
            .map(|word| terms[*word as usize].formed_pages())
            .collect();
        let mut looks = 0;
        meet_watched(lists, from, most, &mut |step| looks += self.looks(&step));
        looks
    }
}

impl HostCalls for Slip {
    fn write_list(&self, bound: u32, list: &[u32], room: &mut [u8]) -> Written {
        Plain.write_list(bound, list, room)
    }

    fn check_list(&self, block: &[u8]) -> u32 {
        match (self, Plain.check_list(block)) {
            (Slip::TakesLoneBitmaps, refusal::VERSION) => {
                let taken = check_list_of(block, &Form::ALL, |_, _, _| true);
                taken.err().unwrap_or(0)
            }
            (_, refused) => refused,
        }
    }

    fn write_term(
        &self,
        version: u32,
        card_pages: u32,
        pages: &[u32],
        counts: &[u32],
        positions: &[u32],
        room: &mut [u8],
    ) -> Written {
        let before = room.to_vec();
        let version = self.version(version);
        let written = Plain.write_term(version, card_pages, pages, counts, positions, room);
        match (self, written.refusal) {
            (Slip::NumbersCountTheirOwnPage, 0) => {
                if let Some(pages) = Pages::of_bitmap(room) {
                    pages.put_numbers(room, 1);
                }
            }
            (Slip::DenseAtEquality, 0) if version == 2 && is_equal(card_pages, pages.len()) => {
                let edition = Edition::Second;
                let term = Term::from_inputs(edition, card_pages, pages, counts, positions);
                room.copy_from_slice(&before);
                return written_as_bitmap(&term.expect("it was written"), room);
            }
            (Slip::ToldBehindTheInputs, refusal::VERSION) => {
                let known = Plain.write_term(1, card_pages, pages, counts, positions, room);
                room.copy_from_slice(&before);
                if known.refusal != 0 {
                    return known;
                }
            }
            _ => {}
        }
        written
    }

    fn check_term(&self, version: u32, block: &[u8]) -> u32 {
        let version = self.version(version);
        let refused = Plain.check_term(version, block);
        match Edition::of_version(version) {
            Err(unknown) if *self == Slip::ToldBeforeTheBlock => unknown,
            Ok(edition) if refused > refusal::LENGTH => self.refusing(edition, block, refused),
            _ => refused,
        }
    }

    fn close_index(
        &self,
        buffer: &mut [u8],
        used: usize,
        version: u32,
        card_pages: u32,
        term_count: u32,
    ) -> Written {
        let version = self.version(version);
        let unknown = Edition::of_version(version).is_err();
        let over = card_pages > GREATEST_BOUND || term_count > GREATEST_TERMS;
        let written = Plain.close_index(buffer, used, version, card_pages, term_count);
        let refused = |refusal| Written { refusal, length: 0 };
        match (self, written.refusal) {
            (Slip::ClosesAsTheFirst, 0) => buffer[4] = 1,
            (Slip::ToldBeforeTheRoom, _) if unknown => return refused(refusal::VERSION),
            (Slip::ToldBehindTheLimits, refusal::VERSION) if unknown && over => {
                return refused(refusal::LIMIT)
            }
            _ => {}
        }
        written
    }

    fn check_index(&self, card: &[u8]) -> u32 {
        Plain.check_index(card)
    }

    fn ask(&self, card: &[u8], questions: &[u32], room: &mut [u32]) -> Asked {
        let asked = Plain.ask(card, questions, room);
        let Ok(terms) = check_index(card) else {
            return asked;
        };
        let questions = all_questions(terms.len(), questions).unwrap_or_default();
        let mut place = 0;
        for question in &questions[..asked.answered] {
            if let Question::Common(words) = question {
                room[place + 2] = self.all_looks(&terms, words, 0, usize::MAX);
            }
            place += 1 + room[place] as usize;
        }
        asked
    }
}

impl ScreenCalls for Slip {
    fn screen(
        &self,
        card: &[u8],
        wanted: &Wanted,
        pages: &mut [u32],
        counts: &mut [u32],
    ) -> Screened {
        let screened = Plain.screen(card, wanted, pages, counts);
        if let (0, Ok(terms)) = (screened.refusal, check_index(card)) {
            let most = wanted.most as usize;
            counts[1] = self.all_looks(&terms, &wanted.words, wanted.bound, most);
        }
        screened
    }
}

/// Writes a term with a bitmap, whether its pages are dense or not.
fn written_as_bitmap(term: &Term, room: &mut [u8]) -> Written {
    let block = term.block_in([Form::Bitmap, Form::Runs, Form::Runs]);
    let put = put(&block, room);
    Written {
        refusal: put.err().unwrap_or(0),
        length: put.unwrap_or(0),
    }
}

/// The number of differences that a slip makes on some cases.
fn differences(slip: Slip, cases: &[Decided]) -> usize {
    let other = Other {
        side: Side {
            calls: &slip,
            streams: &Plain,
            screens: &slip,
        },
        program: None,
        scratch: PathBuf::new(),
    };
    let compared = cases.iter().filter_map(|case| other.compare_decided(case));
    compared.filter(|done| done.difference.is_some()).count()
}

/// The calls that editions have a say in.
fn has_edition(case: &Case) -> bool {
    let kinds = [
        Kind::CheckList,
        Kind::WriteTerm,
        Kind::CheckTerm,
        Kind::CloseIndex,
        Kind::Ask,
        Kind::Screen,
    ];
    let small = match case {
        Case::WriteTerm { pages, .. } => pages.len() < 1_000,
        Case::CheckTerm { block, .. } => block.len() < 2_000,
        Case::Ask { card, .. } => card.len() < 5_000,
        Case::CloseIndex { buffer, .. } => buffer.len() < 2_000,
        _ => true,
    };
    kinds.contains(&case.kind()) && small
}

fn stored_calls() -> Vec<Decided> {
    let calls = slips::stored_calls(has_edition).into_iter();
    calls.map(Decided::now).collect()
}

fn seeded_calls() -> Vec<Decided> {
    let cases = (0..7_000).map(|number| calls::call(3, number));
    let cases = cases.filter(has_edition).map(Stored::seeded);
    let shown = (0..10).flat_map(|number| screens::set(3, number));
    cases.map(Decided::now).chain(shown).collect()
}

#[test]
fn every_slip_alone_is_found_by_stored_and_by_seeded_calls() {
    let sets = [stored_calls(), seeded_calls()];
    slips::are_found(Slip::None, &SLIPS, &sets, differences);
}
