//! Calls with the smallest bitmap of the greatest U, and with one page less, which is in runs.

use super::cards::{Card, Word};
use super::lists::least_dense;
use super::panel::Panel;
use super::random::Random;
use super::raw::RawCard;
use super::writing::{announced, runs, Host};
use crate::case::Case;
use crate::compare::Decided;
use crate::plain::edition::Edition;
use crate::plain::index::check_index;
use crate::plain::screen::Wanted;
use crate::plain::GREATEST_BOUND;
use crate::text::Stored;

/// The sets of calls.
pub const SETS: u64 = 4;

/// The pages of the rare word beside the bitmap.
const RARE: [u32; 4] = [0, 255, 256, GREATEST_BOUND - 1];

/// The calls of this number, below `SETS`.
pub fn set(number: u64) -> Vec<Decided> {
    match number {
        0 => writing(least_dense(GREATEST_BOUND) - 1),
        1 => writing(least_dense(GREATEST_BOUND)),
        2 => in_runs(),
        _ => asking(),
    }
}

/// A word once on each of the first pages, and on the last.
fn word(pages: u32) -> Word {
    let mut word = Word::nowhere();
    (1..pages).for_each(|page| word.stand(page - 1, &[0]));
    word.stand(GREATEST_BOUND - 1, &[0]);
    word
}

/// Writing of a word in a room of its own size, and the check of its block whole and with one bit changed.
fn writing(pages: u32) -> Vec<Decided> {
    let word = word(pages);
    let version = Edition::Second.version();
    let block = word.term(Edition::Second, GREATEST_BOUND).block();
    let mut changed = block.clone();
    changed[block.len() / 4] ^= 1;
    let written = Case::WriteTerm {
        version,
        card_pages: GREATEST_BOUND,
        pages: word.pages,
        counts: word.counts,
        positions: word.positions,
        room: vec![0xA5; block.len()],
    };
    let checks = [block, changed].map(|block| Case::CheckTerm { version, block });
    let cases = [written].into_iter().chain(checks);
    cases.map(Stored::seeded).map(Decided::now).collect()
}

/// The bitmap written in two runs.
fn in_runs() -> Vec<Decided> {
    let pages = least_dense(GREATEST_BOUND);
    let word = word(pages);
    let block = word.term(Edition::Second, GREATEST_BOUND).block();
    let size = block.len();
    let mut host = Host::with(vec![0xFF; size]);
    host.begin(announced(Edition::Second, GREATEST_BOUND, &word), size);
    for run in runs(&word, &[pages as usize / 3]) {
        host.put(&run, size);
    }
    host.end_with(&block, size);
    host.into_calls()
}

/// Questions and a screen of the bitmap and a rare word.
fn asking() -> Vec<Decided> {
    let dense = least_dense(GREATEST_BOUND);
    let mut rare = Word::nowhere();
    RARE.iter().for_each(|page| rare.stand(*page, &[0]));
    let bytes = RawCard::of(&Card {
        edition: Edition::Second,
        pages: GREATEST_BOUND,
        words: vec![word(dense), rare],
    })
    .bytes();
    let ranks = [0, dense - 2, dense - 1, dense].map(|rank| [1, 2, 0, rank]);
    let last = GREATEST_BOUND - 1;
    let bounds = [0, dense - 2, dense - 1, last, last + 1].map(|bound| [2, 2, 0, bound]);
    let mut questions = [ranks.concat(), bounds.concat()].concat();
    questions.extend([3, 2, 0, 1, 4, 4, 1, 0, 0, 1, 4, 2, 1, 0]);
    let asked = Decided::now(Stored::seeded(Case::Ask {
        card: bytes.clone(),
        questions,
        room: vec![9; 60],
    }));
    let terms = check_index(&bytes).expect("the card is good");
    let mut panel = Panel::of(&bytes, Ok(&terms));
    let screen = Wanted {
        bound: dense - 5,
        most: 9,
        words: vec![0],
    };
    panel.show(&mut Random::of_case(0, 10, 0), screen);
    [asked].into_iter().chain(panel.into_calls()).collect()
}
