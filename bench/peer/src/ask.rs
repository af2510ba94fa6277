//! Questions over a card.

use crate::card::{check_index, find_terms};
use crate::check::TERM_OPENING;
use crate::cursor::{is_bitmap, Cursor, NONE};
use crate::phrase::{starts, Places};
use crate::shape::known;
use crate::words::Words;
use crate::{refusal, Asked};

const RANK: u32 = 1;
const BOUND: u32 = 2;
const COMMON: u32 = 3;
const PHRASE: u32 = 4;

/// The greatest offset of a word in a phrase.
const MOST_OFFSET: u32 = 255;

/// Checks card and questions, then answers the questions into the room.
pub fn ask(card: &[u8], questions: &[u32], room: &mut [u32]) -> Asked {
    let checked = check_index(card).and_then(|terms| check_questions(questions, terms));
    let mut asked = Asked {
        refusal: checked.err().unwrap_or(0),
        answered: 0,
        used: 0,
    };
    let mut rest = match checked {
        Ok(()) => questions,
        Err(_) => &[],
    };
    while let [kind, count, numbers @ ..] = rest {
        let (numbers, after) = numbers.split_at(*count as usize);
        let room = &mut room[asked.used..];
        match unsafe { answer(card.as_ptr(), *kind, numbers, room) } {
            Some(length) => asked.used += length,
            None => {
                asked.refusal = refusal::ROOM;
                break;
            }
        }
        asked.answered += 1;
        rest = after;
    }
    asked
}

fn check_questions(questions: &[u32], terms: u32) -> Result<(), u32> {
    let mut rest = questions;
    while !rest.is_empty() {
        rest = behind_question(rest, terms).ok_or(refusal::QUESTION)?;
    }
    Ok(())
}

/// What follows a good question.
#[inline(always)]
fn behind_question(questions: &[u32], terms: u32) -> Option<&[u32]> {
    let [kind, count, rest @ ..] = questions else {
        return None;
    };
    let known = |term: &u32| *term < terms;
    let (numbers, after) = rest.split_at_checked(*count as usize)?;
    let good = match (*kind, *count) {
        (RANK | BOUND, 2) => known(&numbers[0]),
        (COMMON, 1..=8) => numbers.iter().all(known),
        (PHRASE, 2 | 4 | 6 | 8 | 10 | 12 | 14 | 16) => is_phrase(numbers, terms),
        _ => false,
    };
    good.then_some(after)
}

/// Whether these pairs are of known terms and have offsets that rise from 0.
#[inline(always)]
fn is_phrase(pairs: &[u32], terms: u32) -> bool {
    let mut next = 0;
    let rising = pairs.chunks_exact(2).all(|pair| {
        let good = pair[0] < terms && (next..=MOST_OFFSET).contains(&pair[1]);
        next = pair[1].wrapping_add(1);
        good
    });
    rising && pairs[1] == 0
}

/// Answers a good question; gives the answer's length, or `None` if it does not fit.
#[inline(always)]
unsafe fn answer(card: *const u8, kind: u32, numbers: &[u32], room: &mut [u32]) -> Option<usize> {
    match kind {
        RANK => put(room, &page_at(pages(card, numbers[0]), numbers[1])),
        BOUND => put(room, &page_from(pages(card, numbers[0]), numbers[1])),
        COMMON => common(card, numbers, room),
        _ => phrase(card, numbers, room),
    }
}

/// The block of the pages of a term.
#[inline(always)]
unsafe fn pages(card: *const u8, term: u32) -> *const u8 {
    let mut found = [card; 8];
    find_terms(card, &[term], &mut found);
    found[0].add(TERM_OPENING)
}

/// An answer that begins with the count of the numbers behind it.
type Short = [u32; 3];

#[inline(always)]
unsafe fn page_at(block: *const u8, rank: u32) -> Short {
    if is_bitmap(block) {
        let cursor = Cursor::on_bitmap(block);
        return match rank >= cursor.n {
            true => [0; 3],
            false => [1, cursor.page_in_bitmap(rank), 0],
        };
    }
    let mut cursor = Cursor::on_runs(block);
    if rank >= cursor.n {
        return [0; 3];
    }
    cursor.jump_to(rank);
    [1, cursor.place.mark - 1, 0]
}

/// The first page at or above the bound and its rank, or the number of pages, which then all lie below it.
#[inline(always)]
unsafe fn page_from(block: *const u8, bound: u32) -> Short {
    match is_bitmap(block) {
        true => page_sought::<{ known::BITMAPS }>(Cursor::on_bitmap(block), bound),
        false => page_sought::<{ known::RUNS }>(Cursor::on_runs(block), bound),
    }
}

#[inline(always)]
unsafe fn page_sought<const KNOWN: u8>(mut cursor: Cursor, bound: u32) -> Short {
    match cursor.seek::<KNOWN>(bound, &mut 0) {
        NONE => [1, cursor.n, 0],
        page => [2, page, cursor.rank::<KNOWN>()],
    }
}

#[inline(always)]
fn put(room: &mut [u32], answer: &Short) -> Option<usize> {
    let length = answer[0] as usize + 1;
    room.get_mut(..length)?.copy_from_slice(&answer[..length]);
    Some(length)
}

/// Answers a question for common pages.
unsafe fn common(card: *const u8, numbers: &[u32], room: &mut [u32]) -> Option<usize> {
    if room.len() < 3 {
        return None;
    }
    if let [term] = numbers {
        return all_pages(Cursor::on(pages(card, *term)), room);
    }
    let words = Words::open(card, numbers);
    if room.len() - 3 < words.most() && room.len() - 3 < count_common(&words) {
        return None;
    }
    let begin = room.as_mut_ptr().add(3);
    let mut at = begin;
    let effort = words.go_over(|page, _, _| {
        at.write(page);
        at = at.add(1);
    });
    let length = at.offset_from(begin) as usize;
    room[0] = length as u32 + 2;
    room[1] = effort.seeks;
    room[2] = effort.looks;
    Some(length + 3)
}

/// Answers a question for the pages of one word, in a room of at least 3 numbers.
unsafe fn all_pages(mut cursor: Cursor, room: &mut [u32]) -> Option<usize> {
    let n = cursor.n as usize;
    if room.len() - 3 < n {
        return None;
    }
    let looks = match n {
        0 => 0,
        _ => cursor.list_all(room.as_mut_ptr().add(3)),
    };
    room[..3].copy_from_slice(&[cursor.n + 2, cursor.n + 1, looks]);
    Some(n + 3)
}

#[cold]
#[inline(never)]
unsafe fn count_common(words: &Words) -> usize {
    let mut count = 0;
    words.go_over(|_, _, _| count += 1);
    count
}

/// The words of a phrase and the offset of each in the question's order.
struct Phrase {
    words: Words,
    offsets: [u32; 8],
}

impl Phrase {
    #[inline(always)]
    unsafe fn open(card: *const u8, pairs: &[u32]) -> Phrase {
        let (mut terms, mut offsets) = ([0; 8], [0; 8]);
        for (i, pair) in pairs.chunks_exact(2).enumerate() {
            terms[i] = pair[0];
            offsets[i] = pair[1];
        }
        Phrase {
            words: Words::open(card, &terms[..pairs.len() / 2]),
            offsets,
        }
    }
}

/// Answers a question for a phrase.
unsafe fn phrase(card: *const u8, pairs: &[u32], room: &mut [u32]) -> Option<usize> {
    if room.is_empty() {
        return None;
    }
    let phrase = Phrase::open(card, pairs);
    let most = 2 * phrase.words.most();
    if room.len() - 1 < most && room.len() - 1 < 2 * count_phrase_pages(&phrase) {
        return None;
    }
    let begin = room.as_mut_ptr().add(1);
    let mut at = begin;
    go_over_phrase(&phrase, |page, starts| {
        at.write(page);
        at.add(1).write(starts);
        at = at.add(2);
    });
    let length = at.offset_from(begin) as usize;
    room[0] = length as u32;
    Some(length + 1)
}

#[cold]
#[inline(never)]
unsafe fn count_phrase_pages(phrase: &Phrase) -> usize {
    let mut count = 0;
    go_over_phrase(phrase, |_, _| count += 1);
    count
}

/// Goes over the pages with a start and tells each with the number of its starts.
#[inline(always)]
unsafe fn go_over_phrase(phrase: &Phrase, mut each: impl FnMut(u32, u32)) {
    let words = &phrase.words;
    let mut places = [Places::NOWHERE; 8];
    for (i, place) in places[..words.count].iter_mut().enumerate() {
        *place = Places::of(words.terms[i], phrase.offsets[words.order[i]]);
    }
    if words.count == 1 {
        let (word, mut rank) = (&mut places[0], 0);
        words.go_over(|page, _, _| {
            each(page, word.count(rank));
            rank += 1;
        });
        return;
    }
    let places = &mut places[..words.count];
    words.go_over(|page, lead, others| {
        let rank_of = |i: usize| match i {
            0 => lead.rank::<{ known::NOTHING }>(),
            _ => others.get_unchecked(i - 1).rank::<{ known::NOTHING }>(),
        };
        match starts(places, rank_of) {
            0 => {}
            found => each(page, found),
        }
    });
}
