//! The peer on lists that are longer than the second program's generator makes, in both editions: long runs of
//! neighbours, far jumps, phrases over many positions, and screens, against the second program's reading of the card.

use jundefola_peer::{peer_ask, peer_check_index, peer_close_index, peer_screen, peer_write_term};
use second::gen::phrases::{apart, in_a_row, of_pairs};
use second::gen::random::Random;
use second::plain::ask::reply;
use second::plain::edition::Edition;
use second::plain::index::check_index;
use second::plain::screen::Wanted;
use second::plain::term::Term;

const CARD_HEADER: usize = 11;

/// A word as the writer is handed it.
#[derive(Default)]
struct Word {
    pages: Vec<u32>,
    counts: Vec<u32>,
    positions: Vec<u32>,
}

impl Word {
    fn stand(&mut self, page: u32, positions: impl Iterator<Item = u32>) {
        let before = self.positions.len();
        self.positions.extend(positions);
        self.pages.push(page);
        self.counts.push((self.positions.len() - before) as u32);
    }
}

/// Pages in runs of up to `run` neighbours, with gaps up to `gap`.
fn pages(random: &mut Random, card_pages: u32, run: u32, gap: u32, most: usize) -> Vec<u32> {
    let mut pages = Vec::new();
    let mut next = random.from_to(0, gap);
    while next < card_pages && pages.len() < most {
        let end = (next + random.from_to(1, run)).min(card_pages);
        pages.extend(next..end);
        next = end + 1 + random.from_to(0, gap);
    }
    pages
}

/// A word on these pages, with up to `most` positions on each.
fn word(random: &mut Random, pages: Vec<u32>, most: u32) -> Word {
    let mut word = Word::default();
    for page in pages {
        let (mut next, mut positions) = (random.from_to(0, 3), Vec::new());
        for _ in 0..random.from_to(1, most) {
            positions.push(next);
            next += 1 + random.from_to(0, 2);
        }
        word.stand(page, positions.into_iter());
    }
    word
}

fn term_block(edition: Edition, card_pages: u32, word: &Word) -> Vec<u8> {
    let mut room = vec![0xA5; 200 + 8 * word.pages.len() + 4 * word.positions.len()];
    let written = unsafe {
        peer_write_term(
            edition.version(),
            card_pages,
            word.pages.as_ptr(),
            word.pages.len(),
            word.counts.as_ptr(),
            word.counts.len(),
            word.positions.as_ptr(),
            word.positions.len(),
            room.as_mut_ptr(),
            room.len(),
        )
    };
    assert_eq!(written.refusal, 0);
    room.truncate(written.length);
    let Word {
        pages,
        counts,
        positions,
    } = word;
    let plain = Term::from_inputs(edition, card_pages, pages, counts, positions);
    assert_eq!(plain.map(|term| term.block()), Ok(room.clone()));
    room
}

fn card_of(edition: Edition, card_pages: u32, words: &[Word]) -> Vec<u8> {
    let mut card = vec![0; CARD_HEADER];
    words
        .iter()
        .for_each(|word| card.extend(term_block(edition, card_pages, word)));
    let (at, length, terms) = (card.as_mut_ptr(), card.len(), words.len() as u32);
    let version = edition.version();
    let closed = unsafe { peer_close_index(at, length, length, version, card_pages, terms) };
    assert_eq!((closed.refusal, closed.length), (0, length));
    assert!(check_index(&card).is_ok());
    card
}

/// Questions of all kinds over some words.
fn questions(random: &mut Random, card_pages: u32, words: &[Word]) -> Vec<u32> {
    let mut questions = Vec::new();
    for _ in 0..60 {
        let term = random.place(words.len());
        let rank = random.from_to(0, words[term].pages.len() as u32);
        let bound = random.from_to(0, card_pages);
        questions.extend([1, 2, term as u32, rank, 2, 2, term as u32, bound]);
    }
    for (term, word) in words.iter().enumerate() {
        let behind_all = word.pages.last().map_or(0, |last| last + 1);
        for bound in [behind_all, card_pages, u32::MAX] {
            questions.extend([2, 2, term as u32, bound]);
        }
    }
    for _ in 0..6 {
        let count = random.from_to(1, 4);
        let terms: Vec<u32> = (0..count)
            .map(|_| random.place(words.len()) as u32)
            .collect();
        questions.extend([3, count]);
        questions.extend(&terms);
        questions.extend(of_pairs(&in_a_row(&terms)));
        questions.extend(of_pairs(&apart(random, &terms)));
    }
    questions
}

fn compare(card: &[u8], questions: &[u32]) {
    let plain = reply(card, questions, usize::MAX);
    let numbers = plain.answers.concat();
    for spare in [0, 100_000] {
        let mut room = vec![0; numbers.len() + spare];
        let (at, size) = (room.as_mut_ptr(), room.len());
        let (asked, length) = (questions.as_ptr(), questions.len());
        let given = unsafe { peer_ask(card.as_ptr(), card.len(), asked, length, at, size) };
        assert_eq!((given.refusal, given.answered), (0, plain.answers.len()));
        assert_eq!(&room[..given.used], &numbers);
    }
}

fn compare_screen(card: &[u8], terms: &[Term], wanted: &Wanted) {
    let (mut pages, mut counts) = (vec![0; 64], vec![0; 2]);
    let plain = wanted.put(wanted.of_terms(terms), &mut pages, &mut counts);
    let (mut pages_given, mut counts_given) = (vec![0; 64], vec![0; 2]);
    let given = unsafe {
        peer_screen(
            card.as_ptr(),
            card.len(),
            wanted.bound,
            wanted.most,
            wanted.words.as_ptr(),
            wanted.words.len(),
            pages_given.as_mut_ptr(),
            pages_given.len(),
            counts_given.as_mut_ptr(),
            counts_given.len(),
        )
    };
    assert_eq!((given.refusal, given.found), (0, plain.found));
    assert_eq!((given.full, given.next), (plain.full, plain.next));
    assert_eq!((pages_given, counts_given), (pages, counts));
}

/// Screens of some words from the start on, at bounds at random, and from behind the last page on.
fn compare_screens(random: &mut Random, card: &[u8], card_pages: u32) {
    let terms = check_index(card).expect("the card is good");
    for number in 0..12 {
        let bound = match number {
            0 => 0,
            1 => card_pages,
            _ => random.from_to(0, card_pages),
        };
        let most = random.pick(&[1, 10, 64]);
        let words = (0..random.from_to(1, 4))
            .map(|_| random.place(terms.len()) as u32)
            .collect();
        compare_screen(card, &terms, &Wanted { bound, most, words });
    }
}

/// Cards of four words each; runs and gaps decide how the upper runs look.
fn compare_cards(card_pages: u32, run: u32, gap: u32, most: usize, positions: u32) {
    for seed in 0..4 {
        let mut random = Random::of_case(seed, u64::from(run), u64::from(gap));
        let mut words: Vec<Word> = (0..4)
            .map(|i| {
                let on = pages(&mut random, card_pages, run, gap >> i, most);
                word(&mut random, on, positions)
            })
            .collect();
        words.push(Word::default());
        for edition in Edition::ALL {
            let card = card_of(edition, card_pages, &words);
            assert_eq!(unsafe { peer_check_index(card.as_ptr(), card.len()) }, 0);
            compare(&card, &questions(&mut random, card_pages, &words));
            compare_screens(&mut random, &card, card_pages);
        }
    }
}

#[test]
fn long_runs_of_neighbours() {
    compare_cards(16_777_216, 3_000, 2_000_000, 12_000, 2);
    compare_cards(400_000, 900, 30_000, 12_000, 2);
}

#[test]
fn single_pages_far_apart() {
    compare_cards(16_777_216, 1, 9_000, 12_000, 2);
    compare_cards(300_000, 2, 300, 12_000, 2);
}

#[test]
fn dense_lists() {
    compare_cards(12_000, 5, 2, 12_000, 2);
    compare_cards(12_000, 40, 2, 12_000, 1);
}

#[test]
fn many_positions_on_a_page() {
    compare_cards(200, 5, 4, 200, 400);
    compare_cards(2_000, 3, 9, 2_000, 12);
}
