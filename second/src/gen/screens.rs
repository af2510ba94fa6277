//! Screens: every bound of small cards, screens joined until one is not full, and what a host can ask wrong.

use super::cards::{self, Card, Word};
use super::panel::Panel;
use super::random::Random;
use super::raw::RawCard;
use super::{calls, lists, questions};
use crate::compare::Decided;
use crate::plain::index::check_index;
use crate::plain::screen::Wanted;
use crate::plain::term::Term;
use crate::plain::{GREATEST_BOUND, GREATEST_SCREEN, GREATEST_WORDS};

/// The most screens that are joined.
const MOST_JOINED: u32 = 40;

/// The most pages of a card whose every bound is asked for.
const SMALL: u32 = 30;

/// The pages before the last of a card that are asked for as bounds.
const ENDS: u32 = 33;

/// The calls for screens, and about them, of the card of this number for this seed.
pub fn set(seed: u64, number: u64) -> Vec<Decided> {
    let mut random = Random::of_case(seed, 9, number);
    let random = &mut random;
    match number % 5 {
        0 => every_bound(random),
        1 => joined(random),
        2 => at_the_ends(random),
        _ => at_random(random),
    }
}

/// Every bound of a small card with few and with many pages, and rooms of every size.
fn every_bound(random: &mut Random) -> Vec<Decided> {
    let card = small_card(random);
    let bytes = RawCard::of(&card).bytes();
    let terms = check_index(&bytes);
    let mut panel = panel_for(&bytes, &terms);
    let words = questions::terms(random, &card);
    let far = [GREATEST_BOUND - 1, GREATEST_BOUND, u32::MAX];
    let screen = |bound, most| {
        let words = words.clone();
        Wanted { bound, most, words }
    };
    for most in [1, 2, 3, GREATEST_SCREEN] {
        for bound in (0..=card.pages + 2).chain(far) {
            panel.show(random, screen(bound, most));
        }
        panel.show_in_each_room(random, screen(0, most));
    }
    for most in [0, GREATEST_SCREEN + 1, u32::MAX] {
        panel.show_in_each_room(random, screen(0, most));
    }
    panel.into_calls()
}

fn panel_for<'a>(card: &'a [u8], terms: &'a Result<Vec<Term>, u32>) -> Panel<'a> {
    Panel::of(card, terms.as_deref().map_err(|refusal| *refusal))
}

/// A card with few pages, and with words on none of them, on some and on all.
fn small_card(random: &mut Random) -> Card {
    let pages = random.from_to(0, SMALL);
    let mut words: Vec<Word> = Vec::new();
    for _ in 0..random.from_to(1, 9) {
        let some = random.from_to(0, pages);
        let count = random.pick(&[some, some, pages, pages.saturating_sub(1)]);
        let on = lists::spread(random, pages, count).elements;
        words.push(cards::word_on(random, on));
    }
    Card::of(random, pages, words)
}

/// The common pages of some words, asked for at once and screen by screen.
fn joined(random: &mut Random) -> Vec<Decided> {
    let card = card_with_words(random);
    let bytes = RawCard::of(&card).bytes();
    let terms = check_index(&bytes);
    let mut panel = panel_for(&bytes, &terms);
    let words = questions::terms(random, &card);
    let pages = panel.ask_common(&words);
    let all = pages.len() as u32;
    let any = random.from_to(1, GREATEST_SCREEN);
    let most = random.pick(&[1, 2, 3, GREATEST_SCREEN, any, all, all.div_ceil(2)]);
    let most = most.clamp(all.div_ceil(MOST_JOINED).max(1), GREATEST_SCREEN);
    panel.show_all(random, &words, most, &pages);
    panel.into_calls()
}

fn card_with_words(random: &mut Random) -> Card {
    loop {
        let card = cards::card(random);
        if !card.words.is_empty() {
            return card;
        }
    }
}

/// Bounds at the last pages of a card and behind them.
fn at_the_ends(random: &mut Random) -> Vec<Decided> {
    let card = match random.once_in(2) {
        true => cards::of_run_ends(random),
        false => far_card(random),
    };
    let bytes = RawCard::of(&card).bytes();
    let terms = check_index(&bytes);
    let mut panel = panel_for(&bytes, &terms);
    for bound in card.pages - ENDS..=card.pages + 1 {
        let words = match random.once_in(3) {
            true => questions::terms(random, &card),
            false => vec![random.place(card.words.len()) as u32],
        };
        let most = random.pick(&[1, 2, GREATEST_SCREEN]);
        panel.show(random, Wanted { bound, most, words });
    }
    panel.into_calls()
}

/// A card with N at its limit, whose words are all on its last page.
fn far_card(random: &mut Random) -> Card {
    let pages = GREATEST_BOUND;
    let mut words = Vec::new();
    for _ in 0..random.from_to(1, 3) {
        let count = random.from_to(0, 300);
        let mut on = lists::spread(random, pages - 1, count).elements;
        on.push(pages - 1);
        words.push(cards::word_on(random, on));
    }
    Card::of(random, pages, words)
}

/// Screens of any card, which is damaged in some cases, many of them wrong in some way.
fn at_random(random: &mut Random) -> Vec<Decided> {
    let card = cards::card(random);
    let raw = RawCard::of(&card);
    let bytes = match random.once_in(3) {
        true => calls::damaged_card(random, &card, raw),
        false => raw.bytes(),
    };
    let terms = check_index(&bytes);
    let mut panel = panel_for(&bytes, &terms);
    for _ in 0..random.from_to(1, 8) {
        let wanted = wanted(random, &card);
        panel.show_anywhere(random, wanted);
    }
    panel.into_calls()
}

/// A screen of this card, asked for wrongly in some cases.
pub fn wanted(random: &mut Random, card: &Card) -> Wanted {
    let mut wanted = good(random, card);
    for _ in 0..random.pick(&[0, 0, 0, 0, 1, 1, 2]) {
        spoil(random, card.words.len() as u32, &mut wanted);
    }
    wanted
}

/// A good screen; one without words of a card that has none.
pub fn good(random: &mut Random, card: &Card) -> Wanted {
    let any = random.from_to(1, GREATEST_SCREEN);
    let most = random.pick(&[1, 2, 3, any, GREATEST_SCREEN]);
    if card.words.is_empty() {
        let (bound, words) = (lists::bound(random), Vec::new());
        return Wanted { bound, most, words };
    }
    let words = questions::terms(random, card);
    let of_word = random.pick(&words);
    let bound = match random.once_in(6) {
        true => random.pick(&[card.pages + 1, GREATEST_BOUND - 1, GREATEST_BOUND]),
        false => questions::any_bound(random, card, of_word),
    };
    Wanted { bound, most, words }
}

/// Makes one thing about a screen wrong.
fn spoil(random: &mut Random, term_count: u32, wanted: &mut Wanted) {
    let most = random.pick(&[
        0,
        0,
        GREATEST_SCREEN + 1,
        GREATEST_SCREEN + 1,
        256,
        u32::MAX,
    ]);
    let other = random.pick(&[term_count, term_count, term_count + 65_536, u32::MAX]);
    match random.from_to(0, 5) {
        0..=2 => wanted.most = most,
        3 => wanted.words.clear(),
        4 => wanted.words.resize(GREATEST_WORDS + 1, 0),
        _ => match wanted.words.is_empty() {
            true => wanted.words.push(other),
            false => {
                let place = random.place(wanted.words.len());
                wanted.words[place] = other;
            }
        },
    }
}

#[cfg(test)]
mod tests {
    use super::*;

    #[test]
    fn screens_joined_are_the_common_pages_within_the_bounds_of_their_counts() {
        let mut joined = 0;
        for Decided { stored, plain } in (0..160).flat_map(|number| set(2, 5 * number + 1)) {
            if let Some(gives) = stored.gives {
                assert_eq!(gives, plain);
                joined += 1;
            }
        }
        assert!(joined > 800, "{joined}");
    }

    #[test]
    fn a_set_is_decided_as_calls_that_stand_alone() {
        for Decided { stored, plain } in (0..40).flat_map(|number| set(6, number)) {
            assert_eq!(crate::compare::plain_outcome(&stored.case), plain);
        }
    }
}
