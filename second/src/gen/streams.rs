//! Sessions at random: words of every shape cut anywhere, and what a host can do wrong in between.

use super::cards::{self, Card, Word};
use super::random::Random;
use super::writing::{announced, runs, Host};
use super::{damage, editions, faulty_inputs, forgery, rooms};
use crate::compare::Decided;
use crate::plain::bits::place_of_bit;
use crate::plain::edition::Edition;
use crate::plain::stream::{Announced, Run};
use crate::plain::GREATEST_BOUND;

/// What goes wrong in a session.
#[derive(Clone, Copy, PartialEq, Eq)]
enum Trouble {
    /// Nothing.
    Nothing,
    /// Rooms are too short in between, and the host tries again.
    ShortRooms,
    /// Another word is announced.
    Announcement,
    /// A run is not valid.
    BadRun,
    /// Runs are left out, exchanged or handed over twice.
    Disorder,
    /// The host changes the session.
    Forgery,
    /// The host changes the room.
    ChangedRoom,
}

const TROUBLES: [Trouble; 7] = [
    Trouble::Nothing,
    Trouble::ShortRooms,
    Trouble::Announcement,
    Trouble::BadRun,
    Trouble::Disorder,
    Trouble::Forgery,
    Trouble::ChangedRoom,
];

/// The most bytes of a block that a room is lent for.
const LARGEST_BLOCK: usize = 1 << 19;

/// The session of this number for this seed.
pub fn session(seed: u64, number: u64) -> Vec<Decided> {
    let mut random = Random::of_case(seed, 7, number);
    let random = &mut random;
    let trouble = random.pick(&TROUBLES);
    let of_bitmap = trouble == Trouble::ChangedRoom && random.once_in(2);
    let (edition, (card_pages, word)) = match of_bitmap {
        true => (Edition::Second, cards::page_count_and_dense_word(random)),
        false => (
            editions::edition(random),
            cards::page_count_and_word(random),
        ),
    };
    match trouble {
        Trouble::Nothing | Trouble::ShortRooms => {
            good_session(random, edition, card_pages, &word, trouble)
        }
        _ => bad_session(random, edition, card_pages, &word, trouble),
    }
}

/// A session without trouble of the word of this number on a card.
pub fn session_of(random: &mut Random, card: &Card, word: usize) -> Vec<Decided> {
    let word = &card.words[word];
    good_session(random, card.edition, card.pages, word, Trouble::Nothing)
}

/// A session whose finished block is that of the whole-list writer.
fn good_session(
    random: &mut Random,
    edition: Edition,
    card_pages: u32,
    word: &Word,
    trouble: Trouble,
) -> Vec<Decided> {
    let block = word.term(edition, card_pages).block();
    let mut host = host_for(random, block.len());
    let size = |random: &mut Random, host: &Host| random.pick(&[block.len(), host.room.len()]);
    let first = size(random, &host);
    host.begin(announced(edition, card_pages, word), first);
    for run in cut_anywhere(random, word) {
        if trouble == Trouble::ShortRooms && random.once_in(2) {
            host.put(&run, short_of(random, block.len()));
        }
        let size = size(random, &host);
        host.put(&run, size);
    }
    if trouble == Trouble::ShortRooms {
        host.end(short_of(random, block.len()));
    }
    let last = size(random, &host);
    host.end_with(&block, last);
    make_further_calls(random, &mut host, word);
    host.into_calls()
}

/// A session in which something goes wrong, now and then.
fn bad_session(
    random: &mut Random,
    edition: Edition,
    card_pages: u32,
    word: &Word,
    trouble: Trouble,
) -> Vec<Decided> {
    let mut announced = announced(edition, card_pages, word);
    if trouble == Trouble::Announcement {
        change_announcement(random, &mut announced);
    }
    let whole = word.term(edition, card_pages).block().len();
    let needed = announced.block_length().unwrap_or(whole);
    let mut host = host_for(random, if needed > LARGEST_BLOCK { 0 } else { needed });
    let size = match random.once_in(8) {
        true => short_of(random, host.room.len()),
        false => host.room.len(),
    };
    host.begin(announced, size);
    let mut runs = cut_anywhere(random, word);
    if trouble == Trouble::Disorder {
        disorder(random, &mut runs);
    }
    for run in &mut runs {
        if !host.stream.goes_on() && !random.once_in(3) {
            break;
        }
        meet(random, &mut host, card_pages, run, trouble);
        let size = any_size(random, &host);
        host.put(run, size);
    }
    meet(random, &mut host, card_pages, &mut Run::default(), trouble);
    let size = any_size(random, &host);
    host.end(size);
    make_further_calls(random, &mut host, word);
    host.into_calls()
}

/// A host whose room has so many bytes, and in half the cases some more.
fn host_for(random: &mut Random, needed: usize) -> Host {
    let spare = match random.once_in(2) {
        true => 1 + random.place(40),
        false => 0,
    };
    Host::with(rooms::bytes(random, needed + spare))
}

/// A size below what is needed, often by one.
fn short_of(random: &mut Random, needed: usize) -> usize {
    let below = random.place(needed.max(1));
    random.pick(&[needed.saturating_sub(1), needed.saturating_sub(1), 0, below])
}

/// The room that the session needs, all there is, or too little.
fn any_size(random: &mut Random, host: &Host) -> usize {
    let all = host.room.len();
    let needed = host.stream.announced.block_length();
    match random.from_to(0, 9) {
        0 => short_of(random, needed.unwrap_or(all).min(all)),
        1..=4 => needed.map_or(all, |needed| needed.min(all)),
        _ => all,
    }
}

/// The word in one to nine runs.
fn cut_anywhere(random: &mut Random, word: &Word) -> Vec<Run> {
    let number = random.from_to(0, 8);
    let place = |_| random.place(word.pages.len() + 1);
    let mut cuts: Vec<usize> = (0..number).map(place).collect();
    cuts.sort_unstable();
    runs(word, &cuts)
}

/// Lets the trouble befall the next call, in some cases.
fn meet(random: &mut Random, host: &mut Host, card_pages: u32, run: &mut Run, trouble: Trouble) {
    if !random.once_in(3) {
        return;
    }
    match trouble {
        Trouble::BadRun => spoil(random, card_pages, run),
        Trouble::Forgery => {
            host.stream = forgery::forged(random, host.stream);
            fit_room(random, host);
        }
        Trouble::ChangedRoom => match host.stream.announced.bitmap() {
            Some(map) if random.once_in(2) && map.end <= host.room.len() => {
                change_map(random, &mut host.room[map]);
            }
            _ => change_room(random, &mut host.room),
        },
        _ => {}
    }
}

/// Makes one or a few things about a run wrong.
fn spoil(random: &mut Random, card_pages: u32, run: &mut Run) {
    let mut word = Word {
        pages: std::mem::take(&mut run.pages),
        counts: std::mem::take(&mut run.counts),
        positions: std::mem::take(&mut run.positions),
    };
    for _ in 0..damage::faults(random) {
        faulty_inputs::spoil_word(random, &mut card_pages.clone(), &mut word);
    }
    *run = Run {
        pages: word.pages,
        counts: word.counts,
        positions: word.positions,
    };
}

/// Lengthens the room for the session that the host has made up, in most cases.
fn fit_room(random: &mut Random, host: &mut Host) {
    let needed = host.stream.announced.block_length().unwrap_or(0);
    if needed > host.room.len() && needed <= LARGEST_BLOCK && !random.once_in(4) {
        let more = rooms::bytes(random, needed - host.room.len());
        host.room.extend(more);
    }
}

/// Writes into the room between two calls.
fn change_room(random: &mut Random, room: &mut [u8]) {
    match random.from_to(0, 4) {
        0 => room.fill(0),
        1 => room.fill(u8::MAX),
        2 => room.copy_from_slice(&random.bytes(room.len())),
        _ => {
            for _ in 0..random.from_to(1, 20) {
                if !room.is_empty() {
                    room[random.place(room.len())] ^= 1 << random.from_to(0, 7);
                }
            }
        }
    }
}

/// Fills a bitmap, or changes some of its bits, often the last of its words, which may be spare.
fn change_map(random: &mut Random, map: &mut [u8]) {
    if random.once_in(4) {
        return map.fill(u8::MAX);
    }
    let bits = 8 * map.len();
    for _ in 0..random.from_to(1, 9) {
        let place = match random.once_in(2) {
            true => bits - 1 - random.place(bits.min(64)),
            false => random.place(bits),
        };
        let (byte, bit) = place_of_bit(place);
        map[byte] ^= 1 << bit;
    }
}

/// Runs out of order, one too few or too many, or with a page that ends one and begins the next.
fn disorder(random: &mut Random, runs: &mut Vec<Run>) {
    let place = random.place(runs.len());
    let next = (place + 1).min(runs.len() - 1);
    match random.from_to(0, 4) {
        0 => drop(runs.remove(place)),
        1 => runs.insert(next, runs[place].clone()),
        2 => runs.swap(place, next),
        _ => {
            if let Some(last) = runs[place].pages.last().copied().filter(|_| place < next) {
                runs[next].pages.insert(0, last);
                runs[next].counts.insert(0, 1);
                runs[next].positions.insert(0, 0);
            }
        }
    }
}

/// Announces a number that is not the word's: one off, at a limit or past it, or that of another number.
fn change_announcement(random: &mut Random, announced: &mut Announced) {
    if random.once_in(6) {
        announced.version = editions::unknown(random);
        if random.once_in(2) {
            return;
        }
    }
    let Announced {
        card_pages,
        pages,
        positions,
        bound,
        ..
    } = *announced;
    for _ in 0..damage::faults(random) {
        let number = match random.from_to(0, 4) {
            0 => &mut announced.card_pages,
            1 => &mut announced.pages,
            2 => &mut announced.positions,
            _ => &mut announced.bound,
        };
        let near = random.pick(&[number.wrapping_add(1), number.wrapping_sub(1)]);
        let other = random.pick(&[card_pages, pages, positions, bound]);
        let limit = random.pick(&[GREATEST_BOUND, GREATEST_BOUND + 1]);
        *number = random.pick(&[near, near, near, near, other, other + 1, limit, 0, u32::MAX]);
    }
}

/// Calls after the end: with the session as it is, or with one that was given earlier.
fn make_further_calls(random: &mut Random, host: &mut Host, word: &Word) {
    let earlier = host.sessions();
    for _ in 0..random.from_to(0, 2) {
        if random.once_in(3) {
            host.stream = earlier[random.place(earlier.len())];
        }
        let size = any_size(random, host);
        match random.from_to(0, 4) {
            0 | 1 => host.put(&Run::default(), size),
            2 => host.put(&runs(word, &[])[0], size),
            _ => host.end(size),
        }
    }
}

#[cfg(test)]
mod tests {
    use super::*;

    #[test]
    fn good_sessions_give_the_block_of_the_whole_word() {
        let calls = (0..400).flat_map(|number| session(2, number));
        let closes = calls.filter(|call| call.stored.gives.is_some());
        let mut closed = 0;
        for Decided { stored, plain } in closes {
            assert_eq!(stored.gives.as_ref(), Some(&plain));
            assert_eq!(plain.refusal(), 0);
            closed += 1;
        }
        assert!(closed > 80);
    }
}
