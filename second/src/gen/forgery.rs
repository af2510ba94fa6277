//! Sessions that no call gave.

use super::editions;
use super::random::Random;
use crate::plain::stream::{Announced, Stream};
use crate::plain::GREATEST_BOUND;

/// A session made up out of the one that the host has.
pub fn forged(random: &mut Random, stream: Stream) -> Stream {
    let mut numbers = stream.numbers();
    let place = random.place(numbers.len());
    let number = numbers[place];
    match random.from_to(0, 10) {
        0..=2 => numbers[place] = random.pick(&[number.wrapping_add(1), number.wrapping_sub(1)]),
        3 | 4 => numbers[place] = special(random),
        5 => numbers[place] = random.bits() as u32,
        6 => numbers = random.pick(&[[u32::MAX; 10], [1; 10], [0; 10]]),
        7 => numbers = numbers.map(|_| random.bits() as u32),
        8 => return with_laid(random, stream),
        9 => return of_version(random, stream),
        _ => return with_far_base(random, stream),
    }
    Stream::of_numbers(numbers)
}

fn special(random: &mut Random) -> u32 {
    random.pick(&[0, 1, GREATEST_BOUND, GREATEST_BOUND + 1, 1 << 31, u32::MAX])
}

/// The same session with some of what is announced laid, or all of it, or one too many.
fn with_laid(random: &mut Random, stream: Stream) -> Stream {
    let announced = stream.announced;
    let laid = |random: &mut Random, all: u32, now: u32| {
        let some = random.from_to(0, all);
        random.pick(&[all, all, all.wrapping_add(1), some, now])
    };
    Stream {
        laid: laid(random, announced.pages, stream.laid),
        filled: laid(random, announced.positions, stream.filled),
        page: random.pick(&[0, stream.page, announced.card_pages]),
        base: random.pick(&[stream.base, announced.bound]),
        ..stream
    }
}

/// The same session, announced for an index of another version.
fn of_version(random: &mut Random, stream: Stream) -> Stream {
    let unknown = editions::unknown(random);
    let version = random.pick(&[1, 2, 2, unknown]);
    Stream {
        announced: Announced {
            version,
            ..stream.announced
        },
        ..stream
    }
}

/// The same session with a base so far out that sums of 32 bits come back below U.
fn with_far_base(random: &mut Random, stream: Stream) -> Stream {
    Stream {
        base: u32::MAX - random.from_to(0, 2),
        ..stream
    }
}
