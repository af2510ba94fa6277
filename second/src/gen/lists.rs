//! Valid lists of every shape.

use super::random::Random;
use crate::plain::edition::is_dense;
use crate::plain::list::List;
use crate::plain::GREATEST_BOUND;

/// The greatest low width that a list within the limits has.
pub const GREATEST_WIDTH: u32 = 24;

/// A valid list of some shape.
pub fn list(random: &mut Random) -> List {
    match random.from_to(0, 23) {
        0 => empty(random),
        1 => full(random),
        2 | 3 => dense(random),
        4..=7 => of_any_width(random),
        8..=10 => with_pointers(random),
        11 | 12 => with_last_pointer_at_end(random),
        13 | 14 => tiny(random),
        15 | 16 => sparse(random),
        17 | 18 => of_any_bound(random),
        19..=21 => at_density_edge(random),
        22 => around_whole_numbers(random),
        _ => large(random),
    }
}

/// A bound of some size, from 0 to the limit.
pub fn bound(random: &mut Random) -> u32 {
    match random.from_to(0, 9) {
        0 => random.from_to(0, 3),
        1 | 2 => random.from_to(1, 70),
        3 | 4 => random.from_to(71, 3_000),
        5 => random.from_to(3_001, GREATEST_BOUND),
        6 => GREATEST_BOUND,
        7 => GREATEST_BOUND - random.from_to(0, 300),
        8 => near_power(random),
        _ => 256 * random.from_to(1, 16),
    }
}

fn near_power(random: &mut Random) -> u32 {
    let power = 1 << random.from_to(1, GREATEST_WIDTH);
    random
        .pick(&[power, power - 1, power + 1])
        .min(GREATEST_BOUND)
}

/// A list of so many elements below a bound, spread in some way.
pub fn spread(random: &mut Random, bound: u32, count: u32) -> List {
    let elements = match random.from_to(0, 7) {
        0 => (0..count).collect(),
        1 => (bound - count..bound).collect(),
        2 | 3 => clustered(random, bound, count),
        4 => evenly(bound, count),
        _ => uniform(random, bound, count),
    };
    List { bound, elements }
}

/// So many numbers, each set of them as likely as any other.
pub fn uniform(random: &mut Random, bound: u32, count: u32) -> Vec<u32> {
    if u64::from(count) * 32 < u64::from(bound) {
        let draw = |random: &mut Random| random.from_to(0, bound - 1);
        return distinct(random, count, draw);
    }
    let mut wanted = count;
    let mut numbers = Vec::with_capacity(count as usize);
    for x in 0..bound {
        if wanted > 0 && random.from_to(1, bound - x) <= wanted {
            numbers.push(x);
            wanted -= 1;
        }
    }
    numbers
}

fn distinct(random: &mut Random, count: u32, draw: impl Fn(&mut Random) -> u32) -> Vec<u32> {
    let mut numbers = std::collections::BTreeSet::new();
    while numbers.len() < count as usize {
        numbers.insert(draw(random));
    }
    numbers.into_iter().collect()
}

/// Runs of neighbours with gaps between them.
fn clustered(random: &mut Random, bound: u32, count: u32) -> Vec<u32> {
    let mut room_left = bound - count;
    let mut next = 0;
    let mut numbers = Vec::with_capacity(count as usize);
    while numbers.len() < count as usize {
        let gap = random
            .from_to(0, room_left)
            .min(random.from_to(0, room_left));
        room_left -= gap;
        next += gap;
        let run = random.from_to(1, 80).min(count - numbers.len() as u32);
        numbers.extend(next..next + run);
        next += run;
    }
    numbers
}

/// So many numbers at equal distances.
pub fn evenly(bound: u32, count: u32) -> Vec<u32> {
    let place = |i| (u64::from(i) * u64::from(bound) / u64::from(count)) as u32;
    (0..count).map(place).collect()
}

fn empty(random: &mut Random) -> List {
    let bound = bound(random);
    List {
        bound,
        elements: Vec::new(),
    }
}

fn full(random: &mut Random) -> List {
    let bound = random.from_to(1, 900);
    spread(random, bound, bound)
}

fn dense(random: &mut Random) -> List {
    let bound = random.from_to(2, 2_500);
    let missing = random
        .from_to(0, bound / 2)
        .min(random.from_to(0, bound / 2));
    spread(random, bound, bound - missing)
}

fn sparse(random: &mut Random) -> List {
    let bound = random.from_to(1_000_000, GREATEST_BOUND);
    let count = random.from_to(1, 12);
    let mut list = spread(random, bound, count);
    let last = list.elements.len() - 1;
    if random.once_in(2) {
        list.elements[last] = bound - 1;
    }
    list
}

fn tiny(random: &mut Random) -> List {
    let bound = random.from_to(0, 9);
    let elements = (0..bound).filter(|_| random.once_in(2)).collect();
    List { bound, elements }
}

fn of_any_bound(random: &mut Random) -> List {
    let bound = bound(random);
    let count = random.from_to(0, bound.min(300));
    spread(random, bound, count)
}

fn large(random: &mut Random) -> List {
    let count = match random.once_in(100) {
        true => random.from_to(50_000, 300_000),
        false => random.from_to(3_000, 12_000),
    };
    let bound = random.from_to(count, GREATEST_BOUND);
    spread(random, bound, count)
}

/// The most elements of a list at the edge of density.
const MOST_AT_EDGE: u32 = 3_000;

/// The fewest elements of a dense list below a bound that is not 0.
pub fn least_dense(bound: u32) -> u32 {
    let (mut below, mut dense) = (0, bound);
    while dense - below > 1 {
        let middle = below + (dense - below) / 2;
        match is_dense(bound, middle as usize) {
            true => dense = middle,
            false => below = middle,
        }
    }
    dense
}

/// As many elements as make a list dense, or one too few, or one more.
pub fn count_at_density_edge(random: &mut Random, bound: u32) -> u32 {
    let least = least_dense(bound);
    random.pick(&[least - 1, least, least, (least + 1).min(bound)])
}

fn at_density_edge(random: &mut Random) -> List {
    let bound = match random.from_to(0, 3) {
        0 => random.from_to(1, 40),
        1 => random.from_to(1, 1_100),
        2 => near_multiple_of_256(random),
        _ => bound(random).clamp(1, 4 * MOST_AT_EDGE),
    };
    let count = count_at_density_edge(random, bound);
    spread(random, bound, count)
}

fn near_multiple_of_256(random: &mut Random) -> u32 {
    256 * random.from_to(1, 12) - 1 + random.from_to(0, 2)
}

/// A dense list whose bound is a multiple of 256 or next to one, with and without the last numbers below it.
pub fn around_whole_numbers(random: &mut Random) -> List {
    let bound = near_multiple_of_256(random);
    let some = random.from_to(least_dense(bound), bound);
    let count = random.pick(&[some, some, bound, bound - 1]);
    spread(random, bound, count)
}

/// A list of one chosen low width.
pub fn of_width(random: &mut Random, width: u32, count: u32) -> List {
    let least = count << width;
    let most = (2 * least - 1).min(GREATEST_BOUND);
    let bound = match random.from_to(0, 3) {
        0 => least,
        1 => most,
        _ => random.from_to(least, most),
    };
    spread(random, bound, count)
}

fn of_any_width(random: &mut Random) -> List {
    let width = random.from_to(0, GREATEST_WIDTH);
    let count = random.from_to(1, (GREATEST_BOUND >> width).min(60));
    of_width(random, width, count)
}

fn with_pointers(random: &mut Random) -> List {
    let width = random.from_to(0, 15);
    let count = random.from_to(256, (GREATEST_BOUND >> width).min(1_200));
    of_width(random, width, count)
}

fn with_last_pointer_at_end(random: &mut Random) -> List {
    let width = random.from_to(0, 6);
    let bound = ((256 * random.from_to(1, 3)) << width) + random.from_to(0, (1 << width) - 1);
    let count = count_for_width(random, bound, width);
    let below = random.pick(&[bound, bound >> width << width]);
    let elements = spread(random, below, count).elements;
    List { bound, elements }
}

/// A number of elements that gives a bound, at least 2 to the width, this low width.
pub fn count_for_width(random: &mut Random, bound: u32, width: u32) -> u32 {
    random.from_to((bound >> (width + 1)) + 1, bound >> width)
}

#[cfg(test)]
mod tests {
    use super::*;

    #[test]
    fn one_element_less_than_the_fewest_is_not_dense() {
        for bound in (1..2_000).chain([65_536, GREATEST_BOUND - 1, GREATEST_BOUND]) {
            let least = least_dense(bound) as usize;
            assert!(is_dense(bound, least), "{bound}");
            assert!(!is_dense(bound, least - 1), "{bound}");
        }
    }
}
