//! The body of a bitmap block: the numbers, then one bit for each number below U.

use super::bits::{bytes_for_bits, bytes_to_run, run_to_bytes};
use super::bytes::push_number;
use super::list::List;
use super::refusal;

/// The bits from one of a bitmap's numbers to the next.
pub const BITS_PER_NUMBER: u32 = 256;

/// How many numbers a bitmap of this U has.
pub fn numbers(bound: u32) -> usize {
    (bound / BITS_PER_NUMBER) as usize
}

/// The bytes of a bitmap's body.
pub fn body_length(bound: u32) -> usize {
    4 * numbers(bound) + bytes_for_bits(bound as usize)
}

/// The body of a valid list.
pub fn body(list: &List) -> Vec<u8> {
    let mut body = Vec::with_capacity(body_length(list.bound));
    for number in 1..=list.bound / BITS_PER_NUMBER {
        let below = |x: &u32| *x < number * BITS_PER_NUMBER;
        push_number(&mut body, list.elements.partition_point(below) as u32);
    }
    let mut map = vec![false; list.bound as usize];
    list.elements.iter().for_each(|x| map[*x as usize] = true);
    body.extend(run_to_bytes(&map));
    body
}

/// The elements of a body, if it is the one that they give, or refusal 5 or 6.
pub fn elements(bound: u32, count: usize, body: &[u8]) -> Result<Vec<u32>, u32> {
    if body.len() != body_length(bound) {
        return Err(refusal::SIZE);
    }
    let map = bytes_to_run(&body[4 * numbers(bound)..]);
    let ones = map.iter().zip(0..).filter(|(bit, _)| **bit);
    let elements = ones.map(|(_, place)| place).collect();
    let list = List { bound, elements };
    if list.elements.len() != count || !list.is_valid() || self::body(&list) != body {
        return Err(refusal::RUNS);
    }
    Ok(list.elements)
}

#[cfg(test)]
mod tests {
    use super::*;

    fn list(bound: u32, elements: &[u32]) -> List {
        let elements = elements.to_vec();
        List { bound, elements }
    }

    #[test]
    fn a_bit_is_its_page() {
        assert_eq!(body(&list(8, &[0, 3, 7])), [0, 0, 0, 0, 0, 0, 0, 0x89]);
    }

    #[test]
    fn a_number_counts_the_pages_below_its_multiple_of_256() {
        let dense: Vec<u32> = (250..=256).collect();
        assert_eq!(body(&list(257, &dense))[..4], [0, 0, 0, 6]);
        assert_eq!(body(&list(256, &dense[..6]))[..4], [0, 0, 0, 6]);
        assert_eq!(body(&list(255, &dense[..5])).len(), 32);
    }

    #[test]
    fn only_the_body_of_its_own_elements_is_taken() {
        let right = body(&list(257, &[0, 255, 256]));
        assert_eq!(elements(257, 3, &right), Ok(vec![0, 255, 256]));
        assert_eq!(elements(257, 2, &right), Err(refusal::RUNS));
        assert_eq!(elements(256, 3, &right), Err(refusal::SIZE));
        assert_eq!(elements(320, 3, &right), Ok(vec![0, 255, 256]));
        for bit in 0..8 * right.len() {
            let mut wrong = right.clone();
            wrong[bit / 8] ^= 1 << (bit % 8);
            assert_eq!(elements(257, 3, &wrong), Err(refusal::RUNS));
        }
    }
}
