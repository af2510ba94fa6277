//! How a seek moves and what it counts, on the list itself.

use super::edition::Form;
use super::list::{List, Shape};

/// Where a cursor stands on its list.
#[derive(Clone, Copy, Debug, PartialEq, Eq)]
pub enum Cursor {
    /// No seek has been made.
    Fresh,
    /// On the element of this number.
    On(usize),
    /// A seek has answered none.
    Spent,
}

/// A list in the form of its block.
#[derive(Clone, Copy, Debug, PartialEq, Eq)]
pub struct Formed<'a> {
    /// The list.
    pub list: &'a List,
    /// Its form.
    pub form: Form,
    shape: Option<Shape>,
}

impl<'a> Formed<'a> {
    /// The list in this form.
    pub fn of(list: &'a List, form: Form) -> Formed<'a> {
        let shape = list.shape();
        Formed { list, form, shape }
    }

    /// The bits that a seek walks over, if the list has elements: the upper run's, or the bitmap's.
    pub fn bits(self) -> usize {
        match (self.form, self.shape) {
            (_, None) => 0,
            (Form::Runs, Some(shape)) => self.list.elements.len() + shape.zeros,
            (Form::Bitmap, Some(_)) => self.list.bound as usize,
        }
    }

    /// The bit of the element of this number.
    pub fn bit_of(self, number: usize) -> usize {
        let element = self.list.elements[number];
        match (self.form, self.shape) {
            (Form::Runs, Some(shape)) => (element >> shape.width) as usize + number,
            _ => element as usize,
        }
    }

    /// The bit that a seek for this bound can begin with, wherever its cursor stands.
    fn first_bit(self, bound: u32) -> usize {
        match (self.form, self.shape) {
            (Form::Runs, Some(shape)) => {
                let number = (bound >> shape.width) as usize / 256;
                pointer(self.list, shape, number)
            }
            _ => bound as usize,
        }
    }
}

/// Seeks for `bound`: moves the cursor, gives the element found and the looks.
pub fn seek(on: Formed, cursor: &mut Cursor, bound: u32) -> (Option<u32>, u32) {
    let list = on.list;
    if let Cursor::On(i) = *cursor {
        if list.elements[i] >= bound {
            return (Some(list.elements[i]), 0);
        }
    }
    let goes_nowhere = *cursor == Cursor::Spent || list.elements.is_empty() || bound >= list.bound;
    let walk = match goes_nowhere {
        true => Walk::NOWHERE,
        false => Walk::of(on, *cursor, bound),
    };
    *cursor = walk.found.map_or(Cursor::Spent, Cursor::On);
    (walk.found.map(|i| list.elements[i]), walk.looks)
}

/// A walk over the upper run or the bitmap: the number of the element found, and the looks.
struct Walk {
    found: Option<usize>,
    looks: u32,
}

impl Walk {
    const NOWHERE: Walk = Walk {
        found: None,
        looks: 0,
    };

    fn of(on: Formed, cursor: Cursor, bound: u32) -> Walk {
        let (first, own_bit) = match cursor {
            Cursor::On(i) => (i, on.bit_of(i)),
            _ => (0, 0),
        };
        let start = own_bit.max(on.first_bit(bound));
        if start == on.bits() {
            return Walk::NOWHERE;
        }
        let elements = &on.list.elements;
        let found =
            (first..elements.len()).find(|i| on.bit_of(*i) >= start && elements[*i] >= bound);
        let last_bit = found.map_or(on.bits() - 1, |i| on.bit_of(i));
        Walk {
            found,
            looks: (last_bit / 64 - start / 64 + 1) as u32,
        }
    }
}

/// The bit place just after zero number 256 times `number`: the zeros up to
/// it, and the elements whose bits come before it.
fn pointer(list: &List, shape: Shape, number: usize) -> usize {
    let zeros = 256 * number;
    let ones = list
        .elements
        .partition_point(|x| ((x >> shape.width) as usize) < zeros);
    zeros + ones
}

#[cfg(test)]
mod tests {
    use super::*;
    use crate::gen::lists;
    use crate::gen::random::Random;
    use crate::plain::bits::bytes_to_run;
    use crate::plain::bytes::number_at;

    fn fresh_seek(list: &List, bound: u32) -> (Option<u32>, u32) {
        seek(Formed::of(list, Form::Runs), &mut Cursor::Fresh, bound)
    }

    #[test]
    fn a_seek_on_a_bitmap_begins_at_the_bound() {
        let elements: Vec<u32> = (0..64).chain([200, 299]).collect();
        let list = List {
            bound: 300,
            elements,
        };
        let map = Formed::of(&list, Form::Bitmap);
        let fresh = |bound| seek(map, &mut Cursor::Fresh, bound);
        assert_eq!(fresh(0), (Some(0), 1));
        assert_eq!(fresh(63), (Some(63), 1));
        assert_eq!(fresh(64), (Some(200), 3));
        assert_eq!(fresh(128), (Some(200), 2));
        assert_eq!(fresh(192), (Some(200), 1));
        assert_eq!(fresh(201), (Some(299), 2));
        assert_eq!(fresh(300), (None, 0));
        let mut cursor = Cursor::Fresh;
        assert_eq!(seek(map, &mut cursor, 5), (Some(5), 1));
        assert_eq!(seek(map, &mut cursor, 3), (Some(5), 0));
        assert_eq!(seek(map, &mut cursor, 130), (Some(200), 2));
    }

    #[test]
    fn a_seek_on_a_bitmap_that_finds_none_looks_up_to_the_last_word() {
        let list = List {
            bound: 257,
            elements: (0..100).collect(),
        };
        let mut cursor = Cursor::Fresh;
        let map = Formed::of(&list, Form::Bitmap);
        assert_eq!(seek(map, &mut cursor, 127), (None, 4));
        assert_eq!(seek(map, &mut cursor, 0), (None, 0));
        assert_eq!(seek(map, &mut Cursor::Fresh, 256), (None, 1));
    }

    #[test]
    fn both_forms_find_the_same() {
        let mut random = Random::of_case(9, 0, 0);
        for _ in 0..600 {
            let list = lists::list(&mut random);
            let mut cursors = [Cursor::Fresh; 2];
            for _ in 0..6 {
                let bound = random.from_to(0, list.bound);
                let [runs, map] = &mut cursors;
                let in_runs = seek(Formed::of(&list, Form::Runs), runs, bound).0;
                assert_eq!(seek(Formed::of(&list, Form::Bitmap), map, bound).0, in_runs);
                assert_eq!(runs, map);
            }
        }
    }

    #[test]
    fn s8_has_two_looks_for_299_and_eight_for_255() {
        let list = List {
            bound: 300,
            elements: (0..300).collect(),
        };
        assert_eq!(fresh_seek(&list, 299), (Some(299), 2));
        assert_eq!(fresh_seek(&list, 255), (Some(255), 8));
    }

    #[test]
    fn s5_to_s7_find_21_and_43_and_none() {
        let list = List {
            bound: 44,
            elements: vec![3, 4, 7, 13, 14, 15, 21, 43],
        };
        assert_eq!(fresh_seek(&list, 16), (Some(21), 1));
        assert_eq!(fresh_seek(&list, 43), (Some(43), 1));
        assert_eq!(fresh_seek(&list, 44), (None, 0));
    }

    #[test]
    fn a_seek_that_starts_at_the_end_of_the_run_looks_at_nothing() {
        let list = List {
            bound: 513,
            elements: (0..256).map(|i| 2 * i).collect(),
        };
        let shape = list.shape().expect("it has elements");
        assert_eq!((shape.width, shape.zeros), (1, 256));
        assert_eq!(fresh_seek(&list, 512), (None, 0));
    }

    #[test]
    fn a_seek_in_a_packed_list_walks_far() {
        let packed = |count| List {
            bound: 1 << 24,
            elements: (0..count).collect(),
        };
        let found = fresh_seek(&packed(1 << 16), 65_535);
        assert_eq!(found, (Some(65_535), 1_028));
        let none = fresh_seek(&packed(1 << 20), (1 << 20) + 1);
        assert_eq!(none, (None, 15_360));
    }

    /// What a seek tells with its answer: the rank of the element found, or n.
    fn told(list: &List, cursor: Cursor) -> usize {
        match cursor {
            Cursor::On(rank) => rank,
            _ => list.elements.len(),
        }
    }

    #[test]
    fn bounds_that_never_go_down_are_told_the_elements_below() {
        let mut random = Random::of_case(8, 0, 0);
        for _ in 0..600 {
            let list = lists::list(&mut random);
            let mut cursor = Cursor::Fresh;
            let mut bound = 0;
            for _ in 0..4 {
                bound = random.from_to(bound, list.bound);
                seek(Formed::of(&list, Form::Runs), &mut cursor, bound);
                let below = list.elements.iter().filter(|x| **x < bound).count();
                assert_eq!(told(&list, cursor), below);
            }
        }
    }

    #[test]
    fn a_lower_bound_is_told_where_the_cursor_stands() {
        let list = List {
            bound: 44,
            elements: vec![3, 4, 7, 13, 14, 15, 21, 43],
        };
        let mut cursor = Cursor::Fresh;
        for (bound, found, number) in [
            (16, Some(21), 6),
            (0, Some(21), 6),
            (44, None, 8),
            (0, None, 8),
        ] {
            let on = Formed::of(&list, Form::Runs);
            assert_eq!(seek(on, &mut cursor, bound).0, found);
            assert_eq!(told(&list, cursor), number);
        }
    }

    /// The seek as a walk over the block's bits, its pointers read from it.
    fn walked(list: &List, from: Option<usize>, bound: u32) -> (Option<u32>, u32) {
        let block = list.block();
        let shape = list.shape().expect("it has elements");
        let run_end = list.elements.len() + shape.zeros;
        let upper = bytes_to_run(&block[block.len() - run_end.div_ceil(64) * 8..]);
        let pointer = match (bound >> shape.width) / 256 {
            0 => 0,
            number => number_at(&block, 13 + 4 * (number as usize - 1)) as usize,
        };
        let start = pointer.max(from.unwrap_or(0));
        let mut rank = upper[..start].iter().filter(|bit| **bit).count();
        for (place, bit) in upper.iter().enumerate().take(run_end).skip(start) {
            if *bit {
                if list.elements[rank] >= bound {
                    let looks = place / 64 - start / 64 + 1;
                    return (Some(list.elements[rank]), looks as u32);
                }
                rank += 1;
            }
        }
        let looks = match start == run_end {
            true => 0,
            false => (run_end - 1) / 64 - start / 64 + 1,
        };
        (None, looks as u32)
    }

    #[test]
    fn seeks_agree_with_a_walk_over_the_bits() {
        let mut random = Random::of_case(7, 0, 0);
        for _ in 0..600 {
            let list = lists::list(&mut random);
            let Some(shape) = list.shape() else { continue };
            let first = random.from_to(0, list.bound - 1);
            let second = random.from_to(first, list.bound - 1);
            let mut cursor = Cursor::Fresh;
            let on = Formed::of(&list, Form::Runs);
            let found = seek(on, &mut cursor, first);
            assert_eq!(found, walked(&list, None, first));
            if let Cursor::On(i) = cursor {
                if list.elements[i] < second {
                    let bit = (list.elements[i] >> shape.width) as usize + i;
                    let found = seek(on, &mut cursor, second);
                    assert_eq!(found, walked(&list, Some(bit), second));
                }
            }
        }
    }
}
