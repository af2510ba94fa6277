//! One list: writing its block, and taking a block apart rule by rule.

use super::bitmap;
use super::bits::{bytes_for_bits, bytes_to_run, number_of_bits, run_to_bytes};
use super::bytes::{check_opening, number_at, push_number, put};
use super::edition::Form;
use super::{refusal, GREATEST_BOUND};

/// Bytes of a list's header.
pub const LIST_HEADER: usize = 13;

/// The zeros of the upper run from one pointer to the next.
pub const ZEROS_PER_POINTER: usize = 256;

/// Strictly increasing numbers, each below the bound U.
#[derive(Clone, Debug, PartialEq, Eq)]
pub struct List {
    /// U.
    pub bound: u32,
    /// The numbers themselves.
    pub elements: Vec<u32>,
}

/// What U and n at least 1 give: the low width and the zeros of the upper run.
#[derive(Clone, Copy, Debug, PartialEq, Eq)]
pub struct Shape {
    /// w.
    pub width: u32,
    /// Z.
    pub zeros: usize,
}

impl Shape {
    /// The shape of a list with `count` elements, from 1 to `bound`.
    pub fn of(bound: u32, count: usize) -> Shape {
        let share = bound / count as u32;
        let mut width = 0;
        while 1 << (width + 1) <= share {
            width += 1;
        }
        let zeros = (bound >> width) as usize;
        Shape { width, zeros }
    }

    /// The number of pointers.
    pub fn pointers(self) -> usize {
        self.zeros / ZEROS_PER_POINTER
    }
}

impl List {
    /// Whether the numbers rise strictly and stay below the bound.
    pub fn is_valid(&self) -> bool {
        is_rising(&self.elements) && self.elements.iter().all(|x| *x < self.bound)
    }

    /// The shape, if the list has an element.
    pub fn shape(&self) -> Option<Shape> {
        let count = self.elements.len();
        (count > 0).then(|| Shape::of(self.bound, count))
    }

    /// The last element plus 1, or 0.
    pub fn end(&self) -> u32 {
        self.elements.last().map_or(0, |last| last + 1)
    }

    /// The block of a valid list that is handled alone.
    pub fn block(&self) -> Vec<u8> {
        self.block_in(Form::Runs)
    }

    /// The block of a valid list in this form.
    pub fn block_in(&self, form: Form) -> Vec<u8> {
        let body = match form {
            Form::Runs => self.shape().map_or(Vec::new(), |shape| self.body(shape)),
            Form::Bitmap => bitmap::body(self),
        };
        let mut block = Vec::new();
        push_number(&mut block, (LIST_HEADER + body.len()) as u32);
        block.push(form.version());
        push_number(&mut block, self.bound);
        push_number(&mut block, self.elements.len() as u32);
        block.extend(body);
        block
    }

    fn body(&self, shape: Shape) -> Vec<u8> {
        let upper = self.upper_run(shape);
        let mut body = Vec::new();
        for pointer in places_after_zeros(&upper) {
            push_number(&mut body, pointer);
        }
        body.extend(run_to_bytes(&self.lower_run(shape)));
        body.extend(run_to_bytes(&upper));
        body
    }

    fn upper_run(&self, shape: Shape) -> Vec<bool> {
        let mut run = vec![false; self.elements.len() + shape.zeros];
        for (i, x) in self.elements.iter().enumerate() {
            run[(x >> shape.width) as usize + i] = true;
        }
        run
    }

    fn lower_run(&self, shape: Shape) -> Vec<bool> {
        let mut run = Vec::with_capacity(self.elements.len() * shape.width as usize);
        for x in &self.elements {
            run.extend((0..shape.width).map(|bit| x >> bit & 1 == 1));
        }
        run
    }
}

/// Whether each number is above the one before it.
pub fn is_rising(numbers: &[u32]) -> bool {
    numbers.windows(2).all(|pair| pair[0] < pair[1])
}

/// The place just after each 256th zero of a run.
pub fn places_after_zeros(run: &[bool]) -> Vec<u32> {
    let mut zeros = 0;
    let mut places = Vec::new();
    for (place, bit) in run.iter().enumerate() {
        if !bit {
            zeros += 1;
            if zeros % ZEROS_PER_POINTER == 0 {
                places.push(place as u32 + 1);
            }
        }
    }
    places
}

/// Writes a list's block into the room and gives its length, or a refusal.
pub fn write_list(bound: u32, elements: &[u32], room: &mut [u8]) -> Result<usize, u32> {
    if bound > GREATEST_BOUND {
        return Err(refusal::LIMIT);
    }
    let list = List {
        bound,
        elements: elements.to_vec(),
    };
    if !list.is_valid() {
        return Err(refusal::INPUT);
    }
    put(&list.block(), room)
}

/// Takes the block of a list that is handled alone apart, or gives the first refusal.
pub fn check_list(block: &[u8]) -> Result<List, u32> {
    check_list_of(block, &[Form::Runs], |_, _, _| true)
}

/// Takes a block apart into its list, where these forms are known and this tells whether one is right for U and n.
pub fn check_list_of(
    block: &[u8],
    known: &[Form],
    is_right: impl Fn(Form, u32, usize) -> bool,
) -> Result<List, u32> {
    let version = check_opening(block, LIST_HEADER)?;
    let form = Form::of_version(version, known)?;
    let bound = number_at(block, 5);
    let count = number_at(block, 9);
    if bound > GREATEST_BOUND {
        return Err(refusal::LIMIT);
    }
    if count > bound {
        return Err(refusal::SIZE);
    }
    let count = count as usize;
    if !is_right(form, bound, count) {
        return Err(refusal::VERSION);
    }
    let body = &block[LIST_HEADER..];
    let elements = match (form, count) {
        (Form::Bitmap, _) => bitmap::elements(bound, count, body)?,
        (Form::Runs, 0) if body.is_empty() => Vec::new(),
        (Form::Runs, 0) => return Err(refusal::SIZE),
        (Form::Runs, _) => Parts::cut(bound, count, body)?.elements()?,
    };
    Ok(List { bound, elements })
}

/// A body of the right length, cut into pointers and runs.
struct Parts {
    bound: u32,
    count: usize,
    shape: Shape,
    pointers: Vec<u32>,
    lower: Vec<bool>,
    upper: Vec<bool>,
}

impl Parts {
    fn cut(bound: u32, count: usize, body: &[u8]) -> Result<Parts, u32> {
        let shape = Shape::of(bound, count);
        let pointer_bytes = 4 * shape.pointers();
        let lower_bytes = bytes_for_bits(count * shape.width as usize);
        let upper_bytes = bytes_for_bits(count + shape.zeros);
        if body.len() != pointer_bytes + lower_bytes + upper_bytes {
            return Err(refusal::SIZE);
        }
        let (pointers, runs) = body.split_at(pointer_bytes);
        let (lower, upper) = runs.split_at(lower_bytes);
        Ok(Parts {
            bound,
            count,
            shape,
            pointers: pointers.chunks(4).map(|four| number_at(four, 0)).collect(),
            lower: bytes_to_run(lower),
            upper: bytes_to_run(upper),
        })
    }

    /// The elements, if every rule of a valid list holds.
    fn elements(&self) -> Result<Vec<u32>, u32> {
        let upper = self.without_spare(&self.upper, self.count + self.shape.zeros)?;
        let lower = self.without_spare(&self.lower, self.count * self.shape.width as usize)?;
        if upper.iter().filter(|bit| **bit).count() != self.count {
            return Err(refusal::RUNS);
        }
        let elements = self.spell(upper, lower);
        let in_order = is_rising(&elements) && elements.iter().all(|x| *x < self.bound);
        if !in_order || places_after_zeros(upper) != self.pointers {
            return Err(refusal::RUNS);
        }
        Ok(elements)
    }

    /// The used bits of a run, if no bit after them is set.
    fn without_spare<'a>(&self, run: &'a [bool], used: usize) -> Result<&'a [bool], u32> {
        let (run, spare) = run.split_at(used);
        if spare.contains(&true) {
            return Err(refusal::RUNS);
        }
        Ok(run)
    }

    /// The number each set bit stands for: the zeros before it, then its low part.
    fn spell(&self, upper: &[bool], lower: &[bool]) -> Vec<u32> {
        let width = self.shape.width as usize;
        let mut zeros = 0;
        let mut elements = Vec::with_capacity(self.count);
        for bit in upper {
            if *bit {
                let from = elements.len() * width;
                let low = number_of_bits(&lower[from..from + width]);
                elements.push((zeros << width) + low);
            } else {
                zeros += 1;
            }
        }
        elements
    }
}

#[cfg(test)]
mod tests {
    use super::*;
    use crate::case::Case;
    use crate::gen::calls::call;

    #[test]
    fn widths_and_zeros_of_the_samples() {
        let shape = |width, zeros| Shape { width, zeros };
        assert_eq!(Shape::of(44, 8), shape(2, 11));
        assert_eq!(Shape::of(1, 1), shape(0, 1));
        assert_eq!(Shape::of(4, 2), shape(1, 2));
        assert_eq!(Shape::of(300, 300), shape(0, 300));
        assert_eq!(Shape::of(16_777_216, 1), shape(24, 1));
    }

    #[test]
    fn a_block_is_accepted_exactly_if_its_list_gives_it_again() {
        let (mut accepted, mut refused) = (0, 0);
        for number in 0..6_000 {
            if let Case::CheckList { block } = call(11, number) {
                match check_list(&block) {
                    Ok(list) => {
                        accepted += 1;
                        assert!(list.is_valid());
                        assert_eq!(list.block(), block);
                    }
                    Err(refusal) => {
                        refused += 1;
                        assert!(refusal != refusal::RUNS || !loosely_written(&block));
                    }
                }
            }
        }
        assert!(accepted > 100 && refused > 100);
    }

    /// Whether some list gives this block, by reading it without any check.
    fn loosely_written(block: &[u8]) -> bool {
        let (bound, count) = (number_at(block, 5), number_at(block, 9) as usize);
        let parts = Parts::cut(bound, count, &block[LIST_HEADER..]).expect("its size is right");
        let ones = parts.upper.iter().filter(|bit| **bit).count();
        if ones != count {
            return false;
        }
        let elements = parts.spell(&parts.upper, &parts.lower);
        let list = List { bound, elements };
        list.is_valid() && list.block() == block
    }
}
