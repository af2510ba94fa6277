//! What a list inside a term was refused for, as far as its form or its version has to do with it.

use crate::plain::bitmap;
use crate::plain::bits::bytes_to_run;
use crate::plain::bytes::{next_part, number_at};
use crate::plain::edition::{is_dense, Edition, Form, Place};
use crate::plain::list::{check_list_of, LIST_HEADER};
use crate::plain::term::TERM_OPENING;
use crate::plain::{refusal, GREATEST_BOUND};

/// Something about the first list of a term that was refused.
#[derive(Clone, Copy, Debug, PartialEq, Eq)]
pub enum Fault {
    /// Its version is that of no form.
    Unknown,
    /// The same with U over its limit.
    UnknownBeforeLimit,
    /// U is over its limit, in a form that is wrong there for any U.
    LimitBeforeForm,
    /// n is above U, in a form that is wrong there for any n.
    CountBeforeForm,
    /// A bitmap for version 1.
    BitmapInFirst,
    /// Runs for dense pages of version 2.
    RunsForDense,
    /// A bitmap for pages that are not dense.
    BitmapNotDense,
    /// A bitmap without a page.
    BitmapOfNone,
    /// A bitmap for counts.
    BitmapForCounts,
    /// A bitmap for positions.
    BitmapForPositions,
    /// A form in the wrong place, whose length is wrong too.
    FormBeforeLength,
    /// A bitmap of a wrong length.
    Length,
    /// A number of a bitmap is wrong alone.
    Number,
    /// A spare bit of a bitmap is set.
    Spare,
    /// A bitmap has not n ones.
    Ones,
}

impl Fault {
    /// Every fault, with what is counted as the report names it.
    pub const NAMED: [(Fault, &'static str); 15] = [
        (Fault::Unknown, "terms refused for a list's version"),
        (
            Fault::UnknownBeforeLimit,
            "terms refused for a list's version with U over its limit",
        ),
        (
            Fault::LimitBeforeForm,
            "terms refused for U with a form in the wrong place",
        ),
        (
            Fault::CountBeforeForm,
            "terms refused for n above U with a form in the wrong place",
        ),
        (Fault::BitmapInFirst, "bitmaps refused in version 1"),
        (Fault::RunsForDense, "runs refused for dense pages"),
        (Fault::BitmapNotDense, "bitmaps refused for pages not dense"),
        (Fault::BitmapOfNone, "bitmaps refused without a page"),
        (Fault::BitmapForCounts, "bitmaps refused for counts"),
        (Fault::BitmapForPositions, "bitmaps refused for positions"),
        (
            Fault::FormBeforeLength,
            "forms in the wrong place refused with a wrong length",
        ),
        (Fault::Length, "bitmaps refused for their length"),
        (Fault::Number, "bitmaps refused for a number alone"),
        (Fault::Spare, "bitmaps refused for a spare bit"),
        (Fault::Ones, "bitmaps refused for their ones"),
    ];
}

/// A list block in its place, its header read.
struct Part<'a> {
    place: Place,
    block: &'a [u8],
    bound: u32,
    count: u32,
}

impl Part<'_> {
    fn body(&self) -> &[u8] {
        &self.block[LIST_HEADER..]
    }

    /// Whether the form is wrong in its place, whatever U and n are.
    fn is_never_right(&self, edition: Edition, form: Form) -> bool {
        form == Form::Bitmap && (edition == Edition::First || self.place != Place::Pages)
    }
}

/// The faults of the first list that is refused in a term of this edition, the term's own bytes being good.
pub fn term_faults(edition: Edition, block: &[u8]) -> Vec<Fault> {
    let mut rest = &block[TERM_OPENING..];
    for place in Place::ALL {
        let Ok(block) = next_part(&mut rest, LIST_HEADER) else {
            break;
        };
        let is_right = |form, bound, count| form == edition.form(place, bound, count);
        if let Err(refused) = check_list_of(block, &Form::ALL, is_right) {
            let part = Part {
                place,
                block,
                bound: number_at(block, 5),
                count: number_at(block, 9),
            };
            return list_faults(edition, &part, refused);
        }
    }
    Vec::new()
}

fn list_faults(edition: Edition, part: &Part, refused: u32) -> Vec<Fault> {
    let Ok(form) = Form::of_version(part.block[4], &Form::ALL) else {
        let over = part.bound > GREATEST_BOUND;
        return vec![if over {
            Fault::UnknownBeforeLimit
        } else {
            Fault::Unknown
        }];
    };
    let never_right = part.is_never_right(edition, form);
    match refused {
        refusal::LIMIT if never_right => vec![Fault::LimitBeforeForm],
        refusal::SIZE if never_right => vec![Fault::CountBeforeForm],
        refusal::VERSION => {
            let any_form = check_list_of(part.block, &Form::ALL, |_, _, _| true);
            let also_length = (any_form == Err(refusal::SIZE)).then_some(Fault::FormBeforeLength);
            let cause = misplaced(edition, part, form);
            [cause].into_iter().chain(also_length).collect()
        }
        refusal::SIZE if form == Form::Bitmap && part.count <= part.bound => vec![Fault::Length],
        refusal::RUNS if form == Form::Bitmap => bitmap_faults(part).into_iter().collect(),
        _ => Vec::new(),
    }
}

/// Why a known form is in the wrong place.
fn misplaced(edition: Edition, part: &Part, form: Form) -> Fault {
    match (form, edition, part.place) {
        (Form::Runs, ..) => Fault::RunsForDense,
        (_, Edition::First, _) => Fault::BitmapInFirst,
        (_, _, Place::Counts) => Fault::BitmapForCounts,
        (_, _, Place::Positions) => Fault::BitmapForPositions,
        _ if part.count == 0 => Fault::BitmapOfNone,
        _ => Fault::BitmapNotDense,
    }
}

/// The one thing that is wrong with a bitmap of the right length.
fn bitmap_faults(part: &Part) -> Option<Fault> {
    debug_assert!(is_dense(part.bound, part.count as usize));
    let map = bytes_to_run(&part.body()[4 * bitmap::numbers(part.bound)..]);
    let (used, spare) = map.split_at(part.bound as usize);
    let ones = used.iter().filter(|bit| **bit).count();
    match (spare.contains(&true), ones == part.count as usize) {
        (true, true) => Some(Fault::Spare),
        (false, false) => Some(Fault::Ones),
        (false, true) => Some(Fault::Number),
        (true, false) => None,
    }
}

#[cfg(test)]
mod tests {
    use super::*;
    use crate::gen::cards::Word;
    use crate::plain::term::Term;

    fn dense_term(edition: Edition) -> Term {
        let mut word = Word::nowhere();
        (0..3).for_each(|page| word.stand(page, &[0]));
        word.term(edition, 8)
    }

    #[test]
    fn each_place_of_a_wrong_form_is_told() {
        use Form::{Bitmap, Runs};
        let faults = |edition, forms| term_faults(edition, &dense_term(edition).block_in(forms));
        let (first, second) = (Edition::First, Edition::Second);
        assert_eq!(faults(first, [Runs; 3]), []);
        assert_eq!(faults(second, [Bitmap, Runs, Runs]), []);
        assert_eq!(faults(first, [Bitmap, Runs, Runs]), [Fault::BitmapInFirst]);
        assert_eq!(faults(first, [Runs, Bitmap, Runs]), [Fault::BitmapInFirst]);
        assert_eq!(faults(second, [Runs; 3]), [Fault::RunsForDense]);
        assert_eq!(
            faults(second, [Bitmap, Bitmap, Runs]),
            [Fault::BitmapForCounts]
        );
        assert_eq!(
            faults(second, [Bitmap, Runs, Bitmap]),
            [Fault::BitmapForPositions]
        );
    }
}
