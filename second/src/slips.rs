//! What the tests of libraries with a slip share: how many differences one makes, and the stored calls of a kind.

use crate::case::Case;
use crate::compare::{Other, Side};
use crate::stored;
use crate::text::Stored;
use std::fmt::Debug;
use std::path::PathBuf;

/// The number of differences that a side makes on some cases.
pub fn differences(side: Side, cases: &[Stored]) -> usize {
    let other = Other {
        side,
        program: None,
        scratch: PathBuf::new(),
    };
    let compared = cases.iter().filter_map(|case| other.compare(case));
    compared.filter(|done| done.difference.is_some()).count()
}

/// The stored calls of the cases that are asked for.
pub fn stored_calls(is_wanted: impl Fn(&Case) -> bool) -> Vec<Stored> {
    let edges = stored::edges().expect("the edges can be read");
    let edges = edges.into_iter().map(|(_, stored)| stored);
    edges.filter(|stored| is_wanted(&stored.case)).collect()
}

/// Each of these sets of calls is without a difference where there is no slip, and finds every slip.
pub fn are_found<S: Copy + Debug, C>(
    none: S,
    slips: &[S],
    sets: &[Vec<C>],
    differences: impl Fn(S, &[C]) -> usize,
) {
    for calls in sets {
        assert_eq!(differences(none, calls), 0);
        let unfound = slips.iter().filter(|slip| differences(**slip, calls) == 0);
        let unfound: Vec<&S> = unfound.collect();
        assert!(unfound.is_empty(), "not found: {unfound:?}");
    }
}
