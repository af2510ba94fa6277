//! Closings of an index whose length is past four bytes.
//!
//! The buffer is all zeros and is only asked for, never filled, so that it
//! costs addresses and no memory.

use crate::case::Kind;
use crate::host_calls::{HostCalls, Plain, Written};
use crate::tally::Tally;
use std::alloc::{alloc_zeroed, Layout};

/// One more than the greatest length of four bytes.
const PAST_FOUR_BYTES: usize = 1 << 32;

/// The buffer's length, which cut to four bytes is that of a header.
const BUFFER: usize = PAST_FOUR_BYTES + 11;

/// The used lengths, versions and numbers of terms that are tried.
const TRIED: [(usize, u32, u32); 7] = [
    (PAST_FOUR_BYTES - 1, 1, 0),
    (PAST_FOUR_BYTES - 1, 2, 1),
    (PAST_FOUR_BYTES, 1, 0),
    (PAST_FOUR_BYTES, 2, 0),
    (PAST_FOUR_BYTES, 3, 0),
    (PAST_FOUR_BYTES + 11, 1, 0),
    (PAST_FOUR_BYTES + 12, 3, 0),
];

/// Compares and counts the long closings. Gives a line for each difference,
/// or `None` if the addresses for such a buffer are not to be had.
pub fn compare(side: &dyn HostCalls, tally: &mut Tally) -> Option<Vec<String>> {
    let mut buffer = zeros(BUFFER)?;
    let mut differences = Vec::new();
    for (used, version, term_count) in TRIED {
        let plain = Plain.close_index(&mut buffer, used, version, 0, term_count);
        let given = side.close_index(&mut buffer, used, version, 0, term_count);
        tally.count_kind(Kind::CloseIndex, plain.refusal);
        if given != plain {
            differences.push(difference(
                [used, version as usize, term_count as usize],
                plain,
                given,
            ));
        }
    }
    if !is_all_zeros(&buffer) {
        differences.push("a refused long closing wrote to the buffer".to_string());
    }
    Some(differences)
}

fn difference(tried: [usize; 3], plain: Written, given: Written) -> String {
    let [used, version, term_count] = tried;
    format!(
        "close_index used {used} version {version} t {term_count}: {plain:?} expected, {given:?} given"
    )
}

/// Whether every byte is 0, a stretch at a time to be quick about it.
fn is_all_zeros(bytes: &[u8]) -> bool {
    let stretches = bytes.chunks(1 << 16);
    let any_bit = |stretch: &[u8]| stretch.iter().fold(0, |bits, byte| bits | byte);
    stretches.map(any_bit).all(|bits| bits == 0)
}

/// So many zeros, if there are addresses for them.
fn zeros(length: usize) -> Option<Box<[u8]>> {
    let layout = Layout::array::<u8>(length).ok()?;
    // The layout is not empty; a box of bytes is freed with the same layout,
    // and zeroed bytes are valid bytes.
    unsafe {
        let start = alloc_zeroed(layout);
        if start.is_null() {
            return None;
        }
        let whole = std::ptr::slice_from_raw_parts_mut(start, length);
        Some(Box::from_raw(whole))
    }
}
