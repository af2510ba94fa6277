//! The stored edges of document 01, and the small changes made to them.

use crate::case::{Case, Outcome};
use crate::text::{read_cases, Stored};
use std::path::PathBuf;

/// The folder of the stored edges.
pub fn folder() -> PathBuf {
    PathBuf::from(env!("CARGO_MANIFEST_DIR")).join("edges")
}

/// Every stored edge, with the file it stands in, in the order of the names.
pub fn edges() -> Result<Vec<(String, Stored)>, String> {
    let folder = folder();
    let listing = std::fs::read_dir(&folder).map_err(|e| format!("{}: {e}", folder.display()))?;
    let mut paths: Vec<PathBuf> = listing.flatten().map(|entry| entry.path()).collect();
    paths.sort();
    let mut edges = Vec::new();
    for path in paths {
        let name = path.display().to_string();
        let text = std::fs::read_to_string(&path).map_err(|e| format!("{name}: {e}"))?;
        let cases = read_cases(&text).map_err(|e| format!("{name}: {e}"))?;
        edges.extend(cases.into_iter().map(|case| (name.clone(), case)));
    }
    Ok(edges)
}

/// The most bytes of a block whose every bit is changed in turn.
const SMALL_BLOCK: usize = 256;

/// Every single-bit change and every cut of each small block that is stored
/// as accepted.
pub fn small_changes(edges: &[(String, Stored)]) -> Vec<Case> {
    let accepted = |stored: &&Stored| stored.gives == Some(Outcome::Checked { refusal: 0 });
    let mut cases = Vec::new();
    for stored in edges.iter().map(|(_, stored)| stored).filter(accepted) {
        match &stored.case {
            Case::CheckList { block } => {
                cases.extend(changes(block).map(|block| Case::CheckList { block }))
            }
            Case::CheckTerm { version, block } => {
                let version = *version;
                cases.extend(changes(block).map(|block| Case::CheckTerm { version, block }))
            }
            Case::CheckIndex { card } => {
                cases.extend(changes(card).map(|card| Case::CheckIndex { card }))
            }
            _ => {}
        }
    }
    cases
}

fn changes(block: &[u8]) -> impl Iterator<Item = Vec<u8>> + '_ {
    let small = if block.len() > SMALL_BLOCK {
        0
    } else {
        block.len()
    };
    let flips = (0..small * 8).map(|bit| {
        let mut changed = block.to_vec();
        changed[bit / 8] ^= 1 << (bit % 8);
        changed
    });
    flips.chain((0..small).map(|length| block[..length].to_vec()))
}

#[cfg(test)]
mod tests {
    use super::*;
    use crate::compare::plain_outcome;
    use crate::plain::list::check_list;

    #[test]
    fn the_plain_program_gives_what_each_edge_says() {
        let edges = edges().expect("the edges can be read");
        assert!(edges.len() > 90);
        for (name, stored) in edges {
            if let Some(gives) = stored.gives {
                assert_eq!(
                    plain_outcome(&stored.case),
                    gives,
                    "{name}: {:?}",
                    stored.case
                );
            }
        }
    }

    /// The first list block that a file stores as accepted.
    fn stored_block(file: &str) -> Vec<u8> {
        let edges = edges().expect("the edges can be read");
        let block_of = |(name, stored): (String, Stored)| match (stored.case, stored.gives) {
            (Case::CheckList { block }, Some(Outcome::Checked { refusal: 0 }))
                if name.contains(file) =>
            {
                Some(block)
            }
            _ => None,
        };
        edges.into_iter().find_map(block_of).expect("it is stored")
    }

    #[test]
    fn each_bit_of_s1_and_s8_is_changed_in_turn() {
        let edges = edges().expect("the edges can be read");
        let cases = small_changes(&edges);
        for (file, bits) in [("s01", 232), ("s08", 776)] {
            let block = stored_block(file);
            let differs_by_a_bit = |other: &[u8]| {
                let pairs = block.iter().zip(other);
                pairs.map(|(a, b)| (a ^ b).count_ones()).sum::<u32>() == 1
            };
            let flips = cases.iter().filter(|case| match case {
                Case::CheckList { block: other } => {
                    other.len() == block.len() && differs_by_a_bit(other)
                }
                _ => false,
            });
            assert_eq!(flips.count(), bits);
        }
    }

    #[test]
    fn the_changes_of_s8_that_are_accepted_only_raise_u_a_little() {
        let block = stored_block("s08");
        let mut bounds = Vec::new();
        for changed in changes(&block) {
            if let Ok(list) = check_list(&changed) {
                assert!(list.elements.into_iter().eq(0..300));
                bounds.push(list.bound);
            }
        }
        bounds.sort_unstable();
        assert_eq!(bounds, [301, 302, 316]);
    }
}
