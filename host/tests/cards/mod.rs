//! Cards that several tests make.

use jundefola::{CardWriter, Edition};

/// A card of this edition whose words stand at position 0 of each of their pages.
pub fn card_of_pages(edition: Edition, n: u32, words: &[&[u32]]) -> Vec<u8> {
    let mut writer = CardWriter::new(edition, n);
    for pages in words {
        let ones = vec![1; pages.len()];
        let zeros = vec![0; pages.len()];
        writer.add(pages, &ones, &zeros).unwrap();
    }
    writer.close().unwrap()
}
