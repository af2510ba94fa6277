//! `make`: a card from a listing.

use std::ffi::OsString;
use std::io::Write;
use std::path::Path;

use jundefola::{term_block, CardWriter, Edition};

use crate::check::summary;
use crate::files;
use crate::listing::{parse_word, Listing, WordLine};
use crate::numbers::{counted, number};
use crate::options::split_option;
use crate::problem::Problem;

/// The option that is followed by the edition of the card.
const EDITION_OPTION: &str = "--edition";

/// Writes the card of a listing, whole or not at all.
pub fn make(arguments: &[OsString], out: &mut dyn Write) -> Result<(), Problem> {
    let arguments: Vec<&OsString> = arguments.iter().collect();
    let (edition, arguments) = split_option(&arguments, EDITION_OPTION)?;
    let &[listing, file] = &arguments[..] else {
        return Err(Problem::Usage);
    };
    let edition = edition.map_or(Ok(Edition::LATEST), edition_of)?;
    let (listing, file) = (Path::new(listing), Path::new(file));
    let card = card_of(edition, listing, &files::read_text(listing)?)?;
    files::write_whole(file, &card)?;
    writeln!(out, "{}: {}", file.display(), summary(&card))?;
    Ok(())
}

/// The edition that is asked for by its number.
fn edition_of(asked: &OsString) -> Result<Edition, Problem> {
    let text = asked.to_string_lossy();
    let edition = number(&text).ok().and_then(Edition::from_version);
    edition.ok_or_else(|| {
        let known = Edition::ALL.map(|edition| edition.version().to_string());
        let known = known.join(" and ");
        Problem::Bad(format!(
            "`{EDITION_OPTION} {text}`: the editions are {known}"
        ))
    })
}

/// The card of a listing's text.
fn card_of(edition: Edition, file: &Path, text: &str) -> Result<Vec<u8>, Problem> {
    let listing = Listing::parse(file, text)?;
    let n = listing.pages;
    check_pages(edition, n).map_err(|what| listing.problem(listing.pages_line, what))?;
    let mut writer = CardWriter::new(edition, n);
    for word in &listing.words {
        add_word(&mut writer, word, n).map_err(|what| listing.problem(word.line, what))?;
    }
    let words = counted(writer.words() as usize, "word");
    let card = writer.close();
    card.map_err(|refusal| Problem::in_file(file, format!("{words}: {refusal}")))
}

/// Refuses an N for which the library takes no word.
fn check_pages(edition: Edition, n: u32) -> Result<(), String> {
    let block = term_block(edition, n, &[], &[], &[]);
    block.map_err(|refusal| format!("{n} pages: {refusal}"))?;
    Ok(())
}

fn add_word(writer: &mut CardWriter, line: &WordLine, n: u32) -> Result<(), String> {
    let word = parse_word(line.postings, n).map_err(|what| match line.name {
        Some(name) => format!("`{name}`: {what}"),
        None => what,
    })?;
    let added = writer.add(&word.pages, &word.counts, &word.positions);
    added.map_err(|refusal| match line.name {
        Some(name) => format!("the positions of `{name}`: {refusal}"),
        None => format!("the positions of this word: {refusal}"),
    })
}
