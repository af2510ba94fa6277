//! `screens`: the pages that words share, one screen at a time.

use std::ffi::OsString;
use std::io::{self, BufRead, IsTerminal, Write};
use std::path::Path;

use jundefola::{Refusal, Screen, Screens, MAX_SCREEN};

use crate::answers::write_common;
use crate::check::told;
use crate::files;
use crate::names::{Names, NAMES_OPTION};
use crate::options::{split_number, split_option};
use crate::problem::Problem;
use crate::questions::{terms, terms_text};

/// The options that are followed by the pages of a screen, and by the page that the first one starts at.
const ROWS_OPTION: &str = "--rows";
const FROM_OPTION: &str = "--from";

/// The pages of a screen where none are asked for.
const USUAL_ROWS: u32 = 10;

/// What a person types to see no more screens.
const STOP: &str = "q";

/// Prints the screens of the pages that all of the words have, a line each; a terminal waits between two of them.
pub fn screens(arguments: &[OsString], out: &mut dyn Write) -> Result<(), Problem> {
    let arguments: Vec<&OsString> = arguments.iter().collect();
    let (listing, arguments) = split_option(&arguments, NAMES_OPTION)?;
    let (rows, arguments) = split_number(&arguments, ROWS_OPTION)?;
    let (from, arguments) = split_number(&arguments, FROM_OPTION)?;
    let (file, words) = arguments.split_first().ok_or(Problem::Usage)?;
    let (file, rows) = (Path::new(file), rows.unwrap_or(USUAL_ROWS));
    let card = files::read(file)?;
    let names = listing.map(|listing| Names::read_for(file, &card, Path::new(listing)));
    let names = names.transpose()?;
    let terms = terms_of(words, names.as_ref())?;
    let screens = Screens::new(&card, &terms, rows).starting_at(from.unwrap_or(0));
    let problem = |refusal| match refusal {
        Refusal::Question => refused_screen(rows, &terms_text("screens", &terms, names.as_ref())),
        _ => Problem::in_file(file, told(refusal, &card, names.as_ref())),
    };
    write_screens(screens.map(|screen| screen.map_err(problem)), out)
}

/// The numbers of the terms that the arguments give; quotes around several of them are not needed, and do no harm.
fn terms_of(arguments: &[&OsString], names: Option<&Names>) -> Result<Vec<u32>, Problem> {
    let texts: Vec<_> = arguments
        .iter()
        .map(|text| text.to_string_lossy())
        .collect();
    let words: Vec<&str> = texts
        .iter()
        .flat_map(|text| text.split_whitespace())
        .collect();
    terms(&words, names).map_err(Problem::Bad)
}

/// The problem of a screen that the library refuses, for its rows or for its words.
fn refused_screen(rows: u32, asked: &str) -> Problem {
    let refusal = Refusal::Question;
    Problem::Bad(if (1..=MAX_SCREEN).contains(&rows) {
        format!("`{asked}`: {refusal}")
    } else {
        format!("`{ROWS_OPTION} {rows}`: {refusal} (a screen has 1 to {MAX_SCREEN} rows)")
    })
}

/// Prints screens as they come; at a terminal a person says behind each full one whether to go on.
fn write_screens(
    screens: impl Iterator<Item = Result<Screen, Problem>>,
    out: &mut dyn Write,
) -> Result<(), Problem> {
    let at_terminal = io::stdin().is_terminal() && io::stdout().is_terminal();
    for screen in screens {
        let screen = screen?;
        write!(out, "from {}: ", screen.bound)?;
        write_common(&screen.pages, [screen.seeks, screen.looks], out)?;
        if let (true, Some(next)) = (at_terminal, screen.next) {
            if !goes_on(next, &mut io::stdin().lock(), out)? {
                break;
            }
        }
    }
    Ok(())
}

/// Whether a person wants the next screen; the end of the input is a no.
fn goes_on(next: u32, input: &mut dyn BufRead, out: &mut dyn Write) -> Result<bool, Problem> {
    write!(
        out,
        "-- next from page {next}: Enter, or {STOP} to stop -- "
    )?;
    out.flush()?;
    let mut line = String::new();
    let read = input
        .read_line(&mut line)
        .map_err(|error| Problem::Bad(format!("standard input: {error}")))?;
    if read == 0 {
        // nothing was typed that would have ended the line
        writeln!(out)?;
    }
    Ok(read > 0 && line.trim() != STOP)
}

#[cfg(test)]
mod tests {
    use super::*;

    #[test]
    fn a_person_goes_on_or_stops() {
        let prompt = "-- next from page 16: Enter, or q to stop -- ";
        for (typed, expected, shown) in [
            ("\n", true, ""),
            ("more\nq\n", true, ""),
            ("q\n", false, ""),
            (" q \r\n", false, ""),
            ("", false, "\n"),
        ] {
            let mut out = Vec::new();
            let answer = goes_on(16, &mut typed.as_bytes(), &mut out);
            assert_eq!(answer.ok(), Some(expected), "{typed:?}");
            assert_eq!(String::from_utf8(out).unwrap(), format!("{prompt}{shown}"));
        }
    }
}
