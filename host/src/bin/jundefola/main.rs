//! The command `jundefola`: makes, checks, shows and asks cards. docs/COMMAND.md describes it.

mod answers;
mod ask;
mod card;
mod check;
mod files;
mod list;
mod listing;
mod make;
mod names;
mod numbers;
mod options;
mod problem;
mod questions;
mod screens;
mod show;
mod word;

use std::env;
use std::ffi::OsString;
use std::io::{self, BufWriter, Write};
use std::path::Path;
use std::process::ExitCode;

use problem::Problem;

const USAGE: &str = "\
usage: jundefola make LISTING CARD      make a card from a listing
       jundefola check CARD             say whether a card is accepted, or what is refused and where
       jundefola show CARD              print a card as a listing
       jundefola ask CARD [QUESTION..]  answer questions, or those on standard input, one a line
       jundefola screens CARD TERM..    show the pages that have all the terms, one screen at a time

Options: --edition EDITION  with make: the edition of the card, 1 or 2; without it 2
         --names LISTING    with ask and screens: the words' names are those in that listing
         --rows ROWS        with screens: so many pages on a screen, 1 to 64; without it 10
         --from PAGE        with screens: only pages at or above that page

A listing is a line `pages N`, then a line for each word: NAME page:position,position page:position ..
The name may be left out; it has a letter and no colon, and no two are the same. A line without postings is a word on no
page, and `#` starts a comment. Pages, positions and words count from 0.

Questions: rank TERM RANK     the page of the term with that rank
           at TERM PAGE       the term's first page at or above that page, and how many lie below it
           common TERM..      the pages that have all the terms
           phrase TERM..      the pages where the terms stand one after the other; a `_` between two of
                              them is a dropped word, as in `phrase 0 _ 1`
A TERM is the number of a word or, with --names, its name.

Exit status: 0 done, 1 refused or bad input, 2 wrong usage
";

fn main() -> ExitCode {
    let arguments: Vec<OsString> = env::args_os().skip(1).collect();
    let mut out = BufWriter::new(io::stdout().lock());
    let done = run(&arguments, &mut out);
    let flushed = out.flush().map_err(Problem::from);
    match done.and(flushed) {
        Ok(()) => ExitCode::SUCCESS,
        Err(problem) => problem.report(USAGE),
    }
}

/// Runs the command that the arguments name.
fn run(arguments: &[OsString], out: &mut dyn Write) -> Result<(), Problem> {
    let (name, rest) = arguments.split_first().ok_or(Problem::Usage)?;
    match (name.to_str(), rest) {
        (Some("make"), rest) => make::make(rest, out),
        (Some("check"), [card]) => check::check(Path::new(card), out),
        (Some("show"), [card]) => show::show(Path::new(card), out),
        (Some("ask"), rest) => ask::ask(rest, out),
        (Some("screens"), rest) => screens::screens(rest, out),
        (Some("help" | "--help" | "-h"), []) => Ok(out.write_all(USAGE.as_bytes())?),
        _ => Err(Problem::Usage),
    }
}
