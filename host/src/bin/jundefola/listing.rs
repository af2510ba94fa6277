//! Listings: a line `pages N`, then a line for each word, as docs/COMMAND.md describes.

use std::collections::HashMap;
use std::io::{self, Write};
use std::path::Path;

use jundefola::Edition;

use crate::list::Form;
use crate::numbers::number;
use crate::problem::Problem;
use crate::word::Word;

/// A listing, its words split into name and postings.
pub struct Listing<'a> {
    pub file: &'a Path,
    /// N, and the line that says it.
    pub pages: u32,
    pub pages_line: usize,
    pub words: Vec<WordLine<'a>>,
}

/// The line of a word, numbered from 1; the name is the command's alone, and no card holds it.
#[derive(Debug, PartialEq, Eq)]
pub struct WordLine<'a> {
    pub line: usize,
    pub name: Option<&'a str>,
    pub postings: &'a str,
}

impl<'a> Listing<'a> {
    /// The listing of a file's text, where no name is given twice.
    pub fn parse(file: &'a Path, text: &'a str) -> Result<Listing<'a>, Problem> {
        let at_line = |(line, what): (usize, String)| Problem::at_line(file.display(), line, what);
        let mut lines = content_lines(text).skip_while(|(_, content)| content.is_empty());
        let (pages_line, first) = lines.next().unwrap_or((1, ""));
        let pages = parse_pages(first).map_err(|what| at_line((pages_line, what)))?;
        let words: Result<Vec<WordLine>, _> = lines.map(word_line).collect();
        let words = words.map_err(at_line)?;
        check_names(&words).map_err(at_line)?;
        Ok(Listing {
            file,
            pages,
            pages_line,
            words,
        })
    }

    /// A problem at a line of this listing.
    pub fn problem(&self, line: usize, what: String) -> Problem {
        Problem::at_line(self.file.display(), line, what)
    }
}

fn word_line((line, content): (usize, &str)) -> Result<WordLine<'_>, (usize, String)> {
    let (name, postings) = split_name(content).map_err(|what| (line, what))?;
    Ok(WordLine {
        line,
        name,
        postings,
    })
}

/// Refuses the second of two equal names, at its line.
fn check_names(words: &[WordLine]) -> Result<(), (usize, String)> {
    let mut lines = HashMap::new();
    for word in words {
        let Some(name) = word.name else { continue };
        if let Some(first) = lines.insert(name, word.line) {
            let what = format!("the name `{name}` is given twice, at line {first} and here");
            return Err((word.line, what));
        }
    }
    Ok(())
}

/// The name at the start of a word's line, where it has one, and the postings behind it.
fn split_name(content: &str) -> Result<(Option<&str>, &str), String> {
    let (first, rest) = content
        .split_once(char::is_whitespace)
        .unwrap_or((content, ""));
    if first.is_empty() || first.contains(':') {
        return Ok((None, content));
    }
    if !is_name(first) {
        return Err(format!(
            "`{first}` is not of the form page:position,position, and is no name: a name has a letter"
        ));
    }
    Ok((Some(first), rest))
}

/// Whether a text may be a word's name: a letter sets it apart from numbers and from `_`, and it has no colon, as a
/// posting has.
pub fn is_name(text: &str) -> bool {
    text.contains(char::is_alphabetic) && !text.contains(':')
}

/// The lines that say something, without comments, numbered from 1; an empty one is a word on no page.
pub fn content_lines(text: &str) -> impl Iterator<Item = (usize, &str)> {
    let numbered = text.lines().zip(1..);
    numbered.filter_map(|(line, number)| content(line).map(|content| (number, content)))
}

/// What a line says; none where it is a comment alone.
fn content(line: &str) -> Option<&str> {
    match line.split_once('#') {
        Some((before, _)) => Some(before.trim()).filter(|content| !content.is_empty()),
        None => Some(line.trim()),
    }
}

/// N of the first line, `pages N`.
fn parse_pages(content: &str) -> Result<u32, String> {
    let mut words = content.split_whitespace();
    match (words.next(), words.next(), words.next()) {
        (Some("pages"), Some(count), None) => number(count),
        _ => Err("the first line has to be `pages N`, with the number of pages".into()),
    }
}

/// The word that has these postings, on pages below `n`.
pub fn parse_word(postings: &str, n: u32) -> Result<Word, String> {
    let mut word = Word::default();
    for posting in postings.split_whitespace() {
        let (page, positions) = posting
            .split_once(':')
            .ok_or_else(|| format!("`{posting}` is not of the form page:position,position"))?;
        let page = number(page)?;
        check_page(page, word.pages.last().copied(), n)?;
        let count = parse_positions(positions, &mut word.positions)
            .map_err(|what| format!("page {page}: {what}"))?;
        word.pages.push(page);
        word.counts.push(count);
    }
    Ok(word)
}

fn check_page(page: u32, before: Option<u32>, n: u32) -> Result<(), String> {
    if page >= n {
        return Err(format!("page {page} is not below {n}, the number of pages"));
    }
    match before {
        Some(before) if before >= page => Err(format!("page {page} comes after page {before}")),
        _ => Ok(()),
    }
}

/// Appends the positions of one page and gives their count.
fn parse_positions(text: &str, positions: &mut Vec<u32>) -> Result<u32, String> {
    let mut before = None;
    let mut count = 0;
    for text in text.split(',') {
        let position = number(text)?;
        if let Some(before) = before.filter(|&before| before >= position) {
            return Err(format!("position {position} comes after position {before}"));
        }
        positions.push(position);
        before = Some(position);
        count += 1;
    }
    Ok(count)
}

/// Writes the first line of a listing, with the edition of its card as a comment.
pub fn write_pages(n: u32, edition: Edition, out: &mut dyn Write) -> io::Result<()> {
    writeln!(out, "pages {n} # edition {}", edition.version())
}

/// Writes the line of a word, with the form of its pages as a comment; a word on no page has none, since a line with a
/// comment alone is no word.
pub fn write_word(word: &Word, form: Option<Form>, out: &mut dyn Write) -> io::Result<()> {
    let mut gap = "";
    for (page, positions) in word.postings() {
        write!(out, "{gap}{page}")?;
        gap = " ";
        let mut mark = ':';
        for position in positions {
            write!(out, "{mark}{position}")?;
            mark = ',';
        }
    }
    if let Some(form) = form {
        write!(out, " # {form}")?;
    }
    writeln!(out)
}

#[cfg(test)]
mod tests {
    use super::*;

    #[test]
    fn comments_say_nothing_and_empty_lines_are_words() {
        let text = "# a manual\npages 3 # three\n\n  \n # none\n1:0#x";
        let lines: Vec<(usize, &str)> = content_lines(text).collect();
        assert_eq!(lines, [(2, "pages 3"), (3, ""), (4, ""), (6, "1:0")]);
    }

    #[test]
    fn the_last_newline_makes_no_word() {
        assert_eq!(content_lines("pages 3\n").count(), 1);
        assert_eq!(content_lines("pages 3\r\n\r\n").count(), 2);
    }

    #[test]
    fn pages_have_one_number() {
        assert_eq!(parse_pages("pages 40"), Ok(40));
        for content in ["", "pages", "pages 1 2", "page 40", "pages x", "40"] {
            assert!(parse_pages(content).is_err(), "{content}");
        }
    }

    #[test]
    fn words_are_parsed_and_written() {
        let word = parse_word("0:5,9 3:0   39:0,1,700", 40).unwrap();
        assert_eq!(word.pages, [0, 3, 39]);
        assert_eq!(word.counts, [2, 1, 3]);
        assert_eq!(word.positions, [5, 9, 0, 0, 1, 700]);
        for (form, comment) in [(Form::Runs, "runs"), (Form::Bitmap, "bitmap")] {
            let mut line = Vec::new();
            write_word(&word, Some(form), &mut line).unwrap();
            let expected = format!("0:5,9 3:0 39:0,1,700 # {comment}\n");
            assert_eq!(line, expected.into_bytes());
        }
        let mut line = Vec::new();
        write_word(&Word::default(), None, &mut line).unwrap();
        assert_eq!(line, b"\n");
    }

    #[test]
    fn bad_words_are_told() {
        let told = |content| parse_word(content, 40).unwrap_err();
        assert_eq!(told("7"), "`7` is not of the form page:position,position");
        assert_eq!(told("40:1"), "page 40 is not below 40, the number of pages");
        assert_eq!(told("4:1 4:2"), "page 4 comes after page 4");
        assert_eq!(told("4:2,2"), "page 4: position 2 comes after position 2");
        assert_eq!(
            told("4:"),
            "page 4: `` is not a number from 0 to 4294967295"
        );
        assert_eq!(told("x:1"), "`x` is not a number from 0 to 4294967295");
    }

    #[test]
    fn a_name_stands_before_the_postings() {
        assert_eq!(split_name("0:5 3:0"), Ok((None, "0:5 3:0")));
        assert_eq!(split_name(""), Ok((None, "")));
        assert_eq!(split_name("bolt 0:5 3:0"), Ok((Some("bolt"), "0:5 3:0")));
        assert_eq!(split_name("warranty"), Ok((Some("warranty"), "")));
        for name in ["10W-40", "M8", "\u{d6}l", "_bolt", "at"] {
            let line = format!("{name}\t0:5");
            assert_eq!(split_name(&line), Ok((Some(name), "0:5")));
        }
    }

    #[test]
    fn a_name_has_a_letter() {
        for text in ["7", "_", "3,8", "3.8", "-"] {
            let told = split_name(&format!("{text} 4:1")).unwrap_err();
            let form = format!("`{text}` is not of the form page:position,position");
            assert_eq!(told, format!("{form}, and is no name: a name has a letter"));
        }
    }

    #[test]
    fn a_listing_has_words_with_and_without_names() {
        let text = "\n# of pumps\npages 3\nbolt 1:0 # M8\n2:1\n\nwarranty\n";
        let listing = Listing::parse(Path::new("listing"), text).ok().unwrap();
        assert_eq!((listing.pages, listing.pages_line), (3, 3));
        let words: Vec<_> = listing
            .words
            .iter()
            .map(|word| (word.line, word.name, word.postings))
            .collect();
        let expected = [
            (4, Some("bolt"), "1:0"),
            (5, None, "2:1"),
            (6, None, ""),
            (7, Some("warranty"), ""),
        ];
        assert_eq!(words, expected);
    }

    #[test]
    fn a_name_given_twice_is_told_with_both_lines() {
        let text = "pages 3\nbolt 1:0\n\n2:1\nbolt 2:0\n";
        let Err(Problem::Bad(told)) = Listing::parse(Path::new("listing"), text) else {
            panic!("two words have one name")
        };
        let expected = "listing:5: the name `bolt` is given twice, at line 2 and here";
        assert_eq!(told, expected);
    }
}
