//! `ask`: questions over a card, from the arguments or from standard input.

use std::borrow::Cow;
use std::ffi::OsString;
use std::io::{self, Write};
use std::path::Path;

use jundefola::{ask_all, question_numbers, CardWriter, Edition, Question, Refusal};

use crate::answers::write_answer;
use crate::card;
use crate::check::told;
use crate::files;
use crate::listing::content_lines;
use crate::names::{Names, NAMES_OPTION};
use crate::options::split_option;
use crate::problem::Problem;
use crate::questions::{is_kind, parse_question, question_text};

/// Questions, where each was asked, and the names that they may use.
struct Batch {
    names: Option<Names>,
    places: Vec<String>,
    questions: Vec<Question>,
}

/// Prints the answers to all questions, one a line; with no question among the arguments, standard input is read.
pub fn ask(arguments: &[OsString], out: &mut dyn Write) -> Result<(), Problem> {
    let arguments: Vec<&OsString> = arguments.iter().collect();
    let (listing, arguments) = split_option(&arguments, NAMES_OPTION)?;
    let (file, questions) = arguments.split_first().ok_or(Problem::Usage)?;
    let file = Path::new(file);
    let card = files::read(file)?;
    let names = listing.map(|listing| Names::read_for(file, &card, Path::new(listing)));
    let mut batch = Batch::new(names.transpose()?);
    if questions.is_empty() {
        batch.add_input()?;
    } else {
        batch.add_arguments(questions)?;
    }
    let answers = ask_all(&card, &batch.questions).map_err(|refusal| match refusal {
        Refusal::Question => batch.refused_question(&card),
        _ => Problem::in_file(file, told(refusal, &card, batch.names.as_ref())),
    })?;
    for (question, answer) in batch.questions.iter().zip(&answers) {
        write!(out, "{}: ", question_text(question, batch.names.as_ref()))?;
        write_answer(question, answer, out)?;
    }
    Ok(())
}

impl Batch {
    fn new(names: Option<Names>) -> Batch {
        Batch {
            names,
            places: Vec::new(),
            questions: Vec::new(),
        }
    }

    fn add(&mut self, place: String, words: &[&str]) -> Result<(), Problem> {
        match parse_question(words, self.names.as_ref()) {
            Ok(question) => self.questions.push(question),
            Err(what) => return Err(Problem::Bad(format!("{place}: {what}"))),
        }
        self.places.push(place);
        Ok(())
    }

    /// Adds the questions on standard input, a line each.
    fn add_input(&mut self) -> Result<(), Problem> {
        let text = io::read_to_string(io::stdin())
            .map_err(|error| Problem::Bad(format!("standard input: {error}")))?;
        for (line, content) in content_lines(&text).filter(|(_, content)| !content.is_empty()) {
            let words: Vec<&str> = content.split_whitespace().collect();
            self.add(format!("standard input:{line}"), &words)?;
        }
        Ok(())
    }

    /// Adds the questions among the arguments.
    fn add_arguments(&mut self, arguments: &[&OsString]) -> Result<(), Problem> {
        let texts: Vec<_> = arguments
            .iter()
            .map(|text| text.to_string_lossy())
            .collect();
        let questions = split_questions(&texts, self.names.as_ref());
        for (number, words) in (1..).zip(&questions) {
            self.add(format!("question {number}"), words)?;
        }
        Ok(())
    }

    /// The problem of the first question that the library refuses.
    fn refused_question(&self, card: &[u8]) -> Problem {
        let blank = blank_card(card::term_count(card));
        let lengths: Vec<usize> = (1..=self.questions.len()).collect();
        let first =
            lengths.partition_point(|&length| !is_refused(&blank, &self.questions[..length]));
        let text = question_text(&self.questions[first], self.names.as_ref());
        let place = &self.places[first];
        Problem::Bad(format!("{place}: `{text}`: {}", Refusal::Question))
    }
}

/// The words of each question among the arguments; quotes are not needed, since the name of a kind begins a question.
fn split_questions<'a>(arguments: &'a [Cow<str>], names: Option<&Names>) -> Vec<Vec<&'a str>> {
    let mut questions: Vec<Vec<&str>> = Vec::new();
    for argument in arguments {
        let words: Vec<&str> = argument.split_whitespace().collect();
        for (place, word) in words.iter().enumerate() {
            match questions.last_mut() {
                Some(question) if !begins_question(&words, place, names) => question.push(word),
                _ => questions.push(vec![word]),
            }
        }
    }
    questions
}

/// Whether a question begins at this word of an argument: at the name of a kind, unless it stands inside quotes and is
/// a name of the listing; and at the start of a quoted text that begins like a kind and with no name of the listing.
fn begins_question(argument: &[&str], place: usize, names: Option<&Names>) -> bool {
    let word = argument[place];
    let is_word = names.is_some_and(|names| names.has(word));
    let is_quoted = argument.len() > 1;
    match place {
        0 => is_kind(word) || (is_quoted && !is_word && word.starts_with(char::is_alphabetic)),
        _ => is_kind(word) && !is_word,
    }
}

/// A small card with as many terms: it refuses the same questions, and each call checks it soon.
fn blank_card(terms: u16) -> Vec<u8> {
    let mut writer = CardWriter::new(Edition::LATEST, 0);
    for _ in 0..terms {
        writer
            .add(&[], &[], &[])
            .expect("a word on no page is valid");
    }
    writer.close().expect("so many words were accepted before")
}

/// Whether one of these questions is refused; they are checked before room is asked for.
fn is_refused(card: &[u8], questions: &[Question]) -> bool {
    let asked = jundefola::ask(card, &question_numbers(questions), &mut []);
    asked.refusal == Some(Refusal::Question)
}

#[cfg(test)]
mod tests {
    use super::*;

    fn split(arguments: &[&str], names: Option<&Names>) -> Vec<String> {
        let arguments: Vec<Cow<str>> = arguments.iter().map(|&text| text.into()).collect();
        let questions = split_questions(&arguments, names);
        questions.iter().map(|words| words.join(" ")).collect()
    }

    #[test]
    fn the_name_of_a_kind_begins_a_question() {
        let plain = split(&["common", "0", "1", "rank", "0", "5"], None);
        assert_eq!(plain, ["common 0 1", "rank 0 5"]);
        assert_eq!(split(&["common 0 1 rank 0 5"], None), plain);
        assert_eq!(split(&["common", "0 1", "rank 0", "5"], None), plain);
        assert_eq!(split(&["rank 0 1", "find 3"], None), ["rank 0 1", "find 3"]);
        assert_eq!(split(&["find"], None), ["find"]);
        assert_eq!(split(&["rank", "bolt", "1"], None), ["rank bolt 1"]);
        assert_eq!(split(&["", " "], None), [""; 0]);
    }

    #[test]
    fn a_word_named_as_a_kind_is_quoted() {
        let names = Names::of_text("pages 3\ncommon 1:0\nrail 1:1\n");
        let quoted = split(&["phrase common rail", "rank rail 0"], Some(&names));
        assert_eq!(quoted, ["phrase common rail", "rank rail 0"]);
        let plain = split(&["phrase", "common", "rail"], Some(&names));
        assert_eq!(plain, ["phrase", "common rail"]);
        let halved = split(&["phrase", "rail common"], Some(&names));
        assert_eq!(halved, ["phrase rail common"]);
        let unknown = split(&["rank rail 0", "find 3"], Some(&names));
        assert_eq!(unknown, ["rank rail 0", "find 3"]);
    }
}
