//! Questions as words of a line.

use jundefola::{PhraseWord, Question};

use crate::listing::is_name;
use crate::names::Names;
use crate::numbers::number;

/// The names of the kinds; each begins a question.
const KINDS: [&str; 4] = ["rank", "at", "common", "phrase"];

/// What stands in a phrase for a dropped word; no word is named so, since a name has a letter.
const DROPPED: &str = "_";

/// Whether this is the name of a kind.
pub fn is_kind(text: &str) -> bool {
    KINDS.contains(&text)
}

/// The question that these words ask; with names, a term may be given by its name.
pub fn parse_question(words: &[&str], names: Option<&Names>) -> Result<Question, String> {
    let (&kind, operands) = words.split_first().ok_or("there is no question")?;
    match kind {
        "rank" => {
            let [term, rank] = term_and_number(operands, names, "rank TERM RANK")?;
            Ok(Question::Rank { term, rank })
        }
        "at" => {
            let [term, bound] = term_and_number(operands, names, "at TERM PAGE")?;
            Ok(Question::Bound { term, bound })
        }
        "common" => Ok(Question::Common(terms(operands, names)?)),
        "phrase" => Ok(Question::Phrase(phrase_words(operands, names)?)),
        _ => Err(format!(
            "`{kind}` is no question; these are rank, at, common and phrase"
        )),
    }
}

/// The numbers of the terms that these words give, by number or by name.
pub fn terms(operands: &[&str], names: Option<&Names>) -> Result<Vec<u32>, String> {
    operands.iter().map(|text| term(text, names)).collect()
}

/// The words of a phrase, the offset of each counted with the dropped words before it.
fn phrase_words(operands: &[&str], names: Option<&Names>) -> Result<Vec<PhraseWord>, String> {
    let ends = [operands.first(), operands.last()];
    if ends.contains(&Some(&DROPPED)) {
        return Err(format!(
            "a phrase begins and ends with a word; `{DROPPED}` is a dropped word between two others"
        ));
    }
    let placed = operands.iter().zip(0..);
    placed
        .filter(|(text, _)| **text != DROPPED)
        .map(|(text, offset)| Ok((term(text, names)?, offset).into()))
        .collect()
}

fn term_and_number(
    operands: &[&str],
    names: Option<&Names>,
    form: &str,
) -> Result<[u32; 2], String> {
    let &[name, value] = operands else {
        return Err(format!("this has to be `{form}`"));
    };
    Ok([term(name, names)?, number(value)?])
}

/// The number of the term that a text gives, by number or by name.
fn term(text: &str, names: Option<&Names>) -> Result<u32, String> {
    match names {
        Some(names) if is_name(text) => names.number(text),
        None if is_name(text) => number(text)
            .map_err(|what| format!("{what}; a word is taken by its name with `--names LISTING`")),
        _ => number(text),
    }
}

/// A question as it is written, with the names of the terms that have one.
pub fn question_text(question: &Question, names: Option<&Names>) -> String {
    match question {
        Question::Rank { term, rank } => format!("rank {} {rank}", term_text(*term, names)),
        Question::Bound { term, bound } => format!("at {} {bound}", term_text(*term, names)),
        Question::Common(terms) => terms_text("common", terms, names),
        Question::Phrase(words) => {
            let words = words
                .iter()
                .map(|word| (word.offset, term_text(word.term, names)));
            joined("phrase", with_dropped(words))
        }
    }
}

/// What is asked, and behind it the terms, by name where they have one.
pub fn terms_text(asked: &str, terms: &[u32], names: Option<&Names>) -> String {
    joined(asked, terms.iter().map(|&term| term_text(term, names)))
}

fn joined(kind: &str, words: impl Iterator<Item = String>) -> String {
    words.fold(kind.into(), |text, word| format!("{text} {word}"))
}

/// Words with what stands for the dropped ones between them.
fn with_dropped(words: impl Iterator<Item = (u32, String)>) -> impl Iterator<Item = String> {
    let mut next = 0;
    words.flat_map(move |(offset, word)| {
        let dropped = next..offset;
        next = offset + 1;
        dropped.map(|_| DROPPED.into()).chain([word])
    })
}

fn term_text(term: u32, names: Option<&Names>) -> String {
    let name = names.and_then(|names| names.name(term));
    name.map_or_else(|| term.to_string(), String::from)
}

#[cfg(test)]
mod tests {
    use super::*;

    const LISTING: &str = "pages 3\ntorque 1:0\n2:1\ncommon\n";

    fn told(text: &str, names: Option<&Names>) -> String {
        let words: Vec<&str> = text.split_whitespace().collect();
        parse_question(&words, names).unwrap_err()
    }

    #[test]
    fn questions_are_parsed_and_written() {
        for text in [
            "rank 0 5",
            "at 0 16",
            "common 0 3",
            "phrase 0",
            "phrase 0 _ 1 2 _ _ 0",
            "common",
            "phrase",
        ] {
            let words: Vec<&str> = text.split(' ').collect();
            let question = parse_question(&words, None).unwrap();
            assert_eq!(question_text(&question, None), text);
        }
    }

    #[test]
    fn a_dropped_word_has_its_place() {
        for (text, pairs) in [
            ("phrase 5 6 5", vec![(5, 0), (6, 1), (5, 2)]),
            ("phrase 5 _ 6", vec![(5, 0), (6, 2)]),
            ("phrase 5 _ _ 6 7 _ 5", vec![(5, 0), (6, 3), (7, 4), (5, 6)]),
        ] {
            let words: Vec<&str> = text.split(' ').collect();
            let placed = pairs.into_iter().map(PhraseWord::from).collect();
            assert_eq!(parse_question(&words, None), Ok(Question::Phrase(placed)));
        }
    }

    #[test]
    fn a_dropped_word_stands_between_two_of_a_phrase() {
        let between =
            "a phrase begins and ends with a word; `_` is a dropped word between two others";
        for text in ["phrase _", "phrase _ 0", "phrase 0 _", "phrase _ _"] {
            assert_eq!(told(text, None), between);
        }
        let number = "`_` is not a number from 0 to 4294967295";
        let names = Names::of_text(LISTING);
        for text in ["common 0 _ 1", "rank _ 0", "at 0 _"] {
            assert_eq!(told(text, None), number);
            assert_eq!(told(text, Some(&names)), number);
        }
    }

    #[test]
    fn terms_are_given_by_name_or_number() {
        let names = Names::of_text(LISTING);
        for (text, numbers) in [
            ("rank torque 5", "rank 0 5"),
            ("at torque 16", "at 0 16"),
            ("common torque 1 common", "common 0 1 2"),
            ("phrase 7 torque", "phrase 7 0"),
            ("phrase torque _ _ common", "phrase 0 _ _ 2"),
        ] {
            let words: Vec<&str> = text.split(' ').collect();
            let question = parse_question(&words, Some(&names)).unwrap();
            assert_eq!(question_text(&question, None), numbers);
            assert_eq!(question_text(&question, Some(&names)), text);
        }
    }

    #[test]
    fn bad_questions_are_told() {
        let form = "this has to be `rank TERM RANK`";
        assert_eq!(told("rank 0", None), form);
        let kinds = "`find` is no question; these are rank, at, common and phrase";
        assert_eq!(told("find it", None), kinds);
        let number = "`-1` is not a number from 0 to 4294967295";
        assert_eq!(told("common -1", None), number);
        assert!(parse_question(&[], None).is_err());
    }

    #[test]
    fn bad_names_are_told() {
        let unread = "`torque` is not a number from 0 to 4294967295; \
                      a word is taken by its name with `--names LISTING`";
        assert_eq!(told("rank torque 0", None), unread);
        let names = Names::of_text(LISTING);
        let unknown = "no word is named `nut` in listing, which has 2 names";
        assert_eq!(told("common torque nut", Some(&names)), unknown);
        let number = "`torque` is not a number from 0 to 4294967295";
        assert_eq!(told("at torque torque", Some(&names)), number);
        assert_eq!(told("rank 0 torque", None), number);
    }
}
