//! Case files: a small text with decimal numbers and hexadecimal bytes.
//!
//! A case begins with `call NAME` and has a line for each input. What it is
//! known to give may follow after the line `gives`. A line that begins with a
//! space goes on with the line before it; `#` begins a comment. Among numbers
//! `3..7` stands for 3 4 5 6 7 and `9*4` for 9 9 9 9; among bytes `00FF*3`
//! stands for 00FF00FF00FF.

use crate::case::{Case, FileGiven, Kind, Outcome, RoomAfter};
use crate::plain::stream::Stream;
use crate::screen_text::{put_screen_case, put_screened, read_screen_case, read_screened};
use crate::stream_text::{put_stream, put_stream_case, read_stream_case, read_streamed};
use std::fmt::Write;

/// A case, and what it must give if the file says so.
#[derive(Clone, Debug, PartialEq, Eq)]
pub struct Stored {
    /// The case itself.
    pub case: Case,
    /// What the file says that it gives.
    pub gives: Option<Outcome>,
}

impl Stored {
    /// A case of which it is not said what it gives.
    pub fn seeded(case: Case) -> Stored {
        Stored { case, gives: None }
    }
}

/// Reads every case of a file, or tells what is wrong with the text.
pub fn read_cases(text: &str) -> Result<Vec<Stored>, String> {
    let lines = whole_lines(text);
    let starts: Vec<usize> = (0..lines.len())
        .filter(|i| lines[*i].starts_with("call "))
        .collect();
    let ends = starts.iter().skip(1).copied().chain([lines.len()]);
    starts
        .iter()
        .zip(ends)
        .map(|(start, end)| read_case(&lines[*start..end]))
        .collect()
}

/// The lines without comments, those that go on joined to the one before.
fn whole_lines(text: &str) -> Vec<String> {
    let mut lines: Vec<String> = Vec::new();
    for line in text.lines() {
        let line = line.split('#').next().unwrap_or("").trim_end();
        match lines.last_mut() {
            Some(before) if line.starts_with(' ') => before.push_str(line),
            _ if line.is_empty() => {}
            _ => lines.push(line.to_string()),
        }
    }
    lines
}

fn read_case(lines: &[String]) -> Result<Stored, String> {
    let name = lines[0]["call ".len()..].trim();
    let kind = Kind::ALL
        .into_iter()
        .find(|kind| kind.name() == name)
        .ok_or(format!("no call is named {name}"))?;
    let split = lines.iter().position(|line| line == "gives");
    let (inputs, results) = lines[1..].split_at(split.unwrap_or(lines.len()) - 1);
    let case = read_inputs(kind, &Fields(inputs))?;
    let gives = match split {
        Some(_) => Some(read_outcome(&case, &Fields(&results[1..]))?),
        None => None,
    };
    Ok(Stored { case, gives })
}

/// The named lines of one case.
pub struct Fields<'a>(&'a [String]);

impl Fields<'_> {
    fn all(&self, name: &str) -> Vec<&str> {
        let of_name = |line: &'_ String| line.split(' ').next() == Some(name);
        let lines = self.0.iter().filter(|line| of_name(line));
        lines.map(|line| line[name.len()..].trim()).collect()
    }

    fn one(&self, name: &str) -> Result<&str, String> {
        match self.all(name)[..] {
            [value] => Ok(value),
            _ => Err(format!("`{name}` must stand once")),
        }
    }

    /// The number of the one line of this name.
    pub fn number<T: TryFrom<u64>>(&self, name: &str) -> Result<T, String> {
        let value = self.one(name)?;
        let number: Option<u64> = value.parse().ok();
        let number = number.and_then(|number| T::try_from(number).ok());
        number.ok_or(format!("`{name} {value}` is no number for this place"))
    }

    /// The numbers of the one line of this name.
    pub fn numbers(&self, name: &str) -> Result<Vec<u32>, String> {
        let mut numbers = Vec::new();
        for token in self.one(name)?.split_whitespace() {
            numbers.extend(read_numbers(token).ok_or(format!("{name}: {token} is no number"))?);
        }
        Ok(numbers)
    }

    /// The bytes of the one line of this name.
    pub fn bytes(&self, name: &str) -> Result<Vec<u8>, String> {
        read_all_bytes(self.one(name)?).ok_or(format!("{name}: not hexadecimal"))
    }

    /// The room that a call leaves: what is told of it, else what it was.
    pub fn room_after(&self, before: &[u8]) -> Result<RoomAfter<u8>, String> {
        let told = !self.all("after").is_empty();
        Ok(RoomAfter::kept(match told {
            true => self.bytes("after")?,
            false => before.to_vec(),
        }))
    }

    /// The same of a room of numbers, by the name that it has.
    pub fn numbers_after(&self, name: &str, before: &[u32]) -> Result<RoomAfter<u32>, String> {
        let told = !self.all(name).is_empty();
        Ok(RoomAfter::kept(match told {
            true => self.numbers(name)?,
            false => before.to_vec(),
        }))
    }

    fn file(&self, name: &str) -> Result<FileGiven, String> {
        match self.one(name)? {
            "absent" => Ok(FileGiven::Absent),
            "folder" => Ok(FileGiven::Folder),
            _ => self.bytes(name).map(FileGiven::Bytes),
        }
    }
}

fn read_numbers(token: &str) -> Option<Vec<u32>> {
    if let Some((first, last)) = token.split_once("..") {
        return Some((first.parse().ok()?..=last.parse().ok()?).collect());
    }
    let (number, times) = token.split_once('*').unwrap_or((token, "1"));
    Some(vec![number.parse().ok()?; times.parse().ok()?])
}

fn read_all_bytes(value: &str) -> Option<Vec<u8>> {
    let mut bytes = Vec::new();
    for token in value.split_whitespace() {
        let (digits, times) = token.split_once('*').unwrap_or((token, "1"));
        bytes.extend(read_bytes(digits)?.repeat(times.parse().ok()?));
    }
    Some(bytes)
}

fn read_bytes(digits: &str) -> Option<Vec<u8>> {
    let digits = digits.as_bytes();
    let byte_of = |pair: &[u8]| u8::from_str_radix(std::str::from_utf8(pair).ok()?, 16).ok();
    let even = digits.len().is_multiple_of(2);
    even.then(|| digits.chunks(2).map(byte_of).collect())?
}

fn read_inputs(kind: Kind, fields: &Fields) -> Result<Case, String> {
    Ok(match kind {
        Kind::WriteList => Case::WriteList {
            bound: fields.number("u")?,
            list: fields.numbers("list")?,
            room: fields.bytes("room")?,
        },
        Kind::CheckList => Case::CheckList {
            block: fields.bytes("block")?,
        },
        Kind::WriteTerm => read_write_term(fields)?,
        Kind::BeginTerm | Kind::PutPostings | Kind::EndTerm => {
            Case::Stream(read_stream_case(kind, fields)?)
        }
        Kind::CheckTerm => Case::CheckTerm {
            version: fields.number("version")?,
            block: fields.bytes("block")?,
        },
        Kind::CloseIndex => read_close_index(fields)?,
        Kind::CheckIndex => Case::CheckIndex {
            card: fields.bytes("card")?,
        },
        Kind::Ask => Case::Ask {
            card: fields.bytes("card")?,
            questions: fields.numbers("questions")?,
            room: fields.numbers("room")?,
        },
        Kind::Screen => Case::Screen(read_screen_case(fields)?),
        Kind::Program => Case::Program {
            card: fields.file("card")?,
            questions: fields.file("questions")?,
        },
    })
}

fn read_write_term(fields: &Fields) -> Result<Case, String> {
    Ok(Case::WriteTerm {
        version: fields.number("version")?,
        card_pages: fields.number("n")?,
        pages: fields.numbers("pages")?,
        counts: fields.numbers("counts")?,
        positions: fields.numbers("positions")?,
        room: fields.bytes("room")?,
    })
}

fn read_close_index(fields: &Fields) -> Result<Case, String> {
    Ok(Case::CloseIndex {
        buffer: fields.bytes("buffer")?,
        used: fields.number("used")?,
        version: fields.number("version")?,
        card_pages: fields.number("n")?,
        term_count: fields.number("t")?,
    })
}

/// Reads an outcome; a room that is not told of is unchanged.
fn read_outcome(case: &Case, fields: &Fields) -> Result<Outcome, String> {
    Ok(match case {
        Case::CheckList { .. } | Case::CheckTerm { .. } | Case::CheckIndex { .. } => {
            Outcome::Checked {
                refusal: fields.number("refusal")?,
            }
        }
        Case::WriteList { room, .. }
        | Case::WriteTerm { room, .. }
        | Case::CloseIndex { buffer: room, .. } => Outcome::Written {
            refusal: fields.number("refusal")?,
            length: fields.number("length")?,
            after: fields.room_after(room)?,
        },
        Case::Stream(case) => read_streamed(case, fields)?,
        Case::Ask { room, .. } => Outcome::Asked {
            refusal: fields.number("refusal")?,
            answered: fields.number("answered")?,
            used: fields.number("used")?,
            after: fields.numbers_after("after", room)?,
        },
        Case::Screen(case) => read_screened(case, fields)?,
        Case::Program { .. } => Outcome::Printed {
            text: fields
                .all("line")
                .iter()
                .fold(String::new(), |text, line| text + line.trim_start() + "\n"),
        },
    })
}

/// Writes a case so that it can be read again.
pub fn case_text(case: &Case) -> String {
    let mut text = format!("call {}\n", case.kind().name());
    match case {
        Case::WriteList { bound, list, room } => {
            put_number(&mut text, "u", *bound);
            put_numbers(&mut text, "list", list);
            put_bytes(&mut text, "room", room);
        }
        Case::CheckList { block } => put_bytes(&mut text, "block", block),
        Case::CheckTerm { version, block } => {
            put_number(&mut text, "version", *version);
            put_bytes(&mut text, "block", block);
        }
        Case::WriteTerm { .. } | Case::CloseIndex { .. } => put_edition_case(&mut text, case),
        Case::Stream(case) => put_stream_case(&mut text, case),
        Case::CheckIndex { card } => put_bytes(&mut text, "card", card),
        Case::Ask {
            card,
            questions,
            room,
        } => {
            put_bytes(&mut text, "card", card);
            put_numbers(&mut text, "questions", questions);
            put_numbers(&mut text, "room", room);
        }
        Case::Screen(case) => put_screen_case(&mut text, case),
        Case::Program { card, questions } => {
            put_file(&mut text, "card", card);
            put_file(&mut text, "questions", questions);
        }
    }
    text
}

/// Writes the inputs of the writer of a term, or of a closing.
fn put_edition_case(text: &mut String, case: &Case) {
    match case {
        Case::WriteTerm {
            version,
            card_pages,
            pages,
            counts,
            positions,
            room,
        } => {
            put_number(text, "version", *version);
            put_number(text, "n", *card_pages);
            put_numbers(text, "pages", pages);
            put_numbers(text, "counts", counts);
            put_numbers(text, "positions", positions);
            put_bytes(text, "room", room);
        }
        Case::CloseIndex {
            buffer,
            used,
            version,
            card_pages,
            term_count,
        } => {
            put_bytes(text, "buffer", buffer);
            put_number(text, "used", *used);
            put_number(text, "version", *version);
            put_number(text, "n", *card_pages);
            put_number(text, "t", *term_count);
        }
        _ => {}
    }
}

/// Writes an outcome in the form it is read in.
pub fn outcome_text(outcome: &Outcome) -> String {
    let mut text = String::new();
    match outcome {
        Outcome::Checked { refusal } => put_number(&mut text, "refusal", *refusal),
        Outcome::Written {
            refusal,
            length,
            after,
        } => put_written(&mut text, *refusal, *length, None, after),
        Outcome::Streamed {
            refusal,
            length,
            stream,
            after,
        } => put_written(&mut text, *refusal, *length, Some(*stream), after),
        Outcome::Asked {
            refusal,
            answered,
            used,
            after,
        } => {
            put_number(&mut text, "refusal", *refusal);
            put_number(&mut text, "answered", *answered);
            put_number(&mut text, "used", *used);
            put_numbers(&mut text, "after", &after.room);
            put_surroundings(&mut text, after.surroundings_kept);
        }
        Outcome::Screened(after) => put_screened(&mut text, after),
        Outcome::Printed { text: printed } => {
            for line in printed.split_terminator('\n') {
                put_number(&mut text, "line", line);
            }
        }
    }
    text
}

fn put_written(
    text: &mut String,
    refusal: u32,
    length: usize,
    stream: Option<Stream>,
    after: &RoomAfter<u8>,
) {
    put_number(text, "refusal", refusal);
    put_number(text, "length", length);
    if let Some(stream) = stream {
        put_stream(text, stream);
    }
    put_bytes(text, "after", &after.room);
    put_surroundings(text, after.surroundings_kept);
}

/// Writes what a comment says, a line for each line.
pub fn comment_text(text: &str) -> String {
    text.lines().map(|line| format!("# {line}\n")).collect()
}

/// Tells where something around a room has changed.
pub fn put_surroundings(text: &mut String, kept: bool) {
    if !kept {
        text.push_str("# written to outside the room\n");
    }
}

/// Writes a line of this name.
pub fn put_number(text: &mut String, name: &str, number: impl std::fmt::Display) {
    writeln!(text, "{name} {number}").expect("text takes text");
}

/// Writes a line of this name.
pub fn put_numbers(text: &mut String, name: &str, numbers: &[u32]) {
    let words: Vec<String> = numbers.iter().map(u32::to_string).collect();
    put_wrapped(text, name, words.chunks(16).map(|line| line.join(" ")));
}

/// Writes a line of this name.
pub fn put_bytes(text: &mut String, name: &str, bytes: &[u8]) {
    let digits = |line: &[u8]| line.iter().map(|byte| format!("{byte:02X}")).collect();
    put_wrapped(text, name, bytes.chunks(32).map(digits));
}

fn put_file(text: &mut String, name: &str, file: &FileGiven) {
    match file {
        FileGiven::Bytes(bytes) => put_bytes(text, name, bytes),
        FileGiven::Absent => put_number(text, name, "absent"),
        FileGiven::Folder => put_number(text, name, "folder"),
    }
}

fn put_wrapped(text: &mut String, name: &str, lines: impl Iterator<Item = String>) {
    text.push_str(name);
    for (i, line) in lines.enumerate() {
        text.push_str(if i == 0 { " " } else { "\n  " });
        text.push_str(&line);
    }
    text.push('\n');
}

#[cfg(test)]
mod tests {
    use super::*;
    use crate::compare::plain_outcome;
    use crate::gen::{calls, files, screens, streams};

    #[test]
    fn a_case_file_reads_as_it_was_written() {
        let calls = (0..150).map(|number| calls::call(5, number));
        let runs = (0..50).map(|number| files::run(5, number));
        let sessions = (0..20).flat_map(|number| streams::session(5, number));
        let shown = (0..12).flat_map(|number| screens::set(5, number));
        let decided = sessions.chain(shown).map(|call| call.stored.case);
        for case in calls.chain(runs).chain(decided) {
            let outcome = plain_outcome(&case);
            let text = case_text(&case) + "gives\n" + &outcome_text(&outcome);
            let gives = Some(outcome);
            assert_eq!(read_cases(&text), Ok(vec![Stored { case, gives }]));
        }
    }

    #[test]
    fn ranges_and_repetitions_are_written_out() {
        let text = "call write_list # a comment\nu 9\nlist 1..3\n 7*2\nroom 0A*2 FF\n";
        let case = Case::WriteList {
            bound: 9,
            list: vec![1, 2, 3, 7, 7],
            room: vec![10, 10, 255],
        };
        assert_eq!(read_cases(text), Ok(vec![Stored { case, gives: None }]));
    }

    #[test]
    fn faults_of_a_file_are_told() {
        for text in [
            "call sing\n",
            "call check_list\n",
            "call check_list\nblock 0\n",
            "call write_list\nu x\nlist\nroom\n",
        ] {
            assert!(read_cases(text).is_err(), "{text}");
        }
    }
}
