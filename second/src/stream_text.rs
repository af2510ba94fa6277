//! The lines of case files that only the calls of a session have.
//!
//! A session is the line `stream` with its ten numbers in their order: mark, version, N, pages, positions, U, laid,
//! filled, page, base.

use crate::case::{Kind, Outcome};
use crate::plain::stream::{Announced, Run, Stream};
use crate::stream_case::StreamCase;
use crate::text::{put_bytes, put_number, put_numbers, Fields};

/// Reads the inputs of a call of a session.
pub fn read_stream_case(kind: Kind, fields: &Fields) -> Result<StreamCase, String> {
    let room = fields.bytes("room")?;
    Ok(match kind {
        Kind::BeginTerm => StreamCase::Begin {
            announced: Announced {
                version: fields.number("version")?,
                card_pages: fields.number("n")?,
                pages: fields.number("pages")?,
                positions: fields.number("positions")?,
                bound: fields.number("u")?,
            },
            room,
        },
        Kind::PutPostings => StreamCase::Put {
            stream: read_stream(fields)?,
            run: Run {
                pages: fields.numbers("pages")?,
                counts: fields.numbers("counts")?,
                positions: fields.numbers("positions")?,
            },
            room,
        },
        _ => StreamCase::End {
            stream: read_stream(fields)?,
            room,
        },
    })
}

/// Reads what a call of a session gives; a room that is not told of is unchanged.
pub fn read_streamed(case: &StreamCase, fields: &Fields) -> Result<Outcome, String> {
    Ok(Outcome::Streamed {
        refusal: fields.number("refusal")?,
        length: fields.number("length")?,
        stream: read_stream(fields)?,
        after: fields.room_after(case.room())?,
    })
}

fn read_stream(fields: &Fields) -> Result<Stream, String> {
    let numbers = fields.numbers("stream")?.try_into();
    numbers
        .map(Stream::of_numbers)
        .map_err(|_| "`stream` takes ten numbers".to_string())
}

/// Writes the inputs of a call of a session.
pub fn put_stream_case(text: &mut String, case: &StreamCase) {
    match case {
        StreamCase::Begin { announced, .. } => {
            put_number(text, "version", announced.version);
            put_number(text, "n", announced.card_pages);
            put_number(text, "pages", announced.pages);
            put_number(text, "positions", announced.positions);
            put_number(text, "u", announced.bound);
        }
        StreamCase::Put { stream, run, .. } => {
            put_stream(text, *stream);
            put_numbers(text, "pages", &run.pages);
            put_numbers(text, "counts", &run.counts);
            put_numbers(text, "positions", &run.positions);
        }
        StreamCase::End { stream, .. } => put_stream(text, *stream),
    }
    put_bytes(text, "room", case.room());
}

/// Writes the numbers of a session.
pub fn put_stream(text: &mut String, stream: Stream) {
    put_numbers(text, "stream", &stream.numbers());
}
