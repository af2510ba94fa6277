//! A host that writes a word run by run: what it holds between two calls, and the calls it has made.

use super::cards::Word;
use crate::case::{Case, Outcome, RoomAfter};
use crate::compare::Decided;
use crate::plain::edition::Edition;
use crate::plain::stream::{Announced, Run, Stream};
use crate::stream_case::StreamCase;
use crate::text::Stored;

/// The host, with the session and the room that the last call left it.
pub struct Host {
    /// The session.
    pub stream: Stream,
    /// The room; a call is lent its first bytes.
    pub room: Vec<u8>,
    calls: Vec<Decided>,
}

impl Host {
    /// A host with this room and no session.
    pub fn with(room: Vec<u8>) -> Host {
        Host {
            stream: Stream::OVER,
            room,
            calls: Vec::new(),
        }
    }

    /// Announces a word in so many bytes of the room.
    pub fn begin(&mut self, announced: Announced, size: usize) {
        let room = self.room[..size].to_vec();
        self.make(StreamCase::Begin { announced, room });
    }

    /// Hands over a run.
    pub fn put(&mut self, run: &Run, size: usize) {
        self.make(StreamCase::Put {
            stream: self.stream,
            run: run.clone(),
            room: self.room[..size].to_vec(),
        });
    }

    /// Closes the word.
    pub fn end(&mut self, size: usize) {
        self.make(StreamCase::End {
            stream: self.stream,
            room: self.room[..size].to_vec(),
        });
    }

    /// Closes the word, which has to give this block.
    pub fn end_with(&mut self, block: &[u8], size: usize) {
        let behind = &self.room[block.len()..size];
        let gives = Outcome::Streamed {
            refusal: 0,
            length: block.len(),
            stream: Stream::OVER,
            after: RoomAfter {
                room: [block, behind].concat(),
                surroundings_kept: true,
            },
        };
        self.end(size);
        let close = self.calls.last_mut().expect("the close is made");
        close.stored.gives = Some(gives);
    }

    fn make(&mut self, case: StreamCase) {
        let decided = Decided::now(Stored::seeded(Case::Stream(case)));
        if let Outcome::Streamed { stream, after, .. } = &decided.plain {
            self.stream = *stream;
            self.room[..after.room.len()].copy_from_slice(&after.room);
        }
        self.calls.push(decided);
    }

    /// The sessions that its calls were made with, the one it has now last.
    pub fn sessions(&self) -> Vec<Stream> {
        let made_with = self
            .calls
            .iter()
            .filter_map(|call| match &call.stored.case {
                Case::Stream(StreamCase::Put { stream, .. } | StreamCase::End { stream, .. }) => {
                    Some(*stream)
                }
                _ => None,
            });
        made_with.chain([self.stream]).collect()
    }

    /// The calls that it has made, in turn.
    pub fn into_calls(self) -> Vec<Decided> {
        self.calls
    }
}

/// What is announced of a valid word.
pub fn announced(edition: Edition, card_pages: u32, word: &Word) -> Announced {
    Announced {
        version: edition.version(),
        card_pages,
        pages: word.pages.len() as u32,
        positions: word.positions.len() as u32,
        bound: word.term(edition, card_pages).positions.bound,
    }
}

/// The runs of a word that is cut behind so many of its pages each time; equal cuts give a run without postings.
pub fn runs(word: &Word, cuts: &[usize]) -> Vec<Run> {
    let starts = [0].into_iter().chain(cuts.iter().copied());
    let ends = cuts.iter().copied().chain([word.pages.len()]);
    starts
        .zip(ends)
        .map(|(start, end)| part(word, start, end))
        .collect()
}

fn part(word: &Word, start: usize, end: usize) -> Run {
    let positions_of = |counts: &[u32]| counts.iter().sum::<u32>() as usize;
    let first = positions_of(&word.counts[..start]);
    let last = first + positions_of(&word.counts[start..end]);
    Run {
        pages: word.pages[start..end].to_vec(),
        counts: word.counts[start..end].to_vec(),
        positions: word.positions[first..last].to_vec(),
    }
}
