//! One call of a session, and the run of it on one side.

use crate::case::{lend, Kind, Outcome};
use crate::plain::stream::{Announced, Run, Stream};
use crate::stream_calls::StreamCalls;

/// The whole input of one call of a session, its room with what it holds before it.
#[derive(Clone, Debug, PartialEq, Eq)]
pub enum StreamCase {
    /// The announcement and the room of `jf_begin_term`.
    Begin { announced: Announced, room: Vec<u8> },
    /// The session, the postings and the room of `jf_put_postings`.
    Put {
        stream: Stream,
        run: Run,
        room: Vec<u8>,
    },
    /// The session and the room of `jf_end_term`.
    End { stream: Stream, room: Vec<u8> },
}

impl StreamCase {
    /// The call this case makes.
    pub fn kind(&self) -> Kind {
        match self {
            StreamCase::Begin { .. } => Kind::BeginTerm,
            StreamCase::Put { .. } => Kind::PutPostings,
            StreamCase::End { .. } => Kind::EndTerm,
        }
    }

    /// The room before the call.
    pub fn room(&self) -> &[u8] {
        match self {
            StreamCase::Begin { room, .. }
            | StreamCase::Put { room, .. }
            | StreamCase::End { room, .. } => room,
        }
    }

    /// Runs the call on one side.
    pub fn run(&self, side: &dyn StreamCalls) -> Outcome {
        let (streamed, after) = lend(self.room(), |room| match self {
            StreamCase::Begin { announced, .. } => side.begin_term(*announced, room),
            StreamCase::Put { stream, run, .. } => side.put_postings(*stream, run, room),
            StreamCase::End { stream, .. } => side.end_term(*stream, room),
        });
        Outcome::Streamed {
            refusal: streamed.refusal,
            length: streamed.length,
            stream: streamed.stream,
            after,
        }
    }
}
