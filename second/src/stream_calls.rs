//! The three calls that write a word run by run, and the plain program behind them.

use crate::host_calls::Plain;
use crate::plain::stream::{self, Announced, Run, Stream, Streamed};

/// One side of the comparison: something that answers the calls of a session.
pub trait StreamCalls: Sync {
    /// Announces a word.
    fn begin_term(&self, announced: Announced, room: &mut [u8]) -> Streamed;
    /// Hands over the postings of some pages.
    fn put_postings(&self, stream: Stream, run: &Run, room: &mut [u8]) -> Streamed;
    /// Closes a word.
    fn end_term(&self, stream: Stream, room: &mut [u8]) -> Streamed;
}

impl StreamCalls for Plain {
    fn begin_term(&self, announced: Announced, room: &mut [u8]) -> Streamed {
        stream::begin_term(announced, room)
    }

    fn put_postings(&self, stream: Stream, run: &Run, room: &mut [u8]) -> Streamed {
        stream::put_postings(stream, run, room)
    }

    fn end_term(&self, stream: Stream, room: &mut [u8]) -> Streamed {
        stream::end_term(stream, room)
    }
}
