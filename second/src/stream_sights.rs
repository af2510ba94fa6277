//! The edges and limits of a word written run by run that a compared call has shown.

use crate::case::{Case, Kind, Outcome};
use crate::plain::stream::{Announced, Run, Stream};
use crate::plain::term::TERM_HEADER;
use crate::plain::{refusal, GREATEST_BOUND};
use crate::stream_case::StreamCase;
use crate::stream_faults::{stream_fault, Fault};

/// Something about sessions that a whole run must have seen.
#[derive(Clone, Copy, Debug, PartialEq, Eq)]
pub enum StreamSight {
    /// A call was refused for this fault alone.
    Refused(Fault),
    /// A call of this kind was refused in a room one byte short.
    OneShort(Kind),
    /// A run that is not valid was given a room that is too short.
    ShortBeforeBadRun,
    /// A session that is over was given a room that is too short for any block.
    ShortAfterTheEnd,
    /// A word was announced with N at its limit.
    GreatestPages,
    /// A word was announced with U at its limit.
    GreatestBound,
    /// A run without postings was laid.
    EmptyRun,
    /// A run with postings was laid behind another.
    LaterRun,
    /// A run was laid whose ones all stood in the room.
    OnesStoodThere,
    /// A run was refused whose last element is below U if it is cut to 32 bits.
    PastFourBytes,
    /// A word with pointers was closed in a room of its own size.
    ClosedExact,
    /// A word with pointers was closed in a longer room.
    ClosedInLonger,
    /// A word with pointers was closed in a room without a zero.
    ClosedWithoutZeros,
}

impl StreamSight {
    /// Every sight, in the order of the report.
    pub const ALL: [StreamSight; 34] = [
        StreamSight::Refused(Fault::Version),
        StreamSight::Refused(Fault::CardPages),
        StreamSight::Refused(Fault::Bound),
        StreamSight::Refused(Fault::PagesOverCard),
        StreamSight::Refused(Fault::PagesOverPositions),
        StreamSight::Refused(Fault::PositionsOverBound),
        StreamSight::Refused(Fault::NoPages),
        StreamSight::Refused(Fault::NoPositions),
        StreamSight::Refused(Fault::Mark),
        StreamSight::Refused(Fault::Announcement),
        StreamSight::Refused(Fault::Laid),
        StreamSight::Refused(Fault::Filled),
        StreamSight::Refused(Fault::Lists),
        StreamSight::Refused(Fault::Seam),
        StreamSight::Refused(Fault::ExtraPages),
        StreamSight::Refused(Fault::ExtraPositions),
        StreamSight::Refused(Fault::PastBound),
        StreamSight::Refused(Fault::PagesMissing),
        StreamSight::Refused(Fault::PositionsMissing),
        StreamSight::Refused(Fault::BoundMissed),
        StreamSight::OneShort(Kind::BeginTerm),
        StreamSight::OneShort(Kind::PutPostings),
        StreamSight::OneShort(Kind::EndTerm),
        StreamSight::ShortBeforeBadRun,
        StreamSight::ShortAfterTheEnd,
        StreamSight::GreatestPages,
        StreamSight::GreatestBound,
        StreamSight::EmptyRun,
        StreamSight::LaterRun,
        StreamSight::OnesStoodThere,
        StreamSight::PastFourBytes,
        StreamSight::ClosedExact,
        StreamSight::ClosedInLonger,
        StreamSight::ClosedWithoutZeros,
    ];

    /// Its place among all.
    pub fn place(self) -> usize {
        let place = StreamSight::ALL.iter().position(|sight| *sight == self);
        place.expect("every sight is among all")
    }

    /// What is counted, as the report names it.
    pub fn name(self) -> String {
        match self {
            StreamSight::Refused(fault) => fault.name().into(),
            StreamSight::OneShort(kind) => format!("{} in a room one byte short", kind.name()),
            StreamSight::ShortBeforeBadRun => "bad runs in a room too short".into(),
            StreamSight::ShortAfterTheEnd => "sessions over in a room too short".into(),
            StreamSight::GreatestPages => "words announced with N at its limit".into(),
            StreamSight::GreatestBound => "words announced with U at its limit".into(),
            StreamSight::EmptyRun => "runs laid without postings".into(),
            StreamSight::LaterRun => "runs laid behind others".into(),
            StreamSight::OnesStoodThere => "runs laid whose ones stood there".into(),
            StreamSight::PastFourBytes => "runs refused that are below U only in 32 bits".into(),
            StreamSight::ClosedExact => "words closed with pointers in an exact room".into(),
            StreamSight::ClosedInLonger => "words closed with pointers in a longer room".into(),
            StreamSight::ClosedWithoutZeros => "words closed with pointers and no zeros".into(),
        }
    }
}

/// What a call of a session has shown, by what the plain program gives for it.
pub fn stream_sights(case: &Case, plain: &Outcome) -> Vec<StreamSight> {
    match (case, plain) {
        (Case::Stream(case), Outcome::Streamed { refusal, after, .. }) => match *refusal {
            0 => of_accepted(case, &after.room),
            refusal::ROOM => of_short_room(case),
            _ => of_refused(case),
        },
        _ => Vec::new(),
    }
}

/// The sights of those that hold.
fn holding(all: &[(bool, StreamSight)]) -> Vec<StreamSight> {
    let holding = all.iter().filter(|(holds, _)| *holds);
    holding.map(|(_, sight)| *sight).collect()
}

fn of_refused(case: &StreamCase) -> Vec<StreamSight> {
    let mut sights: Vec<StreamSight> = stream_fault(case)
        .map(StreamSight::Refused)
        .into_iter()
        .collect();
    match case {
        StreamCase::Put { stream, .. } | StreamCase::End { stream, .. } if !stream.goes_on() => {
            let short = case.room().len() < TERM_HEADER;
            sights.extend(holding(&[(short, StreamSight::ShortAfterTheEnd)]));
        }
        StreamCase::Put { stream, run, .. } => {
            let wraps = sights == [StreamSight::Refused(Fault::PastBound)]
                && cut_end(*stream, run) < stream.announced.bound;
            sights.extend(holding(&[(wraps, StreamSight::PastFourBytes)]));
        }
        _ => {}
    }
    sights
}

/// The last element of a run whose lists are valid, as sums of 32 bits would have it.
fn cut_end(stream: Stream, run: &Run) -> u32 {
    let mut next = 0;
    let mut base = stream.base;
    for count in &run.counts {
        next += *count as usize;
        base = base.wrapping_add(run.positions[next - 1]).wrapping_add(1);
    }
    base.wrapping_sub(1)
}

fn of_short_room(case: &StreamCase) -> Vec<StreamSight> {
    let announced = match case {
        StreamCase::Begin { announced, .. } => *announced,
        StreamCase::Put { stream, .. } | StreamCase::End { stream, .. } => stream.announced,
    };
    let one_short = announced.block_length() == Some(case.room().len() + 1);
    let bad_run = case.kind() == Kind::PutPostings && stream_fault(case).is_some();
    holding(&[
        (one_short, StreamSight::OneShort(case.kind())),
        (bad_run, StreamSight::ShortBeforeBadRun),
    ])
}

fn of_accepted(case: &StreamCase, after: &[u8]) -> Vec<StreamSight> {
    match case {
        StreamCase::Begin { announced, .. } => holding(&[
            (
                announced.card_pages == GREATEST_BOUND,
                StreamSight::GreatestPages,
            ),
            (
                announced.bound == GREATEST_BOUND,
                StreamSight::GreatestBound,
            ),
        ]),
        StreamCase::Put { stream, run, room } => {
            let empty = run.pages.is_empty();
            holding(&[
                (empty, StreamSight::EmptyRun),
                (!empty && stream.laid > 0, StreamSight::LaterRun),
                (!empty && room == after, StreamSight::OnesStoodThere),
            ])
        }
        StreamCase::End { stream, room } => of_closed(stream.announced, room),
    }
}

fn of_closed(announced: Announced, room: &[u8]) -> Vec<StreamSight> {
    let length = announced.block_length().unwrap_or(0);
    let pointers = announced.pointers() > 0;
    let no_zeros = room[..length].iter().all(|byte| *byte == u8::MAX);
    holding(&[
        (pointers && room.len() == length, StreamSight::ClosedExact),
        (pointers && room.len() > length, StreamSight::ClosedInLonger),
        (pointers && no_zeros, StreamSight::ClosedWithoutZeros),
    ])
}

#[cfg(test)]
mod tests {
    use super::*;
    use crate::compare::plain_outcome;
    use crate::stored;

    #[test]
    fn the_stored_calls_show_every_sight() {
        let mut seen = [0; StreamSight::ALL.len()];
        for (_, stored) in stored::edges().expect("the edges can be read") {
            let plain = plain_outcome(&stored.case);
            for sight in stream_sights(&stored.case, &plain) {
                seen[sight.place()] += 1;
            }
        }
        let unseen = StreamSight::ALL
            .into_iter()
            .filter(|sight| seen[sight.place()] == 0);
        assert_eq!(unseen.collect::<Vec<_>>(), []);
    }
}
