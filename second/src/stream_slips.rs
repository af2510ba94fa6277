//! Libraries with one slip in the calls of a session, each of which the comparison has to find.

use crate::case::Case;
use crate::compare::Side;
use crate::gen::{cuts, streams};
use crate::host_calls::Plain;
use crate::plain::bitmap::BITS_PER_NUMBER;
use crate::plain::bits::bytes_to_run;
use crate::plain::bytes::push_number;
use crate::plain::edition::Edition;
use crate::plain::refusal;
use crate::plain::stream::{Announced, Run, Stream, Streamed, GOING_ON};
use crate::slips;
use crate::stream_calls::StreamCalls;
use crate::text::Stored;

/// A library with one slip in it, over the plain program.
#[derive(Clone, Copy, Debug, PartialEq, Eq)]
enum Slip {
    None,
    ComparesNoSeam,
    LeavesABadBlock,
    EndsInAShortRoom,
    GoesOnAfterTheClose,
    TakesAnyTotals,
    PointsBeforeTheClose,
    ForgetsEarlierRuns,
    NumbersEachRunFromZero,
    TellsTheLengthAtOnce,
    ClearsBehindTheBlock,
    ReadsPostingsBeforeTheRoom,
    TakesAnyMark,
    TakesAnyBase,
    TakesAnyVersion,
    ToldBehindTheAnnouncement,
    LaysByTheFirst,
    LeavesNumbersOut,
    NumbersBeforeTheClose,
    NumbersCountTheirOwnPage,
    LastNumberIsAnnounced,
}

const SLIPS: [Slip; 20] = [
    Slip::ComparesNoSeam,
    Slip::LeavesABadBlock,
    Slip::EndsInAShortRoom,
    Slip::GoesOnAfterTheClose,
    Slip::TakesAnyTotals,
    Slip::PointsBeforeTheClose,
    Slip::ForgetsEarlierRuns,
    Slip::NumbersEachRunFromZero,
    Slip::TellsTheLengthAtOnce,
    Slip::ClearsBehindTheBlock,
    Slip::ReadsPostingsBeforeTheRoom,
    Slip::TakesAnyMark,
    Slip::TakesAnyBase,
    Slip::TakesAnyVersion,
    Slip::ToldBehindTheAnnouncement,
    Slip::LaysByTheFirst,
    Slip::LeavesNumbersOut,
    Slip::NumbersBeforeTheClose,
    Slip::NumbersCountTheirOwnPage,
    Slip::LastNumberIsAnnounced,
];

impl Slip {
    /// The session as the slip has it when a run is handed over.
    fn session_for_run(self, stream: Stream) -> Stream {
        match self {
            Slip::ComparesNoSeam => Stream { page: 0, ..stream },
            Slip::NumbersEachRunFromZero => Stream { laid: 0, ..stream },
            Slip::TakesAnyMark => Stream {
                mark: GOING_ON,
                ..stream
            },
            Slip::TakesAnyBase if stream.base > stream.announced.bound => {
                Stream { base: 0, ..stream }
            }
            Slip::LaysByTheFirst if stream.announced.bitmap().is_some() => Stream {
                announced: of_version(Edition::First.version(), stream.announced),
                ..stream
            },
            _ => stream,
        }
    }

    /// What the slip makes of the numbers of a bitmap in a room that a call has succeeded in.
    fn change_numbers(self, announced: Announced, before: &[u8], room: &mut [u8]) {
        let Some(map) = announced.bitmap() else {
            return;
        };
        let numbers = announced.card_pages as usize / BITS_PER_NUMBER as usize;
        let start = map.start - 4 * numbers;
        let bits = bytes_to_run(&room[map.clone()]);
        let bits = &bits[..announced.card_pages as usize];
        let ones_in = |end: usize| bits[..end].iter().filter(|bit| **bit).count() as u32;
        let mut written = Vec::new();
        for number in 1..=numbers {
            let end = number * BITS_PER_NUMBER as usize;
            let right = ones_in(end);
            let is_last = end == bits.len();
            push_number(
                &mut written,
                match self {
                    Slip::NumbersCountTheirOwnPage => ones_in(bits.len().min(end + 1)),
                    Slip::LastNumberIsAnnounced if is_last => announced.pages,
                    _ => right,
                },
            );
        }
        match self {
            Slip::LeavesNumbersOut => {
                room[start..map.start].copy_from_slice(&before[start..map.start])
            }
            _ => room[start..map.start].copy_from_slice(&written),
        }
    }

    fn is_bad_in_any_room(stream: Stream, run: &Run) -> bool {
        let length = stream.announced.block_length().unwrap_or(0);
        let given = Plain.put_postings(stream, run, &mut vec![0; length]);
        given.refusal == refusal::INPUT
    }
}

/// The same announcement for an index of another version.
fn of_version(version: u32, announced: Announced) -> Announced {
    Announced {
        version,
        ..announced
    }
}

/// The session with everything announced laid.
fn whole(stream: Stream) -> Stream {
    Stream {
        laid: stream.announced.pages,
        filled: stream.announced.positions,
        base: stream.announced.bound,
        ..stream
    }
}

impl StreamCalls for Slip {
    fn begin_term(&self, announced: Announced, room: &mut [u8]) -> Streamed {
        let first = of_version(Edition::First.version(), announced);
        let unknown = Edition::of_version(announced.version).is_err();
        if *self == Slip::TakesAnyVersion && unknown {
            return Plain.begin_term(first, room);
        }
        if *self == Slip::ToldBehindTheAnnouncement && first.check().is_err() {
            return Plain.begin_term(first, room);
        }
        let given = Plain.begin_term(announced, room);
        let length = announced.block_length().unwrap_or(0);
        match (self, given.refusal) {
            (Slip::TellsTheLengthAtOnce, 0) => Streamed { length, ..given },
            (Slip::ClearsBehindTheBlock, 0) => {
                room[length..].fill(0);
                given
            }
            _ => given,
        }
    }

    fn put_postings(&self, stream: Stream, run: &Run, room: &mut [u8]) -> Streamed {
        let before = room.to_vec();
        if *self == Slip::ForgetsEarlierRuns && stream.goes_on() && stream.laid > 0 {
            Plain.begin_term(stream.announced, room);
        }
        let given = Plain.put_postings(self.session_for_run(stream), run, room);
        match (self, given.refusal) {
            (Slip::LeavesABadBlock, refusal::INPUT) => room.copy_from_slice(&before),
            (Slip::EndsInAShortRoom, refusal::ROOM) => {
                return Streamed {
                    stream: Stream::OVER,
                    ..given
                }
            }
            (Slip::ReadsPostingsBeforeTheRoom, refusal::ROOM)
                if Slip::is_bad_in_any_room(stream, run) =>
            {
                return Streamed {
                    refusal: refusal::INPUT,
                    length: 0,
                    stream: Stream::OVER,
                }
            }
            (Slip::PointsBeforeTheClose, 0) => drop(Plain.end_term(whole(stream), room)),
            (Slip::NumbersBeforeTheClose, 0) => {
                self.change_numbers(stream.announced, &before, room);
            }
            (Slip::LaysByTheFirst, 0 | refusal::ROOM) => {
                let announced = stream.announced;
                let stream = Stream {
                    announced,
                    ..given.stream
                };
                return Streamed { stream, ..given };
            }
            _ => {}
        }
        given
    }

    fn end_term(&self, stream: Stream, room: &mut [u8]) -> Streamed {
        let before = room.to_vec();
        let totals_pass = *self == Slip::TakesAnyTotals && stream.goes_on();
        let given = match totals_pass {
            true => Plain.end_term(whole(stream), room),
            false => Plain.end_term(stream, room),
        };
        if given.refusal == 0 {
            self.change_numbers(stream.announced, &before, room);
        }
        let keeps_session = *self == Slip::GoesOnAfterTheClose && given.refusal == 0;
        Streamed {
            stream: if keeps_session { stream } else { given.stream },
            ..given
        }
    }
}

/// The number of differences that a slip makes on some cases.
fn differences(slip: Slip, cases: &[Stored]) -> usize {
    let side = Side {
        calls: &Plain,
        streams: &slip,
        screens: &Plain,
    };
    slips::differences(side, cases)
}

fn stored_calls() -> Vec<Stored> {
    slips::stored_calls(|case| matches!(case, Case::Stream(_)))
}

fn seeded_calls() -> Vec<Stored> {
    let cuts = (0..128).flat_map(|number| cuts::session(3, number));
    let at_random = (0..240).flat_map(|number| streams::session(3, number));
    cuts.chain(at_random).map(|call| call.stored).collect()
}

#[test]
fn every_slip_alone_is_found_by_stored_and_by_seeded_calls() {
    let sets = [stored_calls(), seeded_calls()];
    slips::are_found(Slip::None, &SLIPS, &sets, differences);
}
