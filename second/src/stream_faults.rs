//! Why a call of a session was refused, where one fault alone decides it.

use crate::plain::edition::Edition;
use crate::plain::stream::{Announced, Run, Stream, GOING_ON};
use crate::plain::{refusal, GREATEST_BOUND};
use crate::stream_case::StreamCase;

/// What is wrong with an announcement, a session, a run or a close.
#[derive(Clone, Copy, Debug, PartialEq, Eq)]
pub enum Fault {
    /// The version is not known.
    Version,
    /// N is over its limit.
    CardPages,
    /// U is over its limit.
    Bound,
    /// More pages are announced than N.
    PagesOverCard,
    /// More pages are announced than positions.
    PagesOverPositions,
    /// More positions are announced than U.
    PositionsOverBound,
    /// Positions are announced, but no pages.
    NoPages,
    /// U is not 0, and no positions are announced.
    NoPositions,
    /// The session's mark is not that of one that goes on.
    Mark,
    /// The session's announcement is not a good one.
    Announcement,
    /// The session has laid more pages than announced.
    Laid,
    /// The session has laid more positions than announced.
    Filled,
    /// The lists of a run are not valid by themselves.
    Lists,
    /// A run begins below the last page plus 1.
    Seam,
    /// A run takes the pages past their number.
    ExtraPages,
    /// A run takes the positions past their number.
    ExtraPositions,
    /// A run takes an element to U or above.
    PastBound,
    /// Pages are missing at the close.
    PagesMissing,
    /// Positions are missing at the close.
    PositionsMissing,
    /// The last element plus 1 is not U at the close.
    BoundMissed,
}

impl Fault {
    /// The refused call and its fault, as the report names them.
    pub fn name(self) -> &'static str {
        match self {
            Fault::Version => "announcements refused for their version alone",
            Fault::CardPages => "announcements refused for N alone",
            Fault::Bound => "announcements refused for U alone",
            Fault::PagesOverCard => "announcements refused for more pages than N alone",
            Fault::PagesOverPositions => {
                "announcements refused for more pages than positions alone"
            }
            Fault::PositionsOverBound => "announcements refused for more positions than U alone",
            Fault::NoPages => "announcements refused for positions but no pages alone",
            Fault::NoPositions => "announcements refused for U without positions alone",
            Fault::Mark => "sessions refused for their mark alone",
            Fault::Announcement => "sessions refused for their announcement alone",
            Fault::Laid => "sessions refused for too many pages laid alone",
            Fault::Filled => "sessions refused for too many positions laid alone",
            Fault::Lists => "runs refused for their own lists alone",
            Fault::Seam => "runs refused for their seam alone",
            Fault::ExtraPages => "runs refused for a page too many alone",
            Fault::ExtraPositions => "runs refused for a position too many alone",
            Fault::PastBound => "runs refused for an element not below U alone",
            Fault::PagesMissing => "closes refused for missing pages alone",
            Fault::PositionsMissing => "closes refused for missing positions alone",
            Fault::BoundMissed => "closes refused for another U alone",
        }
    }
}

/// The one thing that is wrong with a call, its room aside.
pub fn stream_fault(case: &StreamCase) -> Option<Fault> {
    match case {
        StreamCase::Begin { announced, .. } => only(&of_announcement(*announced)),
        StreamCase::Put { stream, .. } | StreamCase::End { stream, .. } if !stream.goes_on() => {
            only(&of_session(*stream))
        }
        StreamCase::Put { stream, run, .. } => only(&of_run(*stream, run)),
        StreamCase::End { stream, .. } => only(&of_close(*stream)),
    }
}

/// The fault that holds, if no other does.
fn only(faults: &[(bool, Fault)]) -> Option<Fault> {
    let mut holding = faults.iter().filter(|(holds, _)| *holds);
    match (holding.next(), holding.next()) {
        (Some((_, fault)), None) => Some(*fault),
        _ => None,
    }
}

fn of_announcement(announced: Announced) -> [(bool, Fault); 8] {
    let Announced {
        version,
        card_pages,
        pages,
        positions,
        bound,
    } = announced;
    [
        (Edition::of_version(version).is_err(), Fault::Version),
        (card_pages > GREATEST_BOUND, Fault::CardPages),
        (bound > GREATEST_BOUND, Fault::Bound),
        (pages > card_pages, Fault::PagesOverCard),
        (pages > positions, Fault::PagesOverPositions),
        (positions > bound, Fault::PositionsOverBound),
        (positions > 0 && pages == 0, Fault::NoPages),
        (bound > 0 && positions == 0, Fault::NoPositions),
    ]
}

fn of_session(stream: Stream) -> [(bool, Fault); 4] {
    let announced = stream.announced;
    [
        (stream.mark != GOING_ON, Fault::Mark),
        (announced.check().is_err(), Fault::Announcement),
        (stream.laid > announced.pages, Fault::Laid),
        (stream.filled > announced.positions, Fault::Filled),
    ]
}

fn of_run(stream: Stream, run: &Run) -> [(bool, Fault); 5] {
    let announced = stream.announced;
    let alone = announced.run_alone(run);
    let pages = stream.laid as usize + run.pages.len();
    let positions = stream.filled as usize + run.positions.len();
    let past_bound = match &alone {
        Ok(term) => {
            let end = u64::from(stream.base) + u64::from(term.positions.bound);
            end > u64::from(announced.bound)
        }
        Err(refused) => *refused == refusal::LIMIT,
    };
    let seam = run.pages.first().is_some_and(|first| *first < stream.page);
    [
        (alone == Err(refusal::INPUT), Fault::Lists),
        (seam, Fault::Seam),
        (pages > announced.pages as usize, Fault::ExtraPages),
        (
            positions > announced.positions as usize,
            Fault::ExtraPositions,
        ),
        (past_bound, Fault::PastBound),
    ]
}

fn of_close(stream: Stream) -> [(bool, Fault); 3] {
    let announced = stream.announced;
    [
        (stream.laid != announced.pages, Fault::PagesMissing),
        (
            stream.filled != announced.positions,
            Fault::PositionsMissing,
        ),
        (stream.base != announced.bound, Fault::BoundMissed),
    ]
}
