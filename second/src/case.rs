//! One case, the run of it on one side, and its outcome.

use crate::host_calls::{Asked, HostCalls, Written};
use crate::plain::stream::Stream;
use crate::screen_case::{ScreenAfter, ScreenCase};
use crate::stream_case::StreamCase;

/// The calls that are compared, and the program.
#[derive(Clone, Copy, Debug, PartialEq, Eq)]
pub enum Kind {
    /// `jf_write_list`.
    WriteList,
    /// `jf_check_list`.
    CheckList,
    /// `jf_write_term`.
    WriteTerm,
    /// `jf_begin_term`.
    BeginTerm,
    /// `jf_put_postings`.
    PutPostings,
    /// `jf_end_term`.
    EndTerm,
    /// `jf_check_term`.
    CheckTerm,
    /// `jf_close_index`.
    CloseIndex,
    /// `jf_check_index`.
    CheckIndex,
    /// `jf_ask`.
    Ask,
    /// `jf_screen`.
    Screen,
    /// A run of the program.
    Program,
}

impl Kind {
    /// Every kind, the program last.
    pub const ALL: [Kind; 12] = [
        Kind::WriteList,
        Kind::CheckList,
        Kind::WriteTerm,
        Kind::BeginTerm,
        Kind::PutPostings,
        Kind::EndTerm,
        Kind::CheckTerm,
        Kind::CloseIndex,
        Kind::CheckIndex,
        Kind::Ask,
        Kind::Screen,
        Kind::Program,
    ];

    /// The name used in case files and reports.
    pub fn name(self) -> &'static str {
        match self {
            Kind::WriteList => "write_list",
            Kind::CheckList => "check_list",
            Kind::WriteTerm => "write_term",
            Kind::BeginTerm => "begin_term",
            Kind::PutPostings => "put_postings",
            Kind::EndTerm => "end_term",
            Kind::CheckTerm => "check_term",
            Kind::CloseIndex => "close_index",
            Kind::CheckIndex => "check_index",
            Kind::Ask => "ask",
            Kind::Screen => "screen",
            Kind::Program => "program",
        }
    }

    /// The numbers of refusal that can occur, 0 for none.
    pub fn can_occur(self) -> &'static [u32] {
        match self {
            Kind::WriteList => &[0, 4, 9, 10],
            Kind::WriteTerm | Kind::BeginTerm => &[0, 3, 4, 9, 10],
            Kind::PutPostings | Kind::EndTerm => &[0, 9, 10],
            Kind::CheckList => &[0, 1, 2, 3, 4, 5, 6],
            Kind::CheckTerm | Kind::CheckIndex => &[0, 1, 2, 3, 4, 5, 6, 7],
            Kind::CloseIndex => &[0, 1, 2, 3, 4, 5, 6, 7, 9],
            Kind::Ask | Kind::Screen | Kind::Program => &[0, 1, 2, 3, 4, 5, 6, 7, 8, 9],
        }
    }
}

/// What lies at a path that the program is given.
#[derive(Clone, Debug, PartialEq, Eq)]
pub enum FileGiven {
    /// A file of these bytes.
    Bytes(Vec<u8>),
    /// Nothing at all.
    Absent,
    /// A folder, which can't be read as a file.
    Folder,
}

impl FileGiven {
    /// The bytes that can be read, if any.
    pub fn readable(&self) -> Option<&[u8]> {
        match self {
            FileGiven::Bytes(bytes) => Some(bytes),
            FileGiven::Absent | FileGiven::Folder => None,
        }
    }
}

/// The whole input of one call, rooms with what they hold before it.
#[derive(Clone, Debug, PartialEq, Eq)]
pub enum Case {
    /// U, the list and the room of `jf_write_list`.
    WriteList {
        bound: u32,
        list: Vec<u32>,
        room: Vec<u8>,
    },
    /// The block of `jf_check_list`.
    CheckList { block: Vec<u8> },
    /// The version, N, the three lists and the room of `jf_write_term`.
    WriteTerm {
        version: u32,
        card_pages: u32,
        pages: Vec<u32>,
        counts: Vec<u32>,
        positions: Vec<u32>,
        room: Vec<u8>,
    },
    /// A call of a session.
    Stream(StreamCase),
    /// The version and the block of `jf_check_term`.
    CheckTerm { version: u32, block: Vec<u8> },
    /// The buffer, used length, version, N and T of `jf_close_index`.
    CloseIndex {
        buffer: Vec<u8>,
        used: usize,
        version: u32,
        card_pages: u32,
        term_count: u32,
    },
    /// The card of `jf_check_index`.
    CheckIndex { card: Vec<u8> },
    /// The card, questions and room of `jf_ask`.
    Ask {
        card: Vec<u8>,
        questions: Vec<u32>,
        room: Vec<u32>,
    },
    /// A call for a screen.
    Screen(ScreenCase),
    /// The two files of a run of the program.
    Program {
        card: FileGiven,
        questions: FileGiven,
    },
}

impl Case {
    /// The call this case makes.
    pub fn kind(&self) -> Kind {
        match self {
            Case::WriteList { .. } => Kind::WriteList,
            Case::CheckList { .. } => Kind::CheckList,
            Case::WriteTerm { .. } => Kind::WriteTerm,
            Case::Stream(case) => case.kind(),
            Case::CheckTerm { .. } => Kind::CheckTerm,
            Case::CloseIndex { .. } => Kind::CloseIndex,
            Case::CheckIndex { .. } => Kind::CheckIndex,
            Case::Ask { .. } => Kind::Ask,
            Case::Screen(_) => Kind::Screen,
            Case::Program { .. } => Kind::Program,
        }
    }
}

/// A room after the call.
#[derive(Clone, Debug, PartialEq, Eq)]
pub struct RoomAfter<T> {
    /// The room itself.
    pub room: Vec<T>,
    /// Whether what lies before and behind the room is as it was.
    pub surroundings_kept: bool,
}

impl<T> RoomAfter<T> {
    /// A room with nothing changed around it.
    pub fn kept(room: Vec<T>) -> RoomAfter<T> {
        RoomAfter {
            room,
            surroundings_kept: true,
        }
    }
}

/// Everything a call shows of itself.
#[derive(Clone, Debug, PartialEq, Eq)]
pub enum Outcome {
    /// What a check gives.
    Checked { refusal: u32 },
    /// What a writer or the closing gives.
    Written {
        refusal: u32,
        length: usize,
        after: RoomAfter<u8>,
    },
    /// What a call of a session gives.
    Streamed {
        refusal: u32,
        length: usize,
        stream: Stream,
        after: RoomAfter<u8>,
    },
    /// What asking gives.
    Asked {
        refusal: u32,
        answered: usize,
        used: usize,
        after: RoomAfter<u32>,
    },
    /// What a screen gives.
    Screened(ScreenAfter),
    /// What the program prints.
    Printed { text: String },
}

impl Outcome {
    /// The number of refusal, 0 if none.
    pub fn refusal(&self) -> u32 {
        match self {
            Outcome::Checked { refusal }
            | Outcome::Written { refusal, .. }
            | Outcome::Streamed { refusal, .. }
            | Outcome::Asked { refusal, .. } => *refusal,
            Outcome::Screened(after) => after.screened.refusal,
            Outcome::Printed { text } => printed_refusal(text),
        }
    }
}

fn printed_refusal(text: &str) -> u32 {
    let last = text.lines().last().unwrap_or("");
    let number = last.strip_prefix("refused ");
    number.and_then(|digits| digits.parse().ok()).unwrap_or(0)
}

/// Runs a host call on one side; a call of a session, one for a screen and a program case give `None`.
pub fn run_call(side: &dyn HostCalls, case: &Case) -> Option<Outcome> {
    let checked = |refusal| Outcome::Checked { refusal };
    let outcome = match case {
        Case::WriteList { bound, list, room } => {
            written(room, |room| side.write_list(*bound, list, room))
        }
        Case::CheckList { block } => checked(side.check_list(block)),
        Case::WriteTerm {
            version,
            card_pages,
            pages,
            counts,
            positions,
            room,
        } => written(room, |room| {
            side.write_term(*version, *card_pages, pages, counts, positions, room)
        }),
        Case::CheckTerm { version, block } => checked(side.check_term(*version, block)),
        Case::CloseIndex {
            buffer,
            used,
            version,
            card_pages,
            term_count,
        } => written(buffer, |buffer| {
            side.close_index(buffer, *used, *version, *card_pages, *term_count)
        }),
        Case::CheckIndex { card } => checked(side.check_index(card)),
        Case::Ask {
            card,
            questions,
            room,
        } => asked(room, |room| side.ask(card, questions, room)),
        Case::Stream(_) | Case::Screen(_) | Case::Program { .. } => return None,
    };
    Some(outcome)
}

fn written(room: &[u8], call: impl FnOnce(&mut [u8]) -> Written) -> Outcome {
    let (Written { refusal, length }, after) = lend(room, call);
    Outcome::Written {
        refusal,
        length,
        after,
    }
}

fn asked(room: &[u32], call: impl FnOnce(&mut [u32]) -> Asked) -> Outcome {
    let (asked, after) = lend(room, call);
    Outcome::Asked {
        refusal: asked.refusal,
        answered: asked.answered,
        used: asked.used,
        after,
    }
}

/// Items kept on each side of a lent room, to see a write outside it.
const SURROUNDING: usize = 13;

/// Lends a copy of a room to a call, and tells how the copy came back.
pub fn lend<T, R>(room: &[T], call: impl FnOnce(&mut [T]) -> R) -> (R, RoomAfter<T>)
where
    T: Copy + PartialEq + From<u8>,
{
    let surrounding = [T::from(0xC3); SURROUNDING];
    let mut lent = [&surrounding[..], room, &surrounding[..]].concat();
    let end = SURROUNDING + room.len();
    let result = call(&mut lent[SURROUNDING..end]);
    let surroundings_kept = lent[..SURROUNDING] == surrounding && lent[end..] == surrounding;
    lent.truncate(end);
    let after = RoomAfter {
        room: lent.split_off(SURROUNDING),
        surroundings_kept,
    };
    (result, after)
}
