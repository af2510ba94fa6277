//! The edges of editions and forms that a compared case has shown.

use crate::case::{Case, Kind, Outcome};
use crate::compare::plain_outcome;
use crate::form_faults::{term_faults, Fault};
use crate::plain::bitmap::BITS_PER_NUMBER;
use crate::plain::bits::bytes_to_run;
use crate::plain::bytes::next_part;
use crate::plain::edition::{is_dense, Edition, Form};
use crate::plain::form::{all_questions, Question};
use crate::plain::index::INDEX_HEADER;
use crate::plain::list::{List, Shape, LIST_HEADER};
use crate::plain::stream::Stream;
use crate::plain::term::{take_apart, TERM_HEADER, TERM_OPENING};
use crate::plain::{refusal, GREATEST_BOUND};
use crate::screen_case::ScreenCase;
use crate::seek_sights::{seek_sights, SeekSight, MOST_WATCHED};
use crate::sights::{page_lists, ListBlock};
use crate::stream_case::StreamCase;

/// Something about editions and forms that a whole run must have seen.
#[derive(Clone, Copy, Debug, PartialEq, Eq)]
pub enum FormSight {
    /// A term was written with a bitmap.
    WrittenBitmap,
    /// A term with dense pages was written for version 1.
    WrittenDenseInFirst,
    /// A term with pages that are not dense was written for version 2.
    WrittenSparse,
    /// A word on no page was written for version 2.
    WrittenEmpty,
    /// A bitmap was written with the fewest pages that it can have.
    WrittenFewest,
    /// Runs were written for version 2 with one page too few for a bitmap.
    WrittenOneBelow,
    /// Runs were written for version 2 that take as many bits as a bitmap.
    WrittenEqual,
    /// A bitmap was written with every page.
    WrittenFull,
    /// A bitmap was written with the least U.
    WrittenOfOne,
    /// A bitmap was written with a U one below a multiple of 256.
    WrittenBelowNumber,
    /// A bitmap was written whose U is a multiple of 256.
    WrittenAtNumber,
    /// A bitmap was written with a U one above a multiple of 256.
    WrittenAboveNumber,
    /// A bitmap was written with a page that is a multiple of 256.
    WrittenPageAtNumber,
    /// A bitmap was written with the greatest U.
    WrittenGreatest,
    /// A term with a bitmap was checked.
    CheckedBitmap,
    /// A term of version 1 with dense pages was checked.
    CheckedDenseInFirst,
    /// A bitmap alone was refused for its version.
    LoneBitmap,
    /// A term was refused for its own version 2.
    TermVersion,
    /// A card was refused for its version alone.
    CardVersion,
    /// A card with bitmaps and with runs of some pages was checked.
    MixedCard,
    /// A card with a bitmap was refused for N alone.
    CardPages,
    /// A card or a closing was refused for the form of a list.
    FormOnCard(Kind),
    /// A bitmap was closed.
    ClosedBitmap,
    /// A call was refused for the version that it was told alone.
    ToldAlone(Kind),
    /// A call was refused for the version that it was told, with a later fault.
    ToldBefore(Kind),
    /// A call that was told an unknown version was refused for an earlier fault.
    ToldBehind(Kind),
    /// A word was announced whose pages are a bitmap.
    AnnouncedBitmap,
    /// A run was laid in a bitmap behind another.
    LaidInBitmap,
    /// A bitmap with numbers was closed in a room of its own size.
    EndedExact,
    /// A bitmap with numbers was closed in a longer room.
    EndedInLonger,
    /// A bitmap was closed whose U is a multiple of 256.
    EndedAtNumber,
    /// A bitmap was closed whose ones are not n.
    EndedOtherOnes,
    /// A bitmap was closed with spare bits set.
    EndedSpare,
    /// A page was asked for by its rank in a bitmap.
    AtRank,
    /// A bound was asked for on a bitmap.
    AtBound,
    /// A phrase with a bitmap was found.
    Phrase,
    /// Common pages of bitmaps and runs were listed.
    CommonMixed,
    /// Common pages of bitmaps alone were listed.
    CommonOfBitmaps,
    /// A screen of bitmaps and runs has pages.
    ScreenMixed,
    /// A screen of bitmaps alone has pages from a bound on.
    ScreenOfBitmaps,
    /// A term was refused for this fault of a list.
    Refused(Fault),
    /// A seek on a bitmap showed this.
    Seek(SeekSight),
}

/// The sights that are neither faults nor seeks, as the report names them.
const OWN: [(FormSight, &str); 47] = [
    (FormSight::WrittenBitmap, "terms written with a bitmap"),
    (
        FormSight::WrittenDenseInFirst,
        "dense terms written for version 1",
    ),
    (
        FormSight::WrittenSparse,
        "terms written for version 2 with runs",
    ),
    (
        FormSight::WrittenEmpty,
        "words on no page written for version 2",
    ),
    (
        FormSight::WrittenFewest,
        "bitmaps written with the fewest pages",
    ),
    (
        FormSight::WrittenOneBelow,
        "runs written with one page too few for a bitmap",
    ),
    (
        FormSight::WrittenEqual,
        "runs written for version 2 with as many bits as pages",
    ),
    (FormSight::WrittenFull, "bitmaps written with every page"),
    (FormSight::WrittenOfOne, "bitmaps written with U = 1"),
    (
        FormSight::WrittenBelowNumber,
        "bitmaps written with U one below a multiple of 256",
    ),
    (
        FormSight::WrittenAtNumber,
        "bitmaps written with U a multiple of 256",
    ),
    (
        FormSight::WrittenAboveNumber,
        "bitmaps written with U one above a multiple of 256",
    ),
    (
        FormSight::WrittenPageAtNumber,
        "bitmaps written with a page that is a multiple of 256",
    ),
    (
        FormSight::WrittenGreatest,
        "bitmaps written with U at its limit",
    ),
    (FormSight::CheckedBitmap, "terms checked with a bitmap"),
    (
        FormSight::CheckedDenseInFirst,
        "dense terms checked for version 1",
    ),
    (
        FormSight::LoneBitmap,
        "bitmaps alone refused for their version",
    ),
    (
        FormSight::TermVersion,
        "terms refused for their own version 2",
    ),
    (
        FormSight::CardVersion,
        "cards refused for their version alone",
    ),
    (FormSight::MixedCard, "cards checked with bitmaps and runs"),
    (
        FormSight::CardPages,
        "cards with a bitmap refused for N alone",
    ),
    (
        FormSight::FormOnCard(Kind::CheckIndex),
        "cards refused for the form of a list",
    ),
    (
        FormSight::FormOnCard(Kind::CloseIndex),
        "closings refused for the form of a list",
    ),
    (FormSight::ClosedBitmap, "closings of a card with a bitmap"),
    (
        FormSight::ToldAlone(Kind::WriteTerm),
        "write_term refused for the version told alone",
    ),
    (
        FormSight::ToldAlone(Kind::CheckTerm),
        "check_term refused for the version told alone",
    ),
    (
        FormSight::ToldAlone(Kind::CloseIndex),
        "close_index refused for the version told alone",
    ),
    (
        FormSight::ToldBefore(Kind::WriteTerm),
        "write_term refused for the version told before more",
    ),
    (
        FormSight::ToldBefore(Kind::BeginTerm),
        "begin_term refused for the version told before more",
    ),
    (
        FormSight::ToldBefore(Kind::CheckTerm),
        "check_term refused for the version told before more",
    ),
    (
        FormSight::ToldBefore(Kind::CloseIndex),
        "close_index refused for the version told before more",
    ),
    (
        FormSight::ToldBehind(Kind::CheckTerm),
        "check_term refused before the version told",
    ),
    (
        FormSight::ToldBehind(Kind::CloseIndex),
        "close_index refused before the version told",
    ),
    (FormSight::AnnouncedBitmap, "words announced with a bitmap"),
    (
        FormSight::LaidInBitmap,
        "runs laid in a bitmap behind others",
    ),
    (
        FormSight::EndedExact,
        "bitmaps with numbers ended in an exact room",
    ),
    (
        FormSight::EndedInLonger,
        "bitmaps with numbers ended in a longer room",
    ),
    (
        FormSight::EndedAtNumber,
        "bitmaps ended with U a multiple of 256",
    ),
    (
        FormSight::EndedOtherOnes,
        "bitmaps ended whose ones are not n",
    ),
    (FormSight::EndedSpare, "bitmaps ended with spare bits set"),
    (
        FormSight::AtRank,
        "pages asked for by their rank in a bitmap",
    ),
    (FormSight::AtBound, "bounds asked for on a bitmap"),
    (FormSight::Phrase, "phrases found with a bitmap"),
    (FormSight::CommonMixed, "common pages of bitmaps and runs"),
    (FormSight::CommonOfBitmaps, "common pages of bitmaps alone"),
    (FormSight::ScreenMixed, "screens of bitmaps and runs"),
    (
        FormSight::ScreenOfBitmaps,
        "screens of bitmaps alone from a bound on",
    ),
];

impl FormSight {
    /// The number of all sights.
    pub const COUNT: usize = OWN.len() + Fault::NAMED.len() + SeekSight::NAMED.len();

    /// Every sight with its name, in the order of the report.
    pub fn all() -> Vec<(FormSight, &'static str)> {
        let faults = Fault::NAMED.map(|(fault, name)| (FormSight::Refused(fault), name));
        let seeks = SeekSight::NAMED.map(|(seek, name)| (FormSight::Seek(seek), name));
        OWN.into_iter().chain(faults).chain(seeks).collect()
    }

    /// Its place among all.
    pub fn place(self) -> usize {
        let place = match self {
            FormSight::Refused(fault) => {
                let mut faults = Fault::NAMED.iter();
                faults
                    .position(|named| named.0 == fault)
                    .map(|place| place + OWN.len())
            }
            FormSight::Seek(seek) => {
                let mut seeks = SeekSight::NAMED.iter();
                let before = OWN.len() + Fault::NAMED.len();
                seeks
                    .position(|named| named.0 == seek)
                    .map(|place| place + before)
            }
            own => OWN.iter().position(|named| named.0 == own),
        };
        place.expect("every sight is among all")
    }
}

/// What a case has shown, by what the plain program gives for it.
pub fn form_sights(case: &Case, plain: &Outcome) -> Vec<FormSight> {
    let refused = plain.refusal();
    let mut sights = of_told(case, refused);
    sights.extend(match (case, plain) {
        (Case::WriteTerm { version, .. }, Outcome::Written { length, after, .. }) => {
            match refused {
                0 => of_written(*version, &after.room[..*length]),
                _ => Vec::new(),
            }
        }
        (Case::CheckList { block }, _) => holding(&[(
            refused == refusal::VERSION && is_good_bitmap(block),
            FormSight::LoneBitmap,
        )]),
        (Case::CheckTerm { version, block }, _) => of_checked(*version, block, refused),
        (Case::CheckIndex { card }, _) => of_card(card, refused),
        (Case::CloseIndex { .. }, _) => of_closing(case, refused),
        (Case::Stream(case), _) if refused == 0 => of_session(case),
        (
            Case::Ask {
                card, questions, ..
            },
            Outcome::Asked {
                answered, after, ..
            },
        ) => match refused {
            0 | refusal::ROOM => of_asked(card, questions, *answered, &after.room),
            _ => Vec::new(),
        },
        (Case::Screen(case), Outcome::Screened(after)) if refused == 0 => {
            of_screen(case, after.screened.found)
        }
        _ => Vec::new(),
    });
    sights
}

/// The sights of those that hold.
fn holding(all: &[(bool, FormSight)]) -> Vec<FormSight> {
    let holding = all.iter().filter(|(holds, _)| *holds);
    holding.map(|(_, sight)| *sight).collect()
}

/// The same case, told the version of an edition where it is told one.
fn told(case: &Case, edition: Edition) -> Case {
    let mut case = case.clone();
    match &mut case {
        Case::WriteTerm { version, .. }
        | Case::CheckTerm { version, .. }
        | Case::CloseIndex { version, .. } => *version = edition.version(),
        Case::Stream(StreamCase::Begin { announced, .. }) => {
            announced.version = edition.version();
        }
        _ => {}
    }
    case
}

/// Whether a case tells a version that no edition has.
fn tells_unknown(case: &Case) -> bool {
    let version = match case {
        Case::WriteTerm { version, .. }
        | Case::CheckTerm { version, .. }
        | Case::CloseIndex { version, .. } => *version,
        Case::Stream(StreamCase::Begin { announced, .. }) => announced.version,
        _ => return false,
    };
    Edition::of_version(version).is_err()
}

/// The sights of a version told that no edition has.
fn of_told(case: &Case, refused: u32) -> Vec<FormSight> {
    let kind = case.kind();
    if !tells_unknown(case) {
        return Vec::new();
    }
    if refused != refusal::VERSION {
        return vec![FormSight::ToldBehind(kind)];
    }
    let is_good = |edition| plain_outcome(&told(case, edition)).refusal() == 0;
    let alone = Edition::ALL.into_iter().any(is_good);
    match (alone, kind) {
        (true, Kind::BeginTerm) => Vec::new(),
        (true, _) => vec![FormSight::ToldAlone(kind)],
        (false, _) => vec![FormSight::ToldBefore(kind)],
    }
}

/// The pages of a term block whose own bytes are good.
fn pages_of(term: &[u8]) -> ListBlock<'_> {
    let pages = next_part(&mut &term[TERM_OPENING..], LIST_HEADER);
    ListBlock(pages.expect("the term is good"))
}

/// The bits that the runs of pages with these numbers take.
fn bits_of_runs(bound: u32, count: usize) -> usize {
    let Shape { width, zeros } = Shape::of(bound, count);
    count + zeros + count * width as usize
}

fn of_written(version: u32, block: &[u8]) -> Vec<FormSight> {
    let pages = pages_of(block);
    let (bound, count) = (pages.bound(), pages.count() as usize);
    let second = version == Edition::Second.version();
    let in_runs = second && pages.form() == Form::Runs && count > 0;
    let dense_in_runs = !second && is_dense(bound, count);
    let mut sights = holding(&[
        (dense_in_runs, FormSight::WrittenDenseInFirst),
        (second && count == 0, FormSight::WrittenEmpty),
        (in_runs, FormSight::WrittenSparse),
        (
            in_runs && is_dense(bound, count + 1),
            FormSight::WrittenOneBelow,
        ),
        (
            in_runs && bits_of_runs(bound, count) == bound as usize,
            FormSight::WrittenEqual,
        ),
    ]);
    if pages.form() == Form::Bitmap {
        sights.extend(of_written_bitmap(&pages.list()));
    }
    sights
}

fn of_written_bitmap(pages: &List) -> Vec<FormSight> {
    let (bound, count) = (pages.bound, pages.elements.len());
    let past_number = bound % BITS_PER_NUMBER;
    let at_number = |page: &u32| *page > 0 && page.is_multiple_of(BITS_PER_NUMBER);
    holding(&[
        (true, FormSight::WrittenBitmap),
        (!is_dense(bound, count - 1), FormSight::WrittenFewest),
        (count == bound as usize, FormSight::WrittenFull),
        (bound == 1, FormSight::WrittenOfOne),
        (
            past_number == BITS_PER_NUMBER - 1,
            FormSight::WrittenBelowNumber,
        ),
        (past_number == 0, FormSight::WrittenAtNumber),
        (
            past_number == 1 && bound > BITS_PER_NUMBER,
            FormSight::WrittenAboveNumber,
        ),
        (
            pages.elements.iter().any(at_number),
            FormSight::WrittenPageAtNumber,
        ),
        (bound == GREATEST_BOUND, FormSight::WrittenGreatest),
    ])
}

/// Whether a block alone is a bitmap that pages could have.
fn is_good_bitmap(block: &[u8]) -> bool {
    let pages = ListBlock(block);
    let dense = |form, bound, count| form == Form::Bitmap && is_dense(bound, count);
    pages.list_if(dense).is_some()
}

fn of_checked(version: u32, block: &[u8], refused: u32) -> Vec<FormSight> {
    let Ok(edition) = Edition::of_version(version) else {
        return Vec::new();
    };
    if refused == 0 {
        let pages = pages_of(block);
        let dense = is_dense(pages.bound(), pages.count() as usize);
        return holding(&[
            (pages.form() == Form::Bitmap, FormSight::CheckedBitmap),
            (
                dense && edition == Edition::First,
                FormSight::CheckedDenseInFirst,
            ),
        ]);
    }
    let has_own = refused > refusal::LENGTH && block.len() >= TERM_HEADER;
    match has_own.then(|| block[4]) {
        Some(1) => term_faults(edition, block)
            .into_iter()
            .map(FormSight::Refused)
            .collect(),
        Some(2) => vec![FormSight::TermVersion],
        _ => Vec::new(),
    }
}

/// Whether the first term that is refused is so for the form of a list.
fn first_term_has_wrong_form(edition: Edition, terms: &[u8]) -> bool {
    let wrong_forms = [
        Fault::BitmapInFirst,
        Fault::RunsForDense,
        Fault::BitmapNotDense,
        Fault::BitmapOfNone,
        Fault::BitmapForCounts,
        Fault::BitmapForPositions,
    ];
    let mut rest = terms;
    while let Ok(term) = next_part(&mut rest, TERM_HEADER) {
        if take_apart(edition, term).is_err() {
            let faults = term_faults(edition, term);
            return term[4] == 1 && faults.iter().any(|fault| wrong_forms.contains(fault));
        }
    }
    false
}

fn of_card(card: &[u8], refused: u32) -> Vec<FormSight> {
    match refused {
        0 => {
            let pages = page_lists(card);
            let any = |form| {
                let mut with_pages = pages.iter().filter(|list| list.count() > 0);
                with_pages.any(|list| list.form() == form)
            };
            let mixed = any(Form::Bitmap) && any(Form::Runs);
            holding(&[(mixed, FormSight::MixedCard)])
        }
        refusal::VERSION => match Edition::of_version(card[4].into()) {
            Ok(edition) => holding(&[(
                first_term_has_wrong_form(edition, &card[INDEX_HEADER..]),
                FormSight::FormOnCard(Kind::CheckIndex),
            )]),
            Err(_) => {
                let mut versions = Edition::ALL.iter().map(|edition| edition.version() as u8);
                let alone = versions.any(|version| is_good_with(card, 4, &[version]));
                holding(&[(alone, FormSight::CardVersion)])
            }
        },
        refusal::PARTS => {
            let first = next_part(&mut &card[INDEX_HEADER..], TERM_HEADER);
            let bitmap = first
                .ok()
                .map(pages_of)
                .filter(|list| list.form_if_known() == Some(Form::Bitmap));
            let alone = bitmap.is_some_and(|list| is_good_with(card, 5, &list.0[5..9]));
            holding(&[(alone, FormSight::CardPages)])
        }
        _ => Vec::new(),
    }
}

/// Whether a card would be accepted with these bytes in this place.
fn is_good_with(card: &[u8], place: usize, bytes: &[u8]) -> bool {
    let mut card = card.to_vec();
    card[place..place + bytes.len()].copy_from_slice(bytes);
    plain_outcome(&Case::CheckIndex { card }).refusal() == 0
}

fn of_closing(case: &Case, refused: u32) -> Vec<FormSight> {
    let Case::CloseIndex {
        buffer,
        used,
        version,
        ..
    } = case
    else {
        return Vec::new();
    };
    let Ok(edition) = Edition::of_version(*version) else {
        return Vec::new();
    };
    match refused {
        0 => {
            let lists = page_lists(&buffer[..*used]);
            let bitmap = lists.iter().any(|list| list.form() == Form::Bitmap);
            holding(&[(bitmap, FormSight::ClosedBitmap)])
        }
        refusal::VERSION => holding(&[(
            first_term_has_wrong_form(edition, &buffer[INDEX_HEADER..*used]),
            FormSight::FormOnCard(Kind::CloseIndex),
        )]),
        _ => Vec::new(),
    }
}

fn of_session(case: &StreamCase) -> Vec<FormSight> {
    match case {
        StreamCase::Begin { announced, .. } => {
            holding(&[(announced.bitmap().is_some(), FormSight::AnnouncedBitmap)])
        }
        StreamCase::Put { stream, run, .. } => {
            let behind = stream.laid > 0 && !run.pages.is_empty();
            let bitmap = stream.announced.bitmap().is_some();
            holding(&[(bitmap && behind, FormSight::LaidInBitmap)])
        }
        StreamCase::End { stream, room } => of_ended(*stream, room),
    }
}

fn of_ended(stream: Stream, room: &[u8]) -> Vec<FormSight> {
    let announced = stream.announced;
    let (Some(map), Some(length)) = (announced.bitmap(), announced.block_length()) else {
        return Vec::new();
    };
    let bits = bytes_to_run(&room[map]);
    let (used, spare) = bits.split_at(announced.card_pages as usize);
    let ones = used.iter().filter(|bit| **bit).count();
    let has_numbers = announced.card_pages >= BITS_PER_NUMBER;
    let whole = announced.card_pages.is_multiple_of(BITS_PER_NUMBER);
    holding(&[
        (has_numbers && room.len() == length, FormSight::EndedExact),
        (has_numbers && room.len() > length, FormSight::EndedInLonger),
        (whole, FormSight::EndedAtNumber),
        (ones != announced.pages as usize, FormSight::EndedOtherOnes),
        (spare.contains(&true), FormSight::EndedSpare),
    ])
}

/// The sights of the first so many good questions over an accepted card.
fn of_asked(card: &[u8], questions: &[u32], answered: usize, room: &[u32]) -> Vec<FormSight> {
    let pages = page_lists(card);
    let questions = all_questions(pages.len(), questions).expect("all are good");
    let mut sights = Vec::new();
    let mut left = room;
    for question in &questions[..answered] {
        let (answer, after) = left.split_at(1 + left[0] as usize);
        let terms = question.terms();
        let lists: Vec<&ListBlock> = terms.iter().map(|term| &pages[*term as usize]).collect();
        if lists.iter().any(|list| list.form() == Form::Bitmap) {
            sights.extend(of_question(question, &lists, answer.len() > 1));
        }
        left = after;
    }
    sights
}

/// The sights of a question that names a bitmap, and whose answer says something or nothing.
fn of_question(question: &Question, lists: &[&ListBlock], found: bool) -> Vec<FormSight> {
    match question {
        Question::AtRank(..) => holding(&[(found, FormSight::AtRank)]),
        Question::AtBound(..) => vec![FormSight::AtBound],
        Question::Phrase(_) => holding(&[(found, FormSight::Phrase)]),
        Question::Common(_) => {
            let mixed = lists.iter().any(|list| list.form() == Form::Runs);
            let several = lists.len() > 1;
            let mut sights = holding(&[
                (mixed, FormSight::CommonMixed),
                (!mixed && several, FormSight::CommonOfBitmaps),
            ]);
            sights.extend(of_seeks(lists, 0, usize::MAX));
            sights
        }
    }
}

/// What the seeks on these lists show, unless one of the lists is too long to be watched.
fn of_seeks(lists: &[&ListBlock], from: u32, most: usize) -> Vec<FormSight> {
    if lists.iter().any(|list| list.count() > MOST_WATCHED) {
        return Vec::new();
    }
    let read = lists.iter().map(|list| (list.list(), list.form()));
    let lists: Vec<(List, Form)> = read.collect();
    let shown = seek_sights(&lists, from, most);
    shown.into_iter().map(FormSight::Seek).collect()
}

fn of_screen(case: &ScreenCase, found: usize) -> Vec<FormSight> {
    let pages = page_lists(&case.card);
    let wanted = &case.wanted;
    let lists: Vec<&ListBlock> = wanted
        .words
        .iter()
        .map(|word| &pages[*word as usize])
        .collect();
    let any = |form| lists.iter().any(|list| list.form() == form);
    if !any(Form::Bitmap) {
        return Vec::new();
    }
    let mixed = any(Form::Runs);
    let mut sights = holding(&[
        (mixed && found > 0, FormSight::ScreenMixed),
        (
            !mixed && found > 0 && wanted.bound > 0,
            FormSight::ScreenOfBitmaps,
        ),
    ]);
    sights.extend(of_seeks(&lists, wanted.bound, wanted.most as usize));
    sights
}

#[cfg(test)]
mod tests {
    use super::*;
    use crate::compare::Decided;
    use crate::gen::{calls, cuts, screens, streams};
    use crate::stored;
    use crate::text::Stored;

    fn unseen(calls: impl Iterator<Item = Decided>) -> Vec<&'static str> {
        let mut seen = [0; FormSight::COUNT];
        for Decided { stored, plain } in calls {
            for sight in form_sights(&stored.case, &plain) {
                seen[sight.place()] += 1;
            }
        }
        let all = FormSight::all().into_iter();
        let unseen = all.filter(|(sight, _)| seen[sight.place()] == 0);
        unseen.map(|(_, name)| name).collect()
    }

    #[test]
    fn each_sight_has_its_place() {
        let places = FormSight::all().into_iter().map(|(sight, _)| sight.place());
        assert!(places.eq(0..FormSight::COUNT));
    }

    const GREATEST: &str = "bitmaps written with U at its limit";

    #[test]
    fn the_stored_calls_show_every_sight_but_the_greatest_bitmap() {
        let edges = stored::edges().expect("the edges can be read");
        let calls = edges.into_iter().map(|(_, stored)| Decided::now(stored));
        assert_eq!(unseen(calls), [GREATEST]);
    }

    #[test]
    fn the_seeded_calls_show_every_sight_but_the_greatest_bitmap() {
        let calls = (0..9_000).map(|number| Stored::seeded(calls::call(4, number)));
        let sessions = (0..1_200).flat_map(|number| streams::session(4, number));
        let cuts = (0..64).flat_map(|number| cuts::session(4, number));
        let shown = (0..60).flat_map(|number| screens::set(4, number));
        let decided = sessions.chain(cuts).chain(shown);
        assert_eq!(unseen(calls.map(Decided::now).chain(decided)), [GREATEST]);
    }
}
