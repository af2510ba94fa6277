//! The peer against the second program's reading of document 01, over every call and the program.

use jundefola_peer as peer;
use second::case::{Case, Kind};
use second::compare::{Compared, Decided, Other, Side};
use second::full_size::FullCard;
use second::gen::full_size::SHAPES;
use second::gen::{calls, cuts, files, limit, screens, streams};
use second::host_calls::{Asked, HostCalls, Written};
use second::long_closing;
use second::plain::screen::{Screened, Wanted};
use second::plain::stream::{Announced, Run, Stream, Streamed};
use second::screen_calls::ScreenCalls;
use second::stored;
use second::stream_calls::StreamCalls;
use second::tally::Tally;
use second::text::Stored;
use std::fs;
use std::path::{Path, PathBuf};
use std::ptr;

struct Peer;

fn address<T>(list: &[T]) -> *const T {
    match list.is_empty() {
        true => ptr::null(),
        false => list.as_ptr(),
    }
}

fn room_address<T>(room: &mut [T]) -> *mut T {
    match room.is_empty() {
        true => ptr::null_mut(),
        false => room.as_mut_ptr(),
    }
}

fn written(written: peer::Written) -> Written {
    Written {
        refusal: written.refusal,
        length: written.length,
    }
}

impl HostCalls for Peer {
    fn write_list(&self, bound: u32, list: &[u32], room: &mut [u8]) -> Written {
        let (at, size) = (room_address(room), room.len());
        written(unsafe { peer::peer_write_list(bound, address(list), list.len(), at, size) })
    }

    fn check_list(&self, block: &[u8]) -> u32 {
        unsafe { peer::peer_check_list(address(block), block.len()) }
    }

    fn write_term(
        &self,
        version: u32,
        card_pages: u32,
        pages: &[u32],
        counts: &[u32],
        positions: &[u32],
        room: &mut [u8],
    ) -> Written {
        let (at, size) = (room_address(room), room.len());
        written(unsafe {
            peer::peer_write_term(
                version,
                card_pages,
                address(pages),
                pages.len(),
                address(counts),
                counts.len(),
                address(positions),
                positions.len(),
                at,
                size,
            )
        })
    }

    fn check_term(&self, version: u32, block: &[u8]) -> u32 {
        unsafe { peer::peer_check_term(version, address(block), block.len()) }
    }

    fn close_index(
        &self,
        buffer: &mut [u8],
        used: usize,
        version: u32,
        pages: u32,
        terms: u32,
    ) -> Written {
        let (at, size) = (room_address(buffer), buffer.len());
        written(unsafe { peer::peer_close_index(at, size, used, version, pages, terms) })
    }

    fn check_index(&self, card: &[u8]) -> u32 {
        unsafe { peer::peer_check_index(address(card), card.len()) }
    }

    fn ask(&self, card: &[u8], questions: &[u32], room: &mut [u32]) -> Asked {
        let (at, size) = (room_address(room), room.len());
        let (numbers, length) = (address(questions), questions.len());
        let asked = unsafe { peer::peer_ask(address(card), card.len(), numbers, length, at, size) };
        Asked {
            refusal: asked.refusal,
            answered: asked.answered,
            used: asked.used,
        }
    }
}

impl ScreenCalls for Peer {
    fn screen(
        &self,
        card: &[u8],
        wanted: &Wanted,
        pages: &mut [u32],
        counts: &mut [u32],
    ) -> Screened {
        let (pages_at, pages_size) = (room_address(pages), pages.len());
        let (counts_at, counts_size) = (room_address(counts), counts.len());
        let screened = unsafe {
            peer::peer_screen(
                address(card),
                card.len(),
                wanted.bound,
                wanted.most,
                address(&wanted.words),
                wanted.words.len(),
                pages_at,
                pages_size,
                counts_at,
                counts_size,
            )
        };
        Screened {
            refusal: screened.refusal,
            found: screened.found,
            full: screened.full,
            next: screened.next,
        }
    }
}

/// A session in the peer's own struct.
fn peer_stream(stream: Stream) -> peer::Stream {
    let [mark, version, n, pages, positions, u, laid, filled, page, base] = stream.numbers();
    peer::Stream {
        mark,
        version,
        n,
        pages,
        positions,
        u,
        laid,
        filled,
        page,
        base,
    }
}

fn streamed(given: peer::Streamed) -> Streamed {
    let stream = given.stream;
    Streamed {
        refusal: given.refusal,
        length: given.length,
        stream: Stream::of_numbers([
            stream.mark,
            stream.version,
            stream.n,
            stream.pages,
            stream.positions,
            stream.u,
            stream.laid,
            stream.filled,
            stream.page,
            stream.base,
        ]),
    }
}

impl StreamCalls for Peer {
    fn begin_term(&self, announced: Announced, room: &mut [u8]) -> Streamed {
        let (at, size) = (room_address(room), room.len());
        let Announced {
            version,
            card_pages,
            pages,
            positions,
            bound,
        } = announced;
        streamed(unsafe {
            peer::peer_begin_term(version, card_pages, pages, positions, bound, at, size)
        })
    }

    fn put_postings(&self, stream: Stream, run: &Run, room: &mut [u8]) -> Streamed {
        let (at, size) = (room_address(room), room.len());
        streamed(unsafe {
            peer::peer_put_postings(
                peer_stream(stream),
                address(&run.pages),
                run.pages.len(),
                address(&run.counts),
                run.counts.len(),
                address(&run.positions),
                run.positions.len(),
                at,
                size,
            )
        })
    }

    fn end_term(&self, stream: Stream, room: &mut [u8]) -> Streamed {
        let (at, size) = (room_address(room), room.len());
        streamed(unsafe { peer::peer_end_term(peer_stream(stream), at, size) })
    }
}

/// How many are compared, and by which seed: the usual number, or what the environment asks for.
fn asked_for(name: &str, usual: u64) -> u64 {
    let given = std::env::var(name).ok();
    given.map_or(usual, |text| text.parse().expect("a number"))
}

fn scratch(name: &str) -> PathBuf {
    let folder = Path::new(env!("CARGO_TARGET_TMPDIR")).join(name);
    fs::create_dir_all(&folder).expect("a scratch folder");
    folder
}

fn peer_side(name: &str) -> Other<'static> {
    Other {
        side: Side::of(&Peer),
        program: Some(Path::new(env!("CARGO_BIN_EXE_peer_lookup"))),
        scratch: scratch(name),
    }
}

fn count_same(tally: &mut Tally, case: &Case, compared: Compared) {
    tally.count(case, &compared.plain);
    if let Some(difference) = compared.difference {
        panic!("a difference:\n{difference}");
    }
}

fn compare_all(name: &str, cases: impl Iterator<Item = Stored>) -> Tally {
    let other = peer_side(name);
    let mut tally = Tally::default();
    for stored in cases {
        let compared = other.compare(&stored).expect("the program is given");
        count_same(&mut tally, &stored.case, compared);
    }
    tally
}

fn compare_decided(tally: &mut Tally, other: &Other, cases: impl Iterator<Item = Decided>) {
    for decided in cases {
        let compared = other.compare_decided(&decided);
        let compared = compared.expect("no program is needed");
        count_same(tally, &decided.stored.case, compared);
    }
}

/// The first calls with a card of each shape at full size, and its longest word written run by run.
fn compare_full_size(tally: &mut Tally, seed: u64) {
    let other = peer_side("full");
    for number in 0..SHAPES {
        let card = FullCard::of(seed, number);
        let calls = (0..asked_for("PEER_FULL_CALLS", 16)).map(|call| card.call(call));
        compare_decided(tally, &other, calls.chain(card.session()));
    }
}

/// Calls with bitmaps of the greatest U.
fn compare_limit(tally: &mut Tally) {
    let sets = (0..limit::SETS).flat_map(limit::set);
    compare_decided(tally, &peer_side("limit"), sets);
}

/// Words cut in every way, and sessions at random.
fn compare_sessions(tally: &mut Tally, seed: u64) {
    let cuts = (0..cuts::SESSIONS).flat_map(|number| cuts::session(seed, number));
    let number = asked_for("PEER_STREAMS", 4_000);
    let at_random = (0..number).flat_map(|number| streams::session(seed, number));
    compare_decided(tally, &peer_side("sessions"), cuts.chain(at_random));
}

/// Screens at every bound, joined, at the ends of a card and at random.
fn compare_screens(tally: &mut Tally, seed: u64) {
    let number = asked_for("PEER_SCREENS", 1_000);
    let sets = (0..number).flat_map(|number| screens::set(seed, number));
    compare_decided(tally, &peer_side("screens"), sets);
}

#[test]
fn samples_and_edges_give_what_is_stored() {
    let edges = stored::edges().expect("the edges can be read");
    let changes = stored::small_changes(&edges);
    assert!(edges.len() > 300 && changes.len() > 4_000);
    let edges = edges.into_iter().map(|(_, stored)| stored);
    let changes = changes.into_iter().map(Stored::seeded);
    let tally = compare_all("edges", edges.chain(changes));
    println!("{} calls on edges", tally.calls());
}

#[test]
fn seeded_calls_and_runs_are_answered_alike() {
    let seed = asked_for("PEER_SEED", 1);
    let calls = (0..asked_for("PEER_CALLS", 60_000)).map(|i| calls::call(seed, i));
    let runs = (0..asked_for("PEER_RUNS", 500)).map(|i| files::run(seed, i));
    let mut tally = compare_all("seeded", calls.chain(runs).map(Stored::seeded));
    compare_full_size(&mut tally, seed);
    compare_limit(&mut tally);
    compare_sessions(&mut tally, seed);
    compare_screens(&mut tally, seed);
    if let Some(differences) = long_closing::compare(&Peer, &mut tally) {
        assert_eq!(differences, Vec::<String>::new());
    }
    print!("{}", tally.report());
    println!(
        "{} calls, {} runs",
        tally.calls(),
        tally.of_kind(Kind::Program)
    );
    let usual = [
        "PEER_SEED",
        "PEER_CALLS",
        "PEER_RUNS",
        "PEER_FULL_CALLS",
        "PEER_STREAMS",
        "PEER_SCREENS",
    ];
    let is_usual = usual.iter().all(|name| std::env::var_os(name).is_none());
    if is_usual {
        assert_eq!(tally.unseen(true), Vec::<String>::new());
    }
}
