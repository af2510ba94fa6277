//! The peer in both editions against a plain reading of request f: form and bytes of pages, refusals, words in runs,
//! and the answers, seeks and looks of questions and screens over any mix of forms.

use jundefola_peer as peer;
use std::collections::BTreeSet;

const HEADER: usize = 13;
const CARD_HEADER: usize = 11;
const OVER: u32 = 16_777_217;

/// A generator with a seed (splitmix64).
struct Random(u64);

impl Random {
    fn below(&mut self, limit: u32) -> u32 {
        self.0 = self.0.wrapping_add(0x9E37_79B9_7F4A_7C15);
        let mut z = self.0;
        z = (z ^ (z >> 30)).wrapping_mul(0xBF58_476D_1CE4_E5B9);
        z = (z ^ (z >> 27)).wrapping_mul(0x94D0_49BB_1331_11EB);
        (((z ^ (z >> 31)) >> 32) * u64::from(limit) >> 32) as u32
    }

    /// n numbers below u, rising.
    fn list(&mut self, u: u32, n: u32) -> Vec<u32> {
        let left_out = n > u / 2;
        let mut drawn = BTreeSet::new();
        while drawn.len() < if left_out { u - n } else { n } as usize {
            drawn.insert(self.below(u));
        }
        (0..u).filter(|x| drawn.contains(x) != left_out).collect()
    }
}

fn width(u: u32, n: u32) -> u32 {
    (0..25)
        .rev()
        .find(|w| 1 << w <= u / n)
        .expect("2^0 is at most U div n")
}

fn is_dense(u: u32, n: u32) -> bool {
    n > 0 && n + (u >> width(u, n)) + n * width(u, n) > u
}

/// Bits in whole words, as bytes.
fn words(bits: u32, ones: impl Iterator<Item = u32>) -> Vec<u8> {
    let mut words = vec![0_u64; bits.div_ceil(64) as usize];
    ones.for_each(|bit| words[bit as usize / 64] |= 1 << (bit % 64));
    words.iter().flat_map(|word| word.to_be_bytes()).collect()
}

/// A list that is held plainly, in the form that is told.
#[derive(Clone)]
struct Plain {
    u: u32,
    list: Vec<u32>,
    is_bitmap: bool,
}

impl Plain {
    fn n(&self) -> u32 {
        self.list.len() as u32
    }

    fn width(&self) -> u32 {
        if self.is_bitmap {
            0
        } else {
            width(self.u, self.n())
        }
    }

    /// The bit of each element.
    fn bits(&self) -> Vec<u32> {
        let (w, step) = (self.width(), u32::from(!self.is_bitmap));
        let places = self.list.iter().zip(0..);
        places.map(|(x, i)| (x >> w) + i * step).collect()
    }

    /// The bits of the upper run or the bitmap.
    fn length(&self) -> u32 {
        if self.is_bitmap {
            self.u
        } else {
            self.n() + (self.u >> self.width())
        }
    }

    /// The places behind each 256th zero, or the pages below each multiple of 256.
    fn pointers(&self) -> Vec<u32> {
        if self.is_bitmap {
            let below = |i: u32| self.list.iter().filter(|x| **x < 256 * i).count();
            return (1..=self.u / 256).map(|i| below(i) as u32).collect();
        }
        let ones: BTreeSet<u32> = self.bits().into_iter().collect();
        let zeros = (0..self.length()).filter(|bit| !ones.contains(bit));
        zeros.skip(255).step_by(256).map(|bit| bit + 1).collect()
    }

    fn block(&self) -> Vec<u8> {
        let mut body = Vec::new();
        if self.n() > 0 {
            let w = self.width();
            let low = |(x, i): (u32, u32)| {
                let ones = (0..w).filter(move |j| x >> j & 1 == 1);
                ones.map(move |j| i * w + j)
            };
            let numbered = self.list.iter().copied().zip(0..);
            body.extend(self.pointers().into_iter().flat_map(u32::to_be_bytes));
            body.extend(words(self.n() * w, numbered.flat_map(low)));
            body.extend(words(self.length(), self.bits().into_iter()));
        }
        let mut block = ((HEADER + body.len()) as u32).to_be_bytes().to_vec();
        block.push(if self.is_bitmap { 2 } else { 1 });
        block.extend(self.u.to_be_bytes());
        block.extend(self.n().to_be_bytes());
        block.extend(body);
        block
    }
}

/// The pages of an edition.
fn pages_of(edition: u32, u: u32, list: &[u32]) -> Plain {
    Plain {
        u,
        list: list.to_vec(),
        is_bitmap: edition == 2 && is_dense(u, list.len() as u32),
    }
}

/// The term block of a word that stands once on each page, at its start.
fn term_of(pages: &Plain) -> Vec<u8> {
    let n = pages.n();
    let all = Plain {
        u: n,
        list: (0..n).collect(),
        is_bitmap: false,
    };
    let parts = [pages.block(), all.block(), all.block()].concat();
    let mut block = ((5 + parts.len()) as u32).to_be_bytes().to_vec();
    block.push(1);
    block.extend(parts);
    block
}

fn write_term(version: u32, u: u32, list: &[u32], room: &mut [u8]) -> peer::Written {
    let (ones, zeros) = (vec![1; list.len()], vec![0; list.len()]);
    let (n, at, size) = (list.len(), room.as_mut_ptr(), room.len());
    let (pages, counts, positions) = (list.as_ptr(), ones.as_ptr(), zeros.as_ptr());
    unsafe { peer::peer_write_term(version, u, pages, n, counts, n, positions, n, at, size) }
}

fn check_term(version: u32, block: &[u8]) -> u32 {
    unsafe { peer::peer_check_term(version, block.as_ptr(), block.len()) }
}

/// Bounds and lengths on both sides of the density test, of words and of 256.
fn edges() -> Vec<(u32, u32)> {
    let mut bounds: Vec<u32> = (0..70).collect();
    bounds.extend([
        127, 128, 129, 255, 256, 257, 319, 320, 511, 512, 513, 1_000, 1_023, 1_024, 1_025, 5_000,
    ]);
    let mut edges = Vec::new();
    for u in bounds {
        let turn = (1..=u).find(|n| is_dense(u, *n)).unwrap_or(u);
        let lengths = [
            0,
            1,
            turn.saturating_sub(1),
            turn,
            turn + 1,
            u / 2,
            u.saturating_sub(1),
            u,
        ];
        let lengths: BTreeSet<u32> = lengths.into_iter().filter(|n| *n <= u).collect();
        edges.extend(lengths.into_iter().map(|n| (u, n)));
    }
    edges
}

#[test]
fn pages_have_the_form_of_their_edition() {
    let mut random = Random(1);
    for (u, n) in edges() {
        let list = random.list(u, n);
        let blocks = [1, 2].map(|edition| term_of(&pages_of(edition, u, &list)));
        for edition in [1, 2] {
            let block = &blocks[edition as usize - 1];
            let mut room = vec![0xA5; block.len() + 9];
            let written = write_term(edition, u, &list, &mut room);
            assert_eq!(
                (written.refusal, written.length),
                (0, block.len()),
                "U {u} n {n}"
            );
            assert_eq!(
                (&room[..block.len()], &room[block.len()..]),
                (&block[..], &[0xA5; 9][..])
            );
            assert_eq!(
                write_term(edition, u, &list, &mut room[1..block.len()]).refusal,
                9
            );
            assert_eq!(check_term(edition, block), 0);
            assert_eq!(
                check_term(3 - edition, block),
                if is_dense(u, n) { 3 } else { 0 }
            );
        }
    }
}

#[test]
fn versions_that_no_edition_has_come_first() {
    let block = term_of(&pages_of(2, 40, &[1, 2, 3]));
    for version in [0, 3, 258, u32::MAX] {
        assert_eq!(check_term(version, &block), 3);
        assert_eq!(check_term(version, &block[1..]), 2);
        assert_eq!(check_term(version, &block[..43]), 1);
        assert_eq!(write_term(version, OVER, &[], &mut []).refusal, 3);
        let begun = unsafe { peer::peer_begin_term(version, OVER, 0, 0, 0, [].as_mut_ptr(), 0) };
        assert_eq!(
            (begun.refusal, begun.stream.mark, begun.stream.version),
            (3, 0, 0)
        );
        let close = |size: usize, used: usize| {
            let mut buffer = vec![0; size];
            unsafe { peer::peer_close_index(buffer.as_mut_ptr(), size, used, version, OVER, 0) }
                .refusal
        };
        assert_eq!([close(10, 11), close(20, 10), close(20, 11)], [9, 1, 3]);
    }
}

/// The refusals of a term in both editions, with these bytes changed.
fn refusals(block: &[u8], changes: &[(usize, &[u8])]) -> [u32; 2] {
    let mut changed = block.to_vec();
    for (at, bytes) in changes {
        changed[*at..at + bytes.len()].copy_from_slice(bytes);
    }
    [1, 2].map(|edition| check_term(edition, &changed))
}

#[test]
fn a_form_in_the_wrong_place_is_found_before_the_length() {
    const PAGES: usize = 5;
    let (u, version, n) = (PAGES + 5, PAGES + 4, PAGES + 9);
    let dense = term_of(&pages_of(2, 300, &Random(2).list(300, 200)));
    let counts = PAGES + 13 + 4 + 40;
    assert_eq!(refusals(&dense, &[]), [3, 0]);
    assert_eq!(refusals(&dense, &[(version, &[0])]), [3, 3]);
    assert_eq!(
        refusals(&dense, &[(version, &[7]), (u, &OVER.to_be_bytes())]),
        [3, 3]
    );
    assert_eq!(refusals(&dense, &[(u, &OVER.to_be_bytes())]), [4, 4]);
    assert_eq!(refusals(&dense, &[(n, &301_u32.to_be_bytes())]), [5, 5]);
    assert_eq!(refusals(&dense, &[(n, &[0; 4])]), [3, 3]);
    assert_eq!(refusals(&dense, &[(n, &75_u32.to_be_bytes())]), [3, 3]);
    assert_eq!(refusals(&dense, &[(n, &76_u32.to_be_bytes())]), [3, 6]);
    assert_eq!(refusals(&dense, &[(version, &[1])]), [5, 3]);
    assert_eq!(refusals(&dense, &[(u, &400_u32.to_be_bytes())]), [3, 5]);
    assert_eq!(refusals(&dense, &[(counts + 4, &[2])]), [3, 3]);
    let thin = term_of(&pages_of(2, 300, &Random(3).list(300, 20)));
    assert_eq!(refusals(&thin, &[(version, &[2])]), [3, 3]);
    let mut list = Plain {
        u: 8,
        list: (0..8).collect(),
        is_bitmap: false,
    };
    let check_list = |list: &Plain| unsafe {
        let block = list.block();
        peer::peer_check_list(block.as_ptr(), block.len())
    };
    assert_eq!(check_list(&list), 0);
    list.is_bitmap = true;
    assert_eq!(check_list(&list), 3);
}

#[test]
fn every_bit_of_a_bitmap_is_checked() {
    for u in [1, 63, 64, 255, 256, 257, 512, 700] {
        let list = Random(u64::from(u)).list(u, u - u / 3);
        let block = term_of(&pages_of(2, u, &list));
        let body = 5 + HEADER..5 + pages_of(2, u, &list).block().len();
        for bit in 0..8 * body.len() {
            let at = body.start + bit / 8;
            assert_eq!(
                refusals(&block, &[(at, &[block[at] ^ 1 << (bit % 8)])]),
                [3, 6]
            );
        }
    }
}

#[test]
fn a_one_among_the_spare_bits_is_none_of_the_pages() {
    for u in [1_u32, 63, 255, 257, 700] {
        let list: Vec<u32> = (0..u).collect();
        let pages = pages_of(2, u, &list);
        let mut block = term_of(&pages);
        let map = 5 + pages.block().len() - 8 * u.div_ceil(64) as usize;
        for bit in [u - 1, u] {
            let at = map + bit as usize / 64 * 8 + 7 - bit as usize % 64 / 8;
            block[at] ^= 1 << (bit % 8);
        }
        assert_eq!(check_term(2, &block), 6, "U {u}");
    }
}

/// The word written run by run, cut at random.
fn in_runs(random: &mut Random, edition: u32, u: u32, list: &[u32], size: usize) -> Vec<u8> {
    let (n, mut room) = (list.len() as u32, vec![0xA5; size]);
    let at = room.as_mut_ptr();
    let mut given = unsafe { peer::peer_begin_term(edition, u, n, n, n, at, size) };
    let (mut rest, ones, zeros) = (list, vec![1; list.len()], vec![0; list.len()]);
    while !rest.is_empty() {
        assert_eq!((given.refusal, given.stream.version), (0, edition));
        let most = [3, 40][random.below(2) as usize];
        let (run, behind) = rest.split_at(rest.len().min(random.below(most) as usize));
        let (pages, length) = (run.as_ptr(), run.len());
        let (counts, positions) = (ones.as_ptr(), zeros.as_ptr());
        given = unsafe {
            peer::peer_put_postings(
                given.stream,
                pages,
                length,
                counts,
                length,
                positions,
                length,
                at,
                size,
            )
        };
        rest = behind;
    }
    given = unsafe { peer::peer_end_term(given.stream, at, size) };
    assert_eq!(
        (given.refusal, given.length, given.stream.version),
        (0, size, 0)
    );
    room
}

#[test]
fn a_word_in_runs_is_the_word_at_once() {
    let mut random = Random(4);
    for (u, n) in edges() {
        let list = random.list(u, n);
        for edition in [1, 2] {
            let block = term_of(&pages_of(edition, u, &list));
            let written = in_runs(&mut random, edition, u, &list, block.len());
            assert!(written == block, "U {u} n {n} edition {edition}");
        }
    }
}

/// A cursor by the step rule, on plain lists.
struct Cursor<'a> {
    on: &'a Plain,
    bits: Vec<u32>,
    pointers: Vec<u32>,
    rank: Option<usize>,
    is_spent: bool,
}

impl<'a> Cursor<'a> {
    fn on(on: &'a Plain) -> Cursor<'a> {
        let is_empty = on.list.is_empty();
        Cursor {
            on,
            bits: if is_empty { Vec::new() } else { on.bits() },
            pointers: if is_empty { Vec::new() } else { on.pointers() },
            rank: None,
            is_spent: false,
        }
    }

    fn start(&self, b: u32) -> u32 {
        let bit = self.rank.map_or(0, |rank| self.bits[rank]);
        if self.on.is_bitmap {
            return bit.max(b);
        }
        let pointer = (b >> self.on.width()) / 256;
        let jump = (pointer > 0).then(|| self.pointers[pointer as usize - 1]);
        bit.max(jump.unwrap_or(0))
    }

    fn seek(&mut self, b: u32, looks: &mut u32) -> Option<u32> {
        let list = &self.on.list;
        if let Some(rank) = self.rank.filter(|rank| !self.is_spent && list[*rank] >= b) {
            return Some(list[rank]);
        }
        if self.is_spent || list.is_empty() || b >= self.on.u || self.start(b) == self.on.length() {
            self.is_spent = true;
            return None;
        }
        let (start, last) = (self.start(b), self.on.length() - 1);
        let found = list.iter().position(|x| *x >= b);
        let end = found.map_or(last, |rank| self.bits[rank]);
        *looks += end / 64 - start / 64 + 1;
        self.rank = found;
        self.is_spent = found.is_none();
        found.map(|rank| list[rank])
    }
}

/// The first common pages at or above the bound, with seeks and looks.
fn common(lists: &[&Plain], bound: u32, most: usize) -> (u32, u32, Vec<u32>) {
    let lead = (0..lists.len()).min_by_key(|i| lists[*i].list.len());
    let mut cursors: Vec<Cursor> = lists.iter().map(|list| Cursor::on(list)).collect();
    let mut lead = cursors.remove(lead.expect("a list"));
    let (mut seeks, mut looks, mut pages) = (1, 0, Vec::new());
    let mut page = lead.seek(bound, &mut looks);
    'pages: while let Some(c) = page {
        for other in &mut cursors {
            seeks += 1;
            match other.seek(c, &mut looks) {
                None => break 'pages,
                Some(d) if d > c => {
                    seeks += 1;
                    page = lead.seek(d, &mut looks);
                    continue 'pages;
                }
                Some(_) => {}
            }
        }
        pages.push(c);
        if pages.len() == most {
            break;
        }
        seeks += 1;
        page = lead.seek(c + 1, &mut looks);
    }
    (seeks, looks, pages)
}

/// The card of some words in an edition.
fn card_of(edition: u32, u: u32, lists: &[Vec<u32>]) -> (Vec<Plain>, Vec<u8>) {
    let plain: Vec<Plain> = lists
        .iter()
        .map(|list| pages_of(edition, u, list))
        .collect();
    let mut card = vec![0; CARD_HEADER];
    plain.iter().for_each(|pages| card.extend(term_of(pages)));
    let (at, length) = (card.as_mut_ptr(), card.len());
    let closed =
        unsafe { peer::peer_close_index(at, length, length, edition, u, lists.len() as u32) };
    assert_eq!(
        (closed.refusal, closed.length, u32::from(card[4])),
        (0, length, edition)
    );
    (plain, card)
}

fn ask(card: &[u8], questions: &[u32], room: usize) -> Vec<u32> {
    let mut numbers = vec![0; room];
    let (at, length) = (questions.as_ptr(), questions.len());
    let given = unsafe {
        peer::peer_ask(
            card.as_ptr(),
            card.len(),
            at,
            length,
            numbers.as_mut_ptr(),
            room,
        )
    };
    assert_eq!(given.refusal, 0);
    numbers.truncate(given.used);
    numbers
}

/// Kinds 1 and 2 of one word.
fn compare_word(random: &mut Random, card: &[u8], term: u32, plain: &Plain) {
    let (list, n) = (&plain.list, plain.n());
    for _ in 0..30 {
        let (rank, bound) = (random.below(n + 2), random.below(plain.u + 2));
        let by_rank = list
            .get(rank as usize)
            .map_or(vec![0], |page| vec![1, *page]);
        assert_eq!(ask(card, &[1, 2, term, rank], 4), by_rank);
        let found = list.iter().zip(0..).find(|(page, _)| **page >= bound);
        let by_bound = found.map_or(vec![1, n], |(page, rank)| vec![2, *page, rank]);
        assert_eq!(ask(card, &[2, 2, term, bound], 4), by_bound);
    }
}

/// The words of a question, and their pages.
struct Chosen<'a> {
    words: Vec<u32>,
    lists: Vec<&'a Plain>,
}

impl<'a> Chosen<'a> {
    fn of(random: &mut Random, plain: &'a [Plain]) -> Chosen<'a> {
        let drawn = (0..1 + random.below(4)).map(|_| random.below(plain.len() as u32));
        let words: Vec<u32> = drawn.collect();
        let lists = words.iter().map(|word| &plain[*word as usize]).collect();
        Chosen { words, lists }
    }

    fn compare_common(&self, card: &[u8]) {
        let (seeks, looks, pages) = common(&self.lists, 0, usize::MAX);
        let answer = [&[pages.len() as u32 + 2, seeks, looks], &pages[..]].concat();
        let question = [&[3, self.words.len() as u32], &self.words[..]].concat();
        for room in [answer.len(), 20_000] {
            assert_eq!(ask(card, &question, room), answer);
        }
    }

    /// Each word stands once on a page, at its start: two words behind one another never do.
    fn compare_phrase(&self, card: &[u8]) {
        let starts: Vec<u32> = match self.lists[..] {
            [alone] => alone.list.iter().flat_map(|page| [*page, 1]).collect(),
            _ => Vec::new(),
        };
        let pairs = self.words.iter().zip(0..);
        let pairs = pairs.flat_map(|(word, offset)| [*word, offset]);
        let opening = [4, 2 * self.words.len() as u32];
        let phrase: Vec<u32> = opening.into_iter().chain(pairs).collect();
        let answer = [&[starts.len() as u32], &starts[..]].concat();
        assert_eq!(ask(card, &phrase, 20_000), answer);
    }

    fn compare_screen(&self, card: &[u8], bound: u32, most: u32) {
        let (seeks, looks, shown) = common(&self.lists, bound, most as usize);
        let (mut pages, mut counts) = (vec![0; 64], vec![0; 2]);
        let (at, length) = (self.words.as_ptr(), self.words.len());
        let (to, beside) = (pages.as_mut_ptr(), counts.as_mut_ptr());
        let (card, size) = (card.as_ptr(), card.len());
        let given =
            unsafe { peer::peer_screen(card, size, bound, most, at, length, to, 64, beside, 2) };
        let is_full = shown.len() == most as usize;
        let next = shown.last().filter(|_| is_full).map_or(0, |last| last + 1);
        assert_eq!((given.refusal, given.found), (0, shown.len()));
        assert_eq!((given.full, given.next), (u32::from(is_full), next));
        assert_eq!(
            (&pages[..shown.len()], counts),
            (&shown[..], vec![seeks, looks])
        );
    }
}

/// Pages as the manual may have them: thin, dense, all, in one half alone, in runs.
fn lists_below(random: &mut Random, u: u32) -> Vec<Vec<u32>> {
    let mut lists: Vec<Vec<u32>> = [u / 50, u / 5, u / 4, u / 4 + 1, u / 2, u - u / 9, u]
        .iter()
        .map(|n| random.list(u, *n))
        .collect();
    lists.push(Vec::new());
    lists.push((0..u / 2).collect());
    lists.push((u - u / 3..u).collect());
    lists.push((0..u).filter(|x| x / 90 % 3 == 0).collect());
    lists.push(
        (0..u)
            .filter(|x| x % 64 == 63 || x / 300 % 2 == 0)
            .collect(),
    );
    lists
}

#[test]
fn questions_and_screens_are_answered_by_the_step_rule() {
    let mut random = Random(5);
    for u in [1, 5, 64, 65, 256, 500, 512, 513, 1_500, 4_096] {
        let lists = lists_below(&mut random, u);
        for edition in [1, 2] {
            let (plain, card) = card_of(edition, u, &lists);
            assert_eq!(
                unsafe { peer::peer_check_index(card.as_ptr(), card.len()) },
                0
            );
            for (term, pages) in plain.iter().enumerate() {
                compare_word(&mut random, &card, term as u32, pages);
            }
            for _ in 0..150 {
                let chosen = Chosen::of(&mut random, &plain);
                chosen.compare_common(&card);
                chosen.compare_phrase(&card);
                chosen.compare_screen(&card, random.below(u + 2), 1 + random.below(64));
            }
        }
    }
}

#[test]
fn a_card_tells_its_edition() {
    let (_, card) = card_of(2, 300, &[(0..300).collect(), vec![7]]);
    for (version, refusal) in [(0, 3), (1, 3), (2, 0), (3, 3)] {
        let mut told = card.clone();
        told[4] = version;
        assert_eq!(
            unsafe { peer::peer_check_index(told.as_ptr(), told.len()) },
            refusal
        );
    }
}
