"""Small functions that stand word for word as they are written here, contracts apart."""
from reading.source import read

# what hands out a word and counts it
LOOK = """
pub fn look(s: &[u8], upper: usize, k: usize, looks: &mut u32) -> u64 {
    *looks += 1;
    runs::run_word(s, upper, k)
}
"""
# the plain sums of the cursors' counts
SUMS = """
pub fn totals(q: Query, found: usize) -> Listed {
    let mut seeks = 0;
    let mut looks = 0;
    for c in &q.cursors {
        seeks += c.seeks;
        looks += c.looks;
    }
    Listed { found, seeks, looks }
}
"""
# the batches of pages that they are summed up of
PAGES = """
pub fn list_common(table: &Table, card: &[u8], shapes: &[u32], k: usize, room: &mut [u32]) -> Listed {
    let q = Query::new();
    let mut s = Turn { q, mark: 0, bit: 0, found: 0 };
    if 0 < room.len() {
        s = batch(table, card, shapes, q, k, 0, room);
    }
    let mut found = s.found;
    let mut rest = [0u32; 64];
    while s.mark != SPENT {
        s = batch(table, card, shapes, s.q, k, s.mark as usize, &mut rest);
        found += s.found;
    }
    rows::totals(s.q, found)
}
"""
# how kind 3 tells them; pages are counted first where the room may be too small for them
TOLD = """
fn put_common(table: &Table, card: &[u8], shapes: &[u32], k: usize, room: &mut [u32]) -> usize {
    let listed = query::list_common(table, card, shapes, k, &mut room[3..]);
    room[0] = (listed.found + 2) as u32;
    room[1] = listed.seeks;
    room[2] = listed.looks;
    listed.found + 3
}
pub fn by_common(table: &Table, card: &[u8], terms: &[u32], room: &mut [u32]) -> Option<usize> {
    let k = terms.len();
    let mut shapes = [0u32; 64];
    wordlists::open_pages(card, terms, &mut shapes);
    if rows::number(&shapes, 0, LENGTH) + 3 <= room.len() {
        return Some(put_common(table, card, &shapes, k, room));
    }
    let mut none = [0u32; 0];
    let counted = query::list_common(table, card, &shapes, k, &mut none);
    if room.len() < counted.found + 3 {
        return None;
    }
    Some(put_common(table, card, &shapes, k, room))
}
"""
# how a screen lists its pages, and tells them
SHOWN = """
fn list_from(card: &[u8], words: &[u32], bound: usize, size: usize, list: &mut [u32]) -> Listed {
    let mut shapes = [0u32; 64];
    wordlists::open_pages(card, words, &mut shapes);
    let table = bytetable::places();
    let room = &mut list[0..size];
    let turn = query::batch(&table, card, &shapes, Query::new(), words.len(), bound, room);
    rows::totals(turn.q, turn.found)
}
fn put_screen(
    r: u32,
    list: &[u32],
    listed: Listed,
    pages: &mut [u32],
    counts: &mut [u32],
) -> Result<Screened, Refusal> {
    let found = listed.found;
    if pages.len() < found {
        return Err(Refusal::Room);
    }
    if replies::put(&[listed.seeks, listed.looks], counts).is_none() {
        return Err(Refusal::Room);
    }
    replies::put(&list[0..found], pages);
    Ok(shown(r, list, found))
}
"""
# the one loop besides the seek's in which kind 3 or a screen reads bytes: from block to block, by their lengths
WALK = """
pub fn blocks_from(s: &[u8], from: usize, k: usize) -> &[u8] {
    let mut rest = &s[from..];
    for _ in 0..k {
        let size = numbers::read_u32(rest, 0) as usize;
        rest = &rest[size..];
    }
    rest
}
"""
# the words that are read for a rank and not counted: from the number stored before a page up to the page's own word
ONES = """
pub fn ones_of(s: &[u8], at: usize, from: usize, to: usize) -> usize {
    let mut i = 0;
    for k in from..to {
        i += u64::count_ones(run_word(s, at, k)) as usize;
    }
    i
}
"""
RANKED = """
fn ones_between(s: &[u8], at: usize, from: usize, to: usize) -> usize {
    let last = to / 64;
    let before = runs::ones_of(s, at, from, last);
    before + fields::ones_below(runs::run_word(s, at, last), to % 64) as usize
}
pub fn rank_at(s: &[u8], g: Shape, page: usize) -> usize {
    let i = page / 256;
    if i == 0 {
        return ones_between(s, g.upper, 0, page);
    }
    reading::number_in(s, i) + ones_between(s, g.upper, 4 * i, page)
}
"""
TEXTS = {"looks": LOOK, "rows": SUMS, "query": PAGES, "bycommon": TOLD, "panel": SHOWN, "parts": WALK,
         "runs": ONES, "maprank": RANKED}
WRITTEN = {f.path: f for crate, text in TEXTS.items() for f in read(crate, text).functions.values()}


def stands_as_written(program):
    """What hands out a word and adds a look, what sums up the counts, what tells them, the walk over the lengths of
    blocks, and what reads words for a rank stand word for word as the test has them: a look is one word, counts are
    summed plainly and told as they are, and a rank takes at most four words and no look."""
    for path, written in WRITTEN.items():
        found = program.function(path)
        if str(found) != str(written):
            yield f"{path}: it is `{found}`, and not `{written}`"


SENTENCES = [stands_as_written]
