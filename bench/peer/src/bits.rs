//! Big-endian loads and stores, and counts and places of ones in a word.

const BYTE_ONES: u64 = 0x0101_0101_0101_0101;
const BYTE_TOPS: u64 = 0x8080_8080_8080_8080;

/// The four-byte number at an address.
#[inline(always)]
pub unsafe fn number(at: *const u8) -> u32 {
    u32::from_be_bytes(at.cast::<[u8; 4]>().read())
}

/// Stores a four-byte number.
#[inline(always)]
pub unsafe fn put_number(at: *mut u8, value: u32) {
    at.cast::<[u8; 4]>().write(value.to_be_bytes());
}

/// Word number k of a run.
#[inline(always)]
pub unsafe fn word(run: *const u8, k: usize) -> u64 {
    u64::from_be_bytes(run.add(8 * k).cast::<[u8; 8]>().read())
}

/// Stores word number k of a run.
#[inline(always)]
pub unsafe fn put_word(run: *mut u8, k: usize, value: u64) {
    run.add(8 * k).cast::<[u8; 8]>().write(value.to_be_bytes());
}

/// In byte j, the ones of bytes 0 to j.
#[inline(always)]
pub fn sums(x: u64) -> u64 {
    let fours = counts_of_fours(x);
    let bytes = (fours + (fours >> 4)) & 0x0F0F_0F0F_0F0F_0F0F;
    bytes.wrapping_mul(BYTE_ONES)
}

/// The ones of four words.
#[inline(always)]
pub fn ones_in([a, b, c, d]: [u64; 4]) -> u32 {
    let bytes = counts_of_bytes(counts_of_fours(a) + counts_of_fours(b))
        + counts_of_bytes(counts_of_fours(c) + counts_of_fours(d));
    // A sum of 256 does not fit in a byte.
    let pairs = (bytes & 0x00FF_00FF_00FF_00FF) + ((bytes >> 8) & 0x00FF_00FF_00FF_00FF);
    (pairs.wrapping_mul(0x0001_0001_0001_0001) >> 48) as u32
}

/// In each four bits, their ones.
#[inline(always)]
fn counts_of_fours(x: u64) -> u64 {
    let pairs = x - ((x >> 1) & 0x5555_5555_5555_5555);
    (pairs & 0x3333_3333_3333_3333) + ((pairs >> 2) & 0x3333_3333_3333_3333)
}

/// In each byte, the sum of its two counts of fours.
#[inline(always)]
fn counts_of_bytes(fours: u64) -> u64 {
    (fours & 0x0F0F_0F0F_0F0F_0F0F) + ((fours >> 4) & 0x0F0F_0F0F_0F0F_0F0F)
}

/// The place of one number j, from 0, of a word that has more, given its sums.
#[inline(always)]
pub fn select(x: u64, sums: u64, j: u32) -> u32 {
    let j = u64::from(j);
    let above = !((BYTE_ONES * j) | BYTE_TOPS).wrapping_sub(sums) & BYTE_TOPS;
    let shift = above.trailing_zeros() & 56;
    let before = ((sums << 8) >> shift) & 0xFF;
    let byte = (x >> shift) & 0xFF;
    let place = unsafe { *PLACES.0.get_unchecked((byte * 8 + j - before) as usize) };
    shift + u32::from(place)
}

#[repr(align(64))]
struct Lined<T>(T);

/// The place of one number j of byte b at 8·b + j.
static PLACES: Lined<[u8; 2048]> = Lined(places());

const fn places() -> [u8; 2048] {
    let mut table = [0; 2048];
    let mut at = 0;
    while at < 2048 {
        let mut byte: usize = at / 8;
        let mut j = at % 8;
        while j > 0 {
            byte &= byte.wrapping_sub(1);
            j -= 1;
        }
        table[at] = (byte.trailing_zeros() & 7) as u8;
        at += 1;
    }
    table
}
