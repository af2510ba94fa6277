//! Big-endian numbers in bytes, and parts inside a container.

use super::refusal;

/// The four-byte number that begins at `place`.
pub fn number_at(bytes: &[u8], place: usize) -> u32 {
    bytes[place..place + 4]
        .iter()
        .fold(0, |number, byte| number * 256 + u32::from(*byte))
}

/// Appends a number as four bytes, the heaviest first.
pub fn push_number(bytes: &mut Vec<u8>, number: u32) {
    for weight in [16_777_216, 65_536, 256, 1] {
        bytes.push((number / weight % 256) as u8);
    }
}

/// Refusals 1 and 2 of a block that is the whole of `bytes`; its version is then given.
pub fn check_opening(bytes: &[u8], header: usize) -> Result<u8, u32> {
    if bytes.len() < header {
        return Err(refusal::SHORT);
    }
    if number_at(bytes, 0) as usize != bytes.len() {
        return Err(refusal::LENGTH);
    }
    Ok(bytes[4])
}

/// Splits the next part off `rest`, by the length the part states.
pub fn next_part<'a>(rest: &mut &'a [u8], header: usize) -> Result<&'a [u8], u32> {
    if rest.len() < header {
        return Err(refusal::SHORT);
    }
    let stated = number_at(rest, 0) as usize;
    if stated < header || stated > rest.len() {
        return Err(refusal::LENGTH);
    }
    let (part, after) = rest.split_at(stated);
    *rest = after;
    Ok(part)
}

/// Copies a block to the front of the room, or refuses and leaves the room alone.
pub fn put(block: &[u8], room: &mut [u8]) -> Result<usize, u32> {
    if room.len() < block.len() {
        return Err(refusal::ROOM);
    }
    room[..block.len()].copy_from_slice(block);
    Ok(block.len())
}
