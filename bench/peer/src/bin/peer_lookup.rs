//! The program of document 01, answered by the peer.

use jundefola_peer::{peer_ask, peer_check_index, Asked};
use std::ffi::OsString;
use std::fs::File;
use std::io::{self, Read, Write};

const GREATEST_FILE: usize = 32_768;
const ANSWER_ROOM: usize = 8_192;
const BAD_QUESTION: u32 = 8;
const ROOM: u32 = 9;

fn main() {
    let mut paths = std::env::args_os().skip(1);
    let (card, questions) = (read(paths.next()), read(paths.next()));
    let mut room = [0_u32; ANSWER_ROOM];
    let asked = asked(&card, &questions, &mut room);
    let mut text = String::new();
    let mut rest = &room[..asked.used];
    for _ in 0..asked.answered {
        let (answer, after) = rest.split_at(rest[0] as usize + 1);
        let numbers: Vec<String> = answer.iter().map(u32::to_string).collect();
        text += &(numbers.join(" ") + "\n");
        rest = after;
    }
    if asked.refusal != 0 {
        text += &format!("refused {}\n", asked.refusal);
    }
    // What cannot be printed is lost: the exit status tells nothing.
    let _ = io::stdout().write_all(text.as_bytes());
}

/// A file up to a byte past the limit; empty if it cannot be read.
fn read(path: Option<OsString>) -> Vec<u8> {
    let Some(Ok(file)) = path.map(File::open) else {
        return Vec::new();
    };
    let mut bytes = Vec::new();
    match file.take(GREATEST_FILE as u64 + 1).read_to_end(&mut bytes) {
        Ok(_) => bytes,
        Err(_) => Vec::new(),
    }
}

fn asked(card: &[u8], questions: &[u8], room: &mut [u32]) -> Asked {
    let refused = |refusal| Asked {
        refusal,
        answered: 0,
        used: 0,
    };
    if card.len() > GREATEST_FILE || questions.len() > GREATEST_FILE {
        return refused(ROOM);
    }
    let fours = questions.chunks_exact(4);
    if !fours.remainder().is_empty() {
        return match unsafe { peer_check_index(card.as_ptr(), card.len()) } {
            0 => refused(BAD_QUESTION),
            refusal => refused(refusal),
        };
    }
    let numbers: Vec<u32> = fours
        .map(|four| u32::from_be_bytes([four[0], four[1], four[2], four[3]]))
        .collect();
    let (at, length) = (room.as_mut_ptr(), room.len());
    unsafe {
        peer_ask(
            card.as_ptr(),
            card.len(),
            numbers.as_ptr(),
            numbers.len(),
            at,
            length,
        )
    }
}
