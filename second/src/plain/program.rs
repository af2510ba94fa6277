//! What the program prints for two files.

use super::ask::{reply, Reply};
use super::bytes::number_at;
use super::index::check_index;
use super::refusal;

/// The most bytes of a file the program takes.
pub const GREATEST_FILE: usize = 32_768;

/// The numbers in the program's answer room.
pub const ANSWER_ROOM: usize = 8_192;

/// The printed text for a card file and a question file; `None` is a file
/// that can't be read.
pub fn printed(card: Option<&[u8]>, questions: Option<&[u8]>) -> String {
    let card = card.unwrap_or(&[]);
    let questions = questions.unwrap_or(&[]);
    let reply = reply_to_files(card, questions);
    let mut text = String::new();
    for answer in &reply.answers {
        let numbers: Vec<String> = answer.iter().map(u32::to_string).collect();
        text += &(numbers.join(" ") + "\n");
    }
    if reply.refusal != 0 {
        text += &format!("refused {}\n", reply.refusal);
    }
    text
}

fn reply_to_files(card: &[u8], questions: &[u8]) -> Reply {
    if card.len() > GREATEST_FILE || questions.len() > GREATEST_FILE {
        return Reply::refused(refusal::ROOM);
    }
    if !questions.len().is_multiple_of(4) {
        return Reply::refused(check_index(card).err().unwrap_or(refusal::QUESTION));
    }
    let numbers: Vec<u32> = questions.chunks(4).map(|four| number_at(four, 0)).collect();
    reply(card, &numbers, ANSWER_ROOM)
}
