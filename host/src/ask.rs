//! Asking with a room that grows as needed.

use crate::{ask, question_numbers, Answers, Question, Refusal};

/// The fewest numbers that the room has at first, and how many bytes of the card there are to each.
const SMALLEST_ROOM: usize = 4096;
const CARD_BYTES: usize = 64;

/// How many times larger the room gets where it is too small.
const GROWTH: usize = 4;

/// Answers all questions over a card, or gives the refusal of the card or of the questions.
///
/// One call of the library checks the card and all questions; only where the room was too small is it called again, for
/// the questions that are left.
///
/// ```
/// use jundefola::{ask_all, Answer, CardWriter, Edition, Question, Refusal};
/// let mut writer = CardWriter::new(Edition::Two, 3);
/// writer.add(&[1], &[2], &[0, 2])?;
/// let card = writer.close()?;
///
/// let answers = ask_all(&card, &[Question::Rank { term: 0, rank: 0 }])?;
/// assert_eq!(answers.iter().next(), Some(Answer::Rank(Some(1))));
/// assert_eq!(ask_all(&card, &[Question::Common(vec![7])]), Err(Refusal::Question));
/// # Ok::<(), Refusal>(())
/// ```
pub fn ask_all(card: &[u8], questions: &[Question]) -> Result<Answers, Refusal> {
    let mut room = vec![0; SMALLEST_ROOM.max(card.len() / CARD_BYTES)];
    let mut used = 0;
    let mut left = questions;
    loop {
        let asked = ask(card, &question_numbers(left), &mut room[used..]);
        used += asked.used;
        left = &left[asked.answered..];
        match asked.refusal {
            None => break,
            Some(Refusal::Room) => room.resize(room.len() * GROWTH, 0),
            Some(refusal) => return Err(refusal),
        }
    }
    room.truncate(used);
    Ok(Answers::new(questions, room))
}
