//! Each call of the library through this crate: its success, its refusals and what it leaves of the room.

use jundefola::{
    ask, ask_all, check_index, check_list, check_term, close_index, list_block, list_room,
    term_block, term_room, write_list, write_term, Answer, Asked, CardWriter, Edition, Question,
    Refusal,
};

const FILL: u8 = 0xA5;

/// Writes into a room of this many bytes; gives the report and the room.
fn in_room<R>(bytes: usize, write: impl Fn(&mut [u8]) -> R) -> (R, Vec<u8>) {
    let mut room = vec![FILL; bytes];
    let report = write(&mut room);
    (report, room)
}

#[test]
fn a_list_needs_its_room_and_leaves_the_rest() {
    let block = list_block(3, &[0, 2]).unwrap();
    let write = |room: &mut [u8]| write_list(3, &[0, 2], room);

    assert_eq!(
        in_room(block.len(), write),
        (Ok(block.len()), block.clone())
    );
    let (report, room) = in_room(block.len() + 3, write);
    assert_eq!(report, Ok(block.len()));
    assert_eq!(room, [&block[..], &[FILL; 3]].concat());
    let short = block.len() - 1;
    assert_eq!(
        in_room(short, write),
        (Err(Refusal::Room), vec![FILL; short])
    );
    assert_eq!(in_room(0, write), (Err(Refusal::Room), vec![]));
}

#[test]
fn bad_lists_are_refused() {
    for list in [&[3][..], &[1, 1], &[2, 1]] {
        assert_eq!(list_block(3, list), Err(Refusal::Lists));
    }
    assert_eq!(list_block(0, &[0]), Err(Refusal::Lists));
    assert_eq!(list_block(u32::MAX, &[2, 1]), Err(Refusal::Limit));
}

#[test]
fn a_term_needs_its_room_and_leaves_the_rest() {
    let block = term_block(Edition::Two, 3, &[1], &[2], &[0, 2]).unwrap();
    let write = |room: &mut [u8]| write_term(Edition::Two, 3, &[1], &[2], &[0, 2], room);

    assert_eq!(check_term(Edition::Two, &block), Ok(()));
    let (report, room) = in_room(block.len() + 3, write);
    assert_eq!(report, Ok(block.len()));
    assert_eq!(room, [&block[..], &[FILL; 3]].concat());
    let short = block.len() - 1;
    assert_eq!(
        in_room(short, write),
        (Err(Refusal::Room), vec![FILL; short])
    );
}

#[test]
fn bad_terms_are_refused() {
    let refused = |n, pages: &[u32], counts: &[u32], positions: &[u32]| {
        term_block(Edition::Two, n, pages, counts, positions).unwrap_err()
    };
    assert_eq!(refused(16_777_217, &[], &[], &[]), Refusal::Limit);
    assert_eq!(refused(3, &[1], &[], &[]), Refusal::Lists);
    assert_eq!(refused(3, &[3], &[1], &[0]), Refusal::Lists);
    assert_eq!(refused(3, &[1], &[0], &[]), Refusal::Lists);
    assert_eq!(refused(3, &[1], &[2], &[0]), Refusal::Lists);
    assert_eq!(refused(3, &[1], &[2], &[1, 1]), Refusal::Lists);
    assert_eq!(refused(3, &[0, 1], &[u32::MAX, 2], &[0]), Refusal::Lists);
    assert_eq!(refused(3, &[1], &[1], &[u32::MAX]), Refusal::Limit);
}

#[test]
fn the_rooms_that_are_enough() {
    let limit = 16_777_216;
    for len in [0, 1, 2, 3, 63, 64, 65, 1000] {
        let spread: Vec<u32> = (0..len).map(|i| i * (limit / len.max(1))).collect();
        let dense: Vec<u32> = (0..len).collect();
        let ones = vec![1; len as usize];
        for list in [&spread, &dense] {
            let mut room = vec![0; list_room(list.len())];
            assert!(write_list(limit, list, &mut room).is_ok());
            assert!(write_list(len, &dense, &mut room).is_ok());
            let nines = vec![9; list.len()];
            let mut room = vec![0; term_room(list.len(), list.len())];
            for edition in Edition::ALL {
                assert!(write_term(edition, limit, list, &ones, &nines, &mut room).is_ok());
                assert!(write_term(edition, len, &dense, &ones, &nines, &mut room).is_ok());
            }
        }
    }
}

#[test]
fn closing_writes_the_header_alone() {
    let term = term_block(Edition::Two, 3, &[1], &[2], &[0, 2]).unwrap();
    let used = 11 + term.len();
    let buffer = [&[FILL; 11], &term[..], &[FILL; 2]].concat();

    let mut closed = buffer.clone();
    assert_eq!(close_index(&mut closed, used, Edition::Two, 3, 1), Ok(used));
    assert_eq!(check_index(&closed[..used]), Ok(()));
    assert_eq!(closed[11..], buffer[11..]);

    let refused = |used, n, t| {
        let mut closed = buffer.clone();
        let refusal = close_index(&mut closed, used, Edition::Two, n, t).unwrap_err();
        assert_eq!(closed, buffer);
        refusal
    };
    assert_eq!(refused(buffer.len() + 1, 3, 1), Refusal::Room);
    assert_eq!(refused(10, 3, 1), Refusal::Short);
    assert_eq!(refused(used, 16_777_217, 1), Refusal::Limit);
    assert_eq!(refused(used, 3, 65_537), Refusal::Limit);
    assert_eq!(refused(used, 3, 2), Refusal::Short);
    assert_eq!(refused(used + 1, 3, 1), Refusal::Layout);
    assert_eq!(refused(used, 4, 1), Refusal::Parts);
}

#[test]
fn nothing_at_all_is_refused_as_short() {
    assert_eq!(check_list(&[]), Err(Refusal::Short));
    assert_eq!(check_term(Edition::Two, &[]), Err(Refusal::Short));
    assert_eq!(check_index(&[]), Err(Refusal::Short));
    assert_eq!(
        close_index(&mut [], 0, Edition::Two, 0, 0),
        Err(Refusal::Short)
    );
    assert_eq!(ask(&[], &[], &mut []).refusal, Some(Refusal::Short));
}

#[test]
fn a_refused_word_is_not_added() {
    let mut writer = CardWriter::new(Edition::Two, 3);
    assert_eq!(writer.add(&[3], &[1], &[0]), Err(Refusal::Lists));
    writer.add(&[2], &[1], &[0]).unwrap();
    assert_eq!(writer.words(), 1);
    assert_eq!(check_index(&writer.close().unwrap()), Ok(()));
}

/// A card with a word on 50,000 pages and a word on none.
fn card_with_many_pages() -> Vec<u8> {
    let pages: Vec<u32> = (0..50_000).map(|i| 3 * i).collect();
    let ones = vec![1; pages.len()];
    let mut writer = CardWriter::new(Edition::Two, 150_000);
    writer.add(&pages, &ones, &vec![4; pages.len()]).unwrap();
    writer.add(&[], &[], &[]).unwrap();
    writer.close().unwrap()
}

#[test]
fn answers_before_a_lack_of_room_stand() {
    let card = card_with_many_pages();
    let mut room = [7; 4];
    let asked = ask(&card, &[1, 2, 0, 5, 2, 2, 0, 1], &mut room);
    let expected = Asked {
        refusal: Some(Refusal::Room),
        answered: 1,
        used: 2,
    };
    assert_eq!(asked, expected);
    assert_eq!(room, [1, 15, 7, 7]);
}

#[test]
fn none_for_a_bound_takes_two_numbers() {
    let card = card_with_many_pages();
    let asked = |refusal, answered, used| Asked {
        refusal,
        answered,
        used,
    };
    for (question, pages) in [([2, 2, 0, 150_000], 50_000), ([2, 2, 1, 0], 0)] {
        let mut room = [7];
        let refused = asked(Some(Refusal::Room), 0, 0);
        assert_eq!(ask(&card, &question, &mut room), refused);
        assert_eq!(room, [7]);
        let mut room = [7; 3];
        let answered = asked(None, 1, 2);
        assert_eq!(ask(&card, &question, &mut room[..2]), answered);
        assert_eq!(room, [1, pages, 7]);
    }
}

#[test]
fn the_room_for_answers_grows() {
    let card = card_with_many_pages();
    let questions = [
        Question::Common(vec![0]),
        Question::Rank { term: 0, rank: 1 },
        Question::phrase([0]),
        Question::Common(vec![0, 0]),
    ];
    let answers = ask_all(&card, &questions).unwrap();
    let found: Vec<usize> = answers
        .iter()
        .map(|answer| match answer {
            Answer::Rank(page) => page.iter().len(),
            Answer::Bound { page, .. } => page.iter().len(),
            Answer::Common { pages, .. } => pages.len(),
            Answer::Phrase(starts) => starts.len(),
        })
        .collect();
    assert_eq!(found, [50_000, 1, 50_000, 50_000]);
}

#[test]
fn the_room_grows_where_one_number_is_left_for_none() {
    let card = card_with_many_pages();
    let none = Question::Bound {
        term: 0,
        bound: 150_000,
    };
    let mut questions = vec![none; 3_000];
    questions.insert(0, Question::Rank { term: 1, rank: 0 });
    let answers = ask_all(&card, &questions).unwrap();
    let expected = Answer::Bound {
        page: None,
        below: 50_000,
    };
    assert!(answers.iter().skip(1).eq(vec![expected; 3_000]));
}

#[test]
fn no_questions_have_no_answers() {
    let card = card_with_many_pages();
    assert_eq!(ask_all(&card, &[]).unwrap().iter().count(), 0);
}
