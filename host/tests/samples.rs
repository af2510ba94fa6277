//! The sample cards S1 to S12 of document 01, as docs/AMENDMENTS.md amends it, and its edges, in edition 1.

mod cards;

use cards::card_of_pages;
use jundefola::{
    ask, ask_all, check_index, check_list, check_term, close_index, list_block, term_block,
    write_term, Answer, CardWriter, Edition, PageStarts, Question, Refusal,
};

const S1_LIST: [u32; 8] = [3, 4, 7, 13, 14, 15, 21, 43];

/// The term of S9's word, and its card, whose header has 11 bytes.
const S9_TERM: &str = "00000054 01 \
     0000001D 01 00000003 00000001 0000000000000001 0000000000000001 \
     0000001D 01 00000002 00000001 0000000000000001 0000000000000001 \
     00000015 01 00000003 00000002 0000000000000009";
const S9_HEADER: &str = "0000005F 01 00000003 0001";

const S12_CARD: &str = "000000A3 01 0000002C 0002 0000004C 01 \
     0000001D 01 0000002C 00000008 000000000000DE73 00000000000209CD \
     00000015 01 00000008 00000008 0000000000005555 \
     00000015 01 00000008 00000008 0000000000005555 0000004C 01 \
     0000001D 01 0000002C 00000002 00000000000000F4 0000000000000003 \
     00000015 01 00000002 00000002 0000000000000005 \
     00000015 01 00000002 00000002 0000000000000005";

/// The bytes of hexadecimal text, blanks aside.
fn hex(text: &str) -> Vec<u8> {
    let digits: Vec<u8> = text
        .chars()
        .filter_map(|c| c.to_digit(16))
        .map(|digit| digit as u8)
        .collect();
    digits
        .chunks(2)
        .map(|pair| pair[0] << 4 | pair[1])
        .collect()
}

/// The numbers of the answers to one question.
fn answer(card: &[u8], question: &[u32]) -> Vec<u32> {
    let mut room = [0; 1000];
    let asked = ask(card, question, &mut room);
    assert_eq!(asked.refusal, None);
    assert_eq!(asked.answered, 1);
    room[..asked.used].to_vec()
}

fn s9_card() -> Vec<u8> {
    let mut writer = CardWriter::new(Edition::One, 3);
    writer.add(&[1], &[2], &[0, 2]).unwrap();
    writer.close().unwrap()
}

#[test]
fn s1_a_list_of_eight() {
    let block = list_block(44, &S1_LIST).unwrap();
    let expected = hex("0000001D 01 0000002C 00000008 000000000000DE73 00000000000209CD");
    assert_eq!(block, expected);
    assert_eq!(check_list(&block), Ok(()));
}

#[test]
fn s1_by_rank() {
    let card = card_of_pages(Edition::One, 44, &[&S1_LIST]);
    for (rank, page) in (0..).zip(S1_LIST) {
        assert_eq!(answer(&card, &[1, 2, 0, rank]), [1, page]);
    }
    assert_eq!(answer(&card, &[1, 2, 0, 8]), [0]);
}

#[test]
fn s2_an_empty_list() {
    assert_eq!(
        list_block(5, &[]).unwrap(),
        hex("0000000D 01 00000005 00000000")
    );
}

#[test]
fn s3_a_list_of_one() {
    let expected = hex("00000015 01 00000001 00000001 0000000000000001");
    assert_eq!(list_block(1, &[0]).unwrap(), expected);
}

#[test]
fn s4_a_full_list() {
    let expected = hex("00000015 01 00000003 00000003 0000000000000015");
    assert_eq!(list_block(3, &[0, 1, 2]).unwrap(), expected);
}

#[test]
fn s5_to_s7_bounds() {
    let card = card_of_pages(Edition::One, 44, &[&S1_LIST]);
    assert_eq!(answer(&card, &[2, 2, 0, 16]), [2, 21, 6]);
    assert_eq!(answer(&card, &[2, 2, 0, 43]), [2, 43, 7]);
    assert_eq!(answer(&card, &[2, 2, 0, 44]), [1, 8]);
}

#[test]
fn bounds_behind_the_last_page_tell_all_pages() {
    let card = card_of_pages(Edition::One, 44, &[&S1_LIST, &[4, 15], &[]]);
    for bound in [44, 45, u32::MAX] {
        assert_eq!(answer(&card, &[2, 2, 0, bound]), [1, 8]);
    }
    for bound in [16, 43, 44, u32::MAX] {
        assert_eq!(answer(&card, &[2, 2, 1, bound]), [1, 2]);
    }
    for bound in [0, 1, 43, 44, u32::MAX] {
        assert_eq!(answer(&card, &[2, 2, 2, bound]), [1, 0]);
    }
}

/// The looks of S1's first seek, beside those of the other word's: that word leads, and is on one page, the bound.
#[test]
fn s5_to_s7_looks() {
    let card = card_of_pages(Edition::One, 44, &[&S1_LIST, &[16], &[43]]);
    // page 21 is found, and then none for the other word: a look each
    assert_eq!(answer(&card, &[3, 2, 0, 1]), [2, 3, 1 + 1 + 1]);
    // the other word's last seek is for 44, which takes no look
    assert_eq!(answer(&card, &[3, 2, 0, 2]), [3, 3, 1 + 1, 43]);
}

#[test]
fn s8_a_list_with_a_pointer() {
    let full: Vec<u32> = (0..300).collect();
    let block = list_block(300, &full).unwrap();
    assert_eq!(block.len(), 97);
    assert_eq!(block[13..17], 512_u32.to_be_bytes());
    // the full list's first seek is for the other word's page; the other word's own seeks take the looks that are left
    let card = card_of_pages(Edition::One, 300, &[&full, &[299], &[255], &[0]]);
    assert_eq!(answer(&card, &[3, 2, 0, 1]), [3, 3, 1 + 2, 299]);
    assert_eq!(answer(&card, &[3, 2, 0, 2]), [3, 3, 1 + 8 + 1, 255]);
    assert_eq!(answer(&card, &[3, 2, 0, 3]), [3, 3, 1 + 1 + 1, 0]);
    for bound in [299, 255, 0] {
        assert_eq!(answer(&card, &[2, 2, 0, bound]), [2, bound, bound]);
    }
    assert_eq!(answer(&card, &[2, 2, 0, 300]), [1, 300]);
}

#[test]
fn s9_to_s11_a_card_of_one_word() {
    let card = s9_card();
    let term = term_block(Edition::One, 3, &[1], &[2], &[0, 2]).unwrap();
    assert_eq!(term, hex(S9_TERM));
    assert_eq!(check_term(Edition::One, &term), Ok(()));
    assert_eq!(card, [hex(S9_HEADER), hex(S9_TERM)].concat());
    assert_eq!(answer(&card, &[3, 1, 0]), [3, 2, 2, 1]);
    assert_eq!(answer(&card, &[4, 4, 0, 0, 0, 1]), [0]);
    assert_eq!(answer(&card, &[4, 2, 0, 0]), [2, 1, 2]);
}

#[test]
fn s12_common_pages() {
    let card = card_of_pages(Edition::One, 44, &[&S1_LIST, &[4, 15]]);
    assert_eq!(card, hex(S12_CARD));
    assert_eq!(check_index(&card), Ok(()));
    assert_eq!(answer(&card, &[3, 2, 0, 1]), [4, 5, 5, 4, 15]);
}

#[test]
fn a_word_on_no_page() {
    let empty = "0000000D 01 00000000 00000000";
    let expected = hex(&["0000002C 01", empty, empty, empty].concat());
    assert_eq!(
        term_block(Edition::One, 0, &[], &[], &[]).unwrap(),
        expected
    );
}

#[test]
fn sums_and_positions_past_32_bits() {
    let refused = |counts: &[u32], positions: &[u32]| {
        let mut room = vec![0xA5; 96];
        let refusal =
            write_term(Edition::One, 3, &[1, 2], counts, positions, &mut room).unwrap_err();
        assert_eq!(room, [0xA5; 96]);
        refusal
    };
    assert_eq!(refused(&[u32::MAX, 3], &[0, 2]), Refusal::Lists);
    assert_eq!(refused(&[1, 2], &[u32::MAX, 5, 5]), Refusal::Lists);
    assert_eq!(refused(&[1, 1], &[u32::MAX, 5]), Refusal::Limit);
    let limit_before_lists = term_block(Edition::One, 16_777_217, &[], &[1], &[]);
    assert_eq!(limit_before_lists, Err(Refusal::Limit));
}

#[test]
fn s9_cut() {
    let card = s9_card();
    assert_eq!(check_index(&card[..94]), Err(Refusal::Length));
    assert_eq!(check_index(&card[1..]), Err(Refusal::Length));
    assert_eq!(check_index(&card[..11]), Err(Refusal::Length));
    assert_eq!(check_index(&card[..10]), Err(Refusal::Short));
}

/// A byte of S9's card set, how that is refused, and how it is with N = 4 as well, so that only the order decides.
#[test]
fn s9_damaged() {
    use Refusal::{Layout, Length, Limit, Parts, Short, Version};
    let damages = [
        (4, 0, Version, Version),
        (4, 3, Version, Version),
        (5, 2, Limit, Limit),
        (9, 0x10, Limit, Limit),
        (10, 0, Layout, Layout),
        (10, 2, Short, Parts),
        (14, 0x53, Length, Length),
        (15, 0, Version, Version),
        (19, 0x1C, Layout, Layout),
        (53, 3, Parts, Parts),
        (94, 0x05, Parts, Parts),
    ];
    for (at, byte, alone, with_n) in damages {
        let mut card = s9_card();
        card[at] = byte;
        assert_eq!(check_index(&card), Err(alone));
        card[8] = 4;
        assert_eq!(check_index(&card), Err(with_n));
    }
    let mut card = s9_card();
    card[8] = 4;
    assert_eq!(check_index(&card), Err(Parts));
}

#[test]
fn s9_closed() {
    let card = s9_card();
    let close = |used, n, t| {
        let mut buffer = card.clone();
        let report = close_index(&mut buffer, used, Edition::One, n, t);
        (report, buffer)
    };
    let refused = |refusal| (Err(refusal), card.clone());
    assert_eq!(close(96, 3, 1), refused(Refusal::Room));
    assert_eq!(close(10, 3, 1), refused(Refusal::Short));
    assert_eq!(close(95, 3, 4097), refused(Refusal::Limit));
    assert_eq!(close(95, 3, 65_537), refused(Refusal::Limit));
    assert_eq!(close(95, 16_777_217, 1), refused(Refusal::Limit));
    assert_eq!(close(95, 4, 1), refused(Refusal::Parts));
    assert_eq!(close(95, 3, 1), (Ok(95), card.clone()));
    let (report, without_words) = close(11, 0, 0);
    assert_eq!(report, Ok(11));
    assert_eq!(check_index(&without_words[..11]), Ok(()));
    assert_eq!(without_words[11..], card[11..]);
}

fn at_bound(page: Option<u32>, below: u32) -> Answer<'static> {
    Answer::Bound { page, below }
}

#[test]
fn s5_to_s12_as_typed_answers() {
    let card = card_of_pages(Edition::One, 44, &[&S1_LIST, &[4, 15]]);
    let questions = [
        Question::Rank { term: 0, rank: 5 },
        Question::Rank { term: 0, rank: 8 },
        Question::Bound { term: 0, bound: 16 },
        Question::Bound { term: 0, bound: 43 },
        Question::Bound { term: 0, bound: 44 },
        Question::Common(vec![0, 1]),
    ];
    let answers = ask_all(&card, &questions).unwrap();
    let expected = [
        Answer::Rank(Some(15)),
        Answer::Rank(None),
        at_bound(Some(21), 6),
        at_bound(Some(43), 7),
        at_bound(None, 8),
        Answer::Common {
            seeks: 5,
            looks: 5,
            pages: &[4, 15],
        },
    ];
    assert!(answers.iter().eq(expected));

    let phrase = ask_all(&s9_card(), &[Question::phrase([0])]).unwrap();
    let Some(Answer::Phrase(starts)) = phrase.iter().next() else {
        panic!("a phrase was asked")
    };
    assert!(starts.eq([PageStarts { page: 1, starts: 2 }]));
}

/// Every bound up to one past U, and the largest, on S1's list and on an empty one.
#[test]
fn typed_bounds_tell_the_pages_below() {
    let words: [&[u32]; 2] = [&S1_LIST, &[]];
    let card = card_of_pages(Edition::One, 44, &words);
    for (term, pages) in (0..).zip(words) {
        for bound in (0..=45).chain([u32::MAX]) {
            let first = pages.iter().find(|page| **page >= bound);
            let below = pages.iter().filter(|page| **page < bound).count();
            let answers = ask_all(&card, &[Question::Bound { term, bound }]).unwrap();
            let expected = at_bound(first.copied(), below as u32);
            assert!(answers.iter().eq([expected]), "bound {bound}");
        }
    }
}

#[test]
fn edges_of_u() {
    assert_eq!(check_list(&list_block(16_777_216, &[]).unwrap()), Ok(()));
    assert_eq!(list_block(16_777_217, &[]), Err(Refusal::Limit));
    let mut block = list_block(16_777_216, &[]).unwrap();
    block[8] = 1;
    assert_eq!(check_list(&block), Err(Refusal::Limit));
}

#[test]
fn edges_of_t() {
    let words = |count| {
        let mut writer = CardWriter::new(Edition::One, 0);
        for _ in 0..count {
            writer.add(&[], &[], &[]).unwrap();
        }
        writer.close()
    };
    assert_eq!(check_index(&words(4096).unwrap()), Ok(()));
    assert_eq!(words(4097), Err(Refusal::Limit));
    let mut card = words(4096).unwrap();
    card[10] = 1;
    assert_eq!(check_index(&card), Err(Refusal::Limit));
}

#[test]
fn edges_of_questions() {
    let card = s9_card();
    assert!(ask_all(&card, &[Question::Common(vec![0; 8])]).is_ok());
    let refused = |question| ask_all(&card, &[question]) == Err(Refusal::Question);
    assert!(refused(Question::Common(vec![0; 9])));
    assert!(refused(Question::phrase([0; 9])));
    assert!(refused(Question::Common(vec![])));
    assert!(refused(Question::Phrase(vec![])));
    assert!(refused(Question::Rank { term: 1, rank: 0 }));
}

#[test]
fn edges_of_runs_and_pointers() {
    let mut s1 = list_block(44, &S1_LIST).unwrap();
    s1[29 - 3] |= 1 << 3;
    assert_eq!(check_list(&s1), Err(Refusal::Runs));
    let mut s8 = list_block(300, &(0..300).collect::<Vec<u32>>()).unwrap();
    s8[13..17].copy_from_slice(&511_u32.to_be_bytes());
    assert_eq!(check_list(&s8), Err(Refusal::Runs));
    let s2 = list_block(5, &[]).unwrap();
    assert_eq!(check_list(&s2[..12]), Err(Refusal::Short));
}
