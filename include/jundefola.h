/*
 * Jundefola: posting lists in Elias-Fano form or as bitmaps, the words of a manual, cards that index them, and
 * questions over cards.
 *
 * For C99 and C++. Link the archive target/staticlib/libjundefola.a, which `host/archive` makes.
 *
 * - A call keeps nothing: it reads what it is lent, writes the room it is lent, and allocates nothing. Calls from
 *   several threads may run at once, as long as nobody writes what another call reads or writes.
 * - A slice is a pointer and a length, the length counted in elements. Where the length is 0 the pointer may be null.
 *   Else it points to that many elements, and numbers are aligned as uint32_t. A room overlaps no other slice.
 * - Every input has an answer; nothing is left undefined by the bytes or numbers in a slice or a session.
 * - A refusal leaves the room as it was, with two exceptions: where jf_ask refuses with JF_ROOM its earlier answers
 *   stand, and where a word written in runs gets bad postings or totals its block is cleared.
 *
 * The bytes of the blocks are described in docs/FORMAT.md.
 */
#ifndef JUNDEFOLA_H
#define JUNDEFOLA_H

#include <stddef.h>
#include <stdint.h>

#ifdef __cplusplus
extern "C" {
#endif

/* Why a call refused; JF_ACCEPTED where it did not. The first reason found is the one reported. */
typedef enum jf_refusal {
    JF_ACCEPTED = 0, /* nothing is refused */
    JF_SHORT = 1,    /* fewer bytes than the header: list 13, term 44, card 11 */
    JF_LENGTH = 2,   /* the stated length differs from the bytes given, or does not fit its container */
    JF_VERSION = 3,  /* an unknown version, or a list whose form is not the one that belongs in its place */
    JF_LIMIT = 4,    /* U, N or T over its limit, or a closed card whose length does not fit four bytes */
    JF_LAYOUT = 5,   /* n above U, a length that U and n do not give, or bytes left after the last part */
    JF_RUNS = 6,     /* runs or pointers, or a bitmap or its numbers, are not those of a valid list */
    JF_PARTS = 7,    /* the parts of a term or a card disagree */
    JF_QUESTION = 8, /* a bad question: an unknown kind, a wrong count, word or offset, or cut short; a bad screen */
    JF_ROOM = 9,     /* the room lent is too small */
    JF_LISTS = 10    /* the lists handed to a writer are not valid or not as announced, or its session is over */
} jf_refusal;

/* The kinds of question; what each is asked and answers is told at jf_ask. */
typedef enum jf_kind {
    JF_KIND_RANK = 1,   /* the page at a rank */
    JF_KIND_BOUND = 2,  /* the first page at or above a bound, and how many lie below it */
    JF_KIND_COMMON = 3, /* the pages that all words share */
    JF_KIND_PHRASE = 4  /* the pages where the words stand as in a phrase */
} jf_kind;

/*
 * The editions of a card, each by the version in the card's header. A call that handles a term or closes a card is told
 * that number; any other is an unknown version. The same words give the same answers in both, and may take other looks.
 */
typedef enum jf_edition {
    JF_EDITION_1 = 1, /* all lists are runs */
    JF_EDITION_2 = 2  /* the pages of a dense word, one on over a quarter of them, are a bitmap; other lists are runs */
} jf_edition;

/* The limits of document 01. */
#define JF_MAX_VERSION 2u  /* the version of a card, which is at least 1 */
#define JF_MAX_U 16777216u /* U of a list, and N, the pages of a card */
#define JF_MAX_T 4096u     /* T, the words of a card */
#define JF_MAX_WORDS 8u    /* the words in one question */
#define JF_MAX_OFFSET 255u /* the offset of a word in a phrase */
#define JF_MAX_SCREEN 64u  /* the pages of a screen; it has at least 1 */

/* The numbers that jf_screen counts: the seeks and the looks. */
#define JF_SCREEN_COUNTS ((size_t)2)

/* The bytes of a card before its first term block. */
#define JF_CARD_HEADER ((size_t)11)

/* Bytes that are enough for the block of any list of n numbers; the block may be shorter. */
#define JF_LIST_ROOM(n) ((size_t)29 + (size_t)4 * (size_t)(n))

/* Bytes that are enough, in each edition, for the term block of any word on that many pages, at so many positions. */
#define JF_TERM_ROOM(pages, positions) \
    ((size_t)5 + (size_t)2 * JF_LIST_ROOM(pages) + JF_LIST_ROOM(positions))

/* What a writer reports: a refusal of jf_refusal, and the bytes written (0 where it refused). */
typedef struct jf_written {
    uint32_t refusal;
    size_t length;
} jf_written;

/*
 * A session: where the writing of a word in runs stands. The fields are the library's own, and a host hands them back
 * as they came. A session that is over is all zeros.
 */
typedef struct jf_stream {
    uint32_t mark;
    uint32_t version;
    uint32_t n;
    uint32_t pages;
    uint32_t positions;
    uint32_t u;
    uint32_t laid;
    uint32_t filled;
    uint32_t page;
    uint32_t base;
} jf_stream;

/* What a session's call reports: a refusal, the bytes of the finished block (else 0), and the session to go on with. */
typedef struct jf_streamed {
    uint32_t refusal;
    size_t length;
    jf_stream stream;
} jf_streamed;

/* What asking reports: a refusal, the questions answered whole, and the numbers of the room that they use. */
typedef struct jf_asked {
    uint32_t refusal;
    size_t answered;
    size_t used;
} jf_asked;

/*
 * What a screen reports: a refusal, the pages found, 1 in `full` where there are as many as were asked for, and then in
 * `next` the bound of the next screen, which is the last page plus 1; else both are 0.
 */
typedef struct jf_screened {
    uint32_t refusal;
    size_t found;
    uint32_t full;
    uint32_t next;
} jf_screened;

/*
 * Writes the block of a list of strictly rising numbers, each below u, as runs to the start of the room.
 * Refuses with JF_LIMIT (u), JF_LISTS or JF_ROOM. JF_LIST_ROOM(list_len) bytes are enough.
 */
jf_written jf_write_list(uint32_t u, const uint32_t *list, size_t list_len, uint8_t *room, size_t room_len);

/* Checks the block of a list as runs, which must fill the bytes given; returns the refusal. A bitmap is JF_VERSION. */
uint32_t jf_check_list(const uint8_t *block, size_t block_len);

/*
 * Writes the term block of one word, for a card of that version with n pages, to the start of the room: its pages,
 * rising and below n, the count of positions on each page, at least 1, and the positions, page after page, rising
 * within a page. Refuses with JF_VERSION (an unknown version), JF_LIMIT (n), JF_LISTS, JF_LIMIT (positions too high in
 * sum) or JF_ROOM, in this order. JF_TERM_ROOM(pages_len, positions_len) bytes are enough.
 */
jf_written jf_write_term(uint32_t version, uint32_t n, const uint32_t *pages, size_t pages_len,
                         const uint32_t *counts, size_t counts_len, const uint32_t *positions, size_t positions_len,
                         uint8_t *room, size_t room_len);

/*
 * Announces a word that is written in runs, for a host that does not hold all of its postings at once: the version of
 * the card, so many of its n pages, so many positions in all, and the positions' u, which is the sum over the word's
 * pages of the last position there plus 1. Writes the headers of its block to the start of the room, and clears the
 * rest of the block. Refuses with JF_VERSION (an unknown version), JF_LIMIT (n or u), JF_LISTS (more pages than n or
 * than positions, more positions than u, positions but no pages, u without positions) or JF_ROOM, in this order; the
 * room is then as it was, and the session that comes back is over. JF_TERM_ROOM(pages, positions) bytes are enough.
 *
 * Hand the session to jf_put_postings with each run, and to jf_end_term behind the last: each time the session that the
 * last call gave, and the room as that call left it, here or at another address. The finished block is then that of
 * jf_write_term, byte for byte, wherever the word was cut. In a room that was changed ones are set into what is there,
 * and pointers and a bitmap's numbers are taken from what is there. No call changes a byte past the block.
 *
 * What both of them refuse, in this order:
 * - JF_LISTS, with the room as it was, where the session is over: behind a refused announcement, behind JF_LISTS and
 *   behind a finished block. So is any value that is not live: its mark is not 1, its announcement would be refused,
 *   or it has more pages or positions laid than announced.
 * - JF_ROOM, with the room and the session as they were, where the room is shorter than the block: go on with more.
 * - JF_LISTS, with the block all zero and the session over, where the postings or the totals are bad.
 */
jf_streamed jf_begin_term(uint32_t version, uint32_t n, uint32_t pages, uint32_t positions, uint32_t u, uint8_t *room,
                          size_t room_len);

/*
 * Lays the next run of a word's postings behind those in the room: pages, counts and positions as jf_write_term takes
 * them, cut between two pages, and each page above those before; a run may be empty. Postings are bad where
 * jf_write_term would refuse them with JF_LISTS, or where they go past the announced pages, positions or u.
 */
jf_streamed jf_put_postings(jf_stream stream, const uint32_t *pages, size_t pages_len, const uint32_t *counts,
                            size_t counts_len, const uint32_t *positions, size_t positions_len, uint8_t *room,
                            size_t room_len);

/*
 * Closes a word: writes its pointers and a bitmap's numbers, and reports the length of its block. Totals are bad where
 * the announced pages, positions or u are not reached.
 */
jf_streamed jf_end_term(jf_stream stream, uint8_t *room, size_t room_len);

/*
 * Checks a term block of a card of that version, which must fill the bytes given; returns the refusal. An unknown
 * version is JF_VERSION, behind the term's own JF_SHORT and JF_LENGTH. So is a list that is a bitmap and should not be,
 * or the reverse, behind the list's JF_LIMIT and an n above U, and before its length is compared.
 */
uint32_t jf_check_term(uint32_t version, const uint8_t *block, size_t block_len);

/*
 * Makes a card of that version of t term blocks that lie one after the other in the buffer, from byte JF_CARD_HEADER up
 * to byte `used`. It checks them and writes the header alone. The card is the first `length` bytes, which is `used`.
 * Refuses with JF_ROOM (used above buffer_len), JF_SHORT (used below JF_CARD_HEADER), JF_VERSION (an unknown version),
 * JF_LIMIT (n, t, or a length past four bytes), or as jf_check_index refuses the terms and what is left behind them, in
 * this order.
 *
 * To fill the buffer, start with used = JF_CARD_HEADER and, for each word, write its term block for the same version to
 * buffer + used with room buffer_len - used, then add the length reported.
 */
jf_written jf_close_index(uint8_t *buffer, size_t buffer_len, size_t used, uint32_t version, uint32_t n, uint32_t t);

/* Checks a card, which must fill the bytes given and states its version itself; returns the refusal. */
uint32_t jf_check_index(const uint8_t *card, size_t card_len);

/*
 * Checks a card, then the questions, then answers them in turn into the room. Words are numbered from 0.
 *
 * question (numbers)         answer (numbers)                                      room that is enough
 * 1, 2, word, rank           1, page; or 0 if the word has no such rank             2
 * 2, 2, word, bound          2, page, rank; or 1, n if no page is at or above it    3
 * 3, c, c words (1 to 8)     m + 2, seeks, looks, the m common pages                3 + the fewest pages of a word
 * 4, 2 k, k pairs (1 to 8)   2 m, then page and number of starts, m times           1 + twice the fewest pages
 *
 * Ranks count from 0, and n is the number of the word's pages, so the last number of kind 2's answer, found or not, is
 * how many of the word's pages lie below the bound. Rank and bound may be any number.
 *
 * A pair of kind 4 is a word and its offset. The first offset is 0, offsets rise strictly, and none is above
 * JF_MAX_OFFSET; all else is JF_QUESTION. A start is a position p of the page such that each word stands at p plus its
 * offset: offsets 0, 1, 2 .. ask for words right behind one another, and a number left out is a word that was dropped.
 *
 * Each answer starts with the count of the numbers behind it. Where an answer does not fit whole, the refusal is
 * JF_ROOM: the answers before it stand, `answered` of them in `used` numbers, and the rest of the room is unchanged.
 * Go on by asking again from that question, with more room. On any other refusal nothing is answered or written.
 */
jf_asked jf_ask(const uint8_t *card, size_t card_len, const uint32_t *questions, size_t questions_len, uint32_t *room,
                size_t room_len);

/*
 * Checks a card, then shows a screen of it: the first r pages at or above the bound that all of the words hold, or
 * fewer where no more are left, at the front of `pages`, and the seeks and looks that finding them took in `counts`.
 * r is 1 to JF_MAX_SCREEN, there are 1 to JF_MAX_WORDS words, numbered from 0, and the bound may be any number.
 *
 * For all pages start with bound 0, and while `full` is 1 ask again with the bound `next`: the screens, joined, are the
 * pages of kind 3, and where the last page just fills a screen an empty one follows. Nothing before the bound is read,
 * but each call checks the card.
 *
 * Refuses as jf_check_index does, with JF_QUESTION (r or the words), or with JF_ROOM, where `pages` has less room than
 * pages were found or `counts` less than JF_SCREEN_COUNTS; r numbers are always enough. A refusal leaves both rooms as
 * they were, and the other numbers 0. What is not written of a room stays as it was.
 */
jf_screened jf_screen(const uint8_t *card, size_t card_len, uint32_t bound, uint32_t r, const uint32_t *words,
                      size_t words_len, uint32_t *pages, size_t pages_len, uint32_t *counts, size_t counts_len);

#ifdef __cplusplus
}
#endif

#endif
