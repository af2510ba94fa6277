/*
 * Writes a list, a word in runs, a dense word in each edition and a card of two words, asks it the four kinds of
 * question and prints the answers, and then shows common pages one screen at a time.
 */
#include <inttypes.h>
#include <stdio.h>
#include <stdlib.h>
#include <string.h>

#include "jundefola.h"

#define LENGTH(array) (sizeof(array) / sizeof((array)[0]))

/* The pages of this small manual, how many are every second of them, and the version of its card. */
enum { PAGES = 44, EVEN_PAGES = PAGES / 2, VERSION = JF_EDITION_2 };

/* The pages of the word "torque", the count on each, and the positions, page after page. */
static const uint32_t torque_pages[] = {3, 4, 7, 13, 14, 15, 21, 43};
static const uint32_t torque_counts[] = {1, 1, 1, 1, 1, 2, 1, 1};
static const uint32_t torque_positions[] = {8, 0, 5, 2, 9, 2, 5, 1, 0};

/* The same of the word "bolt". Page 15 has "torque the bolt" at 5 and 7, where "the" has a position and is no word. */
static const uint32_t bolt_pages[] = {4, 15};
static const uint32_t bolt_counts[] = {1, 2};
static const uint32_t bolt_positions[] = {1, 3, 7};

/* The words' numbers on the card. */
enum { TORQUE, BOLT, WORDS };

/* Ends the program where a call refused. */
static void expect_accepted(const char *call, uint32_t refusal)
{
    if (refusal != JF_ACCEPTED) {
        fprintf(stderr, "%s: refused %" PRIu32 "\n", call, refusal);
        exit(EXIT_FAILURE);
    }
}

/* Writes the pages of "torque" as a list block and prints its bytes. */
static void show_list(void)
{
    uint8_t block[JF_LIST_ROOM(LENGTH(torque_pages))];
    jf_written list = jf_write_list(PAGES, torque_pages, LENGTH(torque_pages), block, sizeof block);
    expect_accepted("jf_write_list", list.refusal);
    expect_accepted("jf_check_list", jf_check_list(block, list.length));
    printf("list block of %zu bytes:", list.length);
    for (size_t i = 0; i < list.length; i++) {
        printf(" %02X", (unsigned)block[i]);
    }
    printf("\n");
}

/* The positions' u of a word: each page adds its last position and 1. */
static uint32_t positions_u(const uint32_t *counts, size_t counts_len, const uint32_t *positions)
{
    uint32_t u = 0;
    for (size_t i = 0; i < counts_len; i++) {
        positions += counts[i];
        u += positions[-1] + 1;
    }
    return u;
}

/* Writes "torque" in two runs, four pages each, to the start of the room and returns the length of its block. */
static size_t write_in_runs(uint8_t *room, size_t room_len)
{
    uint32_t u = positions_u(torque_counts, LENGTH(torque_counts), torque_positions);
    jf_streamed torque = jf_begin_term(VERSION, PAGES, LENGTH(torque_pages), LENGTH(torque_positions), u, room,
                                       room_len);
    expect_accepted("jf_begin_term", torque.refusal);
    torque = jf_put_postings(torque.stream, torque_pages, 4, torque_counts, 4, torque_positions, 4, room, room_len);
    expect_accepted("jf_put_postings", torque.refusal);
    torque = jf_put_postings(torque.stream, torque_pages + 4, 4, torque_counts + 4, 4, torque_positions + 4, 5, room,
                             room_len);
    expect_accepted("jf_put_postings", torque.refusal);
    torque = jf_end_term(torque.stream, room, room_len);
    expect_accepted("jf_end_term", torque.refusal);
    return torque.length;
}

/* Prints whether "torque" has the same block in runs as written at once. */
static void show_runs(void)
{
    uint8_t in_runs[JF_TERM_ROOM(LENGTH(torque_pages), LENGTH(torque_positions))];
    uint8_t at_once[sizeof in_runs];
    size_t length = write_in_runs(in_runs, sizeof in_runs);
    jf_written torque = jf_write_term(VERSION, PAGES, torque_pages, LENGTH(torque_pages), torque_counts,
                                      LENGTH(torque_counts), torque_positions, LENGTH(torque_positions), at_once,
                                      sizeof at_once);
    expect_accepted("jf_write_term", torque.refusal);
    int same = length == torque.length && memcmp(in_runs, at_once, length) == 0;
    printf("torque in two runs: %zu bytes, %s\n", length, same ? "the same as at once" : "and others at once");
}

/* Prints how long the block of a word on every second page is: in edition 2 its pages are a bitmap. */
static void show_editions(void)
{
    uint32_t pages[EVEN_PAGES], counts[EVEN_PAGES], positions[EVEN_PAGES];
    for (uint32_t i = 0; i < EVEN_PAGES; i++) {
        pages[i] = 2 * i;
        counts[i] = 1;
        positions[i] = 0;
    }
    for (uint32_t version = 1; version <= JF_MAX_VERSION; version++) {
        uint8_t block[JF_TERM_ROOM(EVEN_PAGES, EVEN_PAGES)];
        jf_written even = jf_write_term(version, PAGES, pages, EVEN_PAGES, counts, EVEN_PAGES, positions, EVEN_PAGES,
                                        block, sizeof block);
        expect_accepted("jf_write_term", even.refusal);
        expect_accepted("jf_check_term", jf_check_term(version, block, even.length));
        printf("a word on every second page, edition %" PRIu32 ": %zu bytes\n", version, even.length);
    }
}

/* Writes the two words behind the card's header, closes the card and returns its length. */
static size_t make_card(uint8_t *buffer, size_t buffer_len)
{
    size_t used = JF_CARD_HEADER;
    jf_written torque = jf_write_term(VERSION, PAGES, torque_pages, LENGTH(torque_pages), torque_counts,
                                      LENGTH(torque_counts), torque_positions, LENGTH(torque_positions), buffer + used,
                                      buffer_len - used);
    expect_accepted("jf_write_term", torque.refusal);
    expect_accepted("jf_check_term", jf_check_term(VERSION, buffer + used, torque.length));
    used += torque.length;
    jf_written bolt = jf_write_term(VERSION, PAGES, bolt_pages, LENGTH(bolt_pages), bolt_counts, LENGTH(bolt_counts),
                                    bolt_positions, LENGTH(bolt_positions), buffer + used, buffer_len - used);
    expect_accepted("jf_write_term", bolt.refusal);
    used += bolt.length;
    jf_written card = jf_close_index(buffer, buffer_len, used, VERSION, PAGES, WORDS);
    expect_accepted("jf_close_index", card.refusal);
    return card.length;
}

/* Asks one question into a room that is grown until the answer fits, and returns that room. */
static uint32_t *ask(const uint8_t *card, size_t card_len, const uint32_t *question, size_t question_len)
{
    uint32_t *room = NULL;
    size_t room_len = 0;
    jf_asked asked = jf_ask(card, card_len, question, question_len, room, room_len);
    while (asked.refusal == JF_ROOM) {
        room_len = room_len == 0 ? 4 : 2 * room_len;
        uint32_t *larger = realloc(room, room_len * sizeof *room);
        if (larger == NULL) {
            fprintf(stderr, "no memory for an answer\n");
            exit(EXIT_FAILURE);
        }
        room = larger;
        asked = jf_ask(card, card_len, question, question_len, room, room_len);
    }
    expect_accepted("jf_ask", asked.refusal);
    return room;
}

/* Prints which page is at rank 5 of "torque". */
static void ask_rank(const uint8_t *card, size_t card_len)
{
    const uint32_t question[] = {JF_KIND_RANK, 2, TORQUE, 5};
    uint32_t *answer = ask(card, card_len, question, LENGTH(question));
    if (answer[0] != 0) {
        printf("rank 5 of torque: page %" PRIu32 "\n", answer[1]);
    }
    free(answer);
}

/* Prints the first page of "torque" from a bound on, and how many of its pages lie below, which is told last. */
static void ask_bound(const uint8_t *card, size_t card_len, uint32_t bound)
{
    const uint32_t question[] = {JF_KIND_BOUND, 2, TORQUE, bound};
    uint32_t *answer = ask(card, card_len, question, LENGTH(question));
    printf("torque from page %" PRIu32 " on: ", bound);
    if (answer[0] == 2) {
        printf("page %" PRIu32, answer[1]);
    } else {
        printf("no page");
    }
    printf(", pages below: %" PRIu32 "\n", answer[answer[0]]);
    free(answer);
}

/* Prints the pages that have both words, and what finding them took. */
static void ask_common(const uint8_t *card, size_t card_len)
{
    const uint32_t question[] = {JF_KIND_COMMON, 2, TORQUE, BOLT};
    uint32_t *answer = ask(card, card_len, question, LENGTH(question));
    printf("torque and bolt: pages");
    for (uint32_t i = 3; i <= answer[0]; i++) {
        printf(" %" PRIu32, answer[i]);
    }
    printf(" (%" PRIu32 " seeks, %" PRIu32 " looks)\n", answer[1], answer[2]);
    free(answer);
}

/* Prints the pages where "bolt" stands so many positions behind "torque". */
static void ask_phrase(const uint8_t *card, size_t card_len, uint32_t behind)
{
    const uint32_t question[] = {JF_KIND_PHRASE, 4, TORQUE, 0, BOLT, behind};
    uint32_t *answer = ask(card, card_len, question, LENGTH(question));
    for (uint32_t i = 1; i < answer[0]; i += 2) {
        printf("bolt %" PRIu32 " behind torque: page %" PRIu32 ", starts %" PRIu32 "\n", behind, answer[i],
               answer[i + 1]);
    }
    free(answer);
}

/* Prints the pages that have both words, so many at a time. */
static void show_screens(const uint8_t *card, size_t card_len, uint32_t rows)
{
    const uint32_t words[] = {TORQUE, BOLT};
    uint32_t pages[JF_MAX_SCREEN];
    uint32_t counts[JF_SCREEN_COUNTS];
    jf_screened screen = {.full = 1, .next = 0};
    while (screen.full == 1) {
        uint32_t bound = screen.next;
        screen = jf_screen(card, card_len, bound, rows, words, LENGTH(words), pages, LENGTH(pages), counts,
                           LENGTH(counts));
        expect_accepted("jf_screen", screen.refusal);
        printf("screen from page %" PRIu32 ":", bound);
        for (size_t i = 0; i < screen.found; i++) {
            printf(" %" PRIu32, pages[i]);
        }
        printf(" (found %zu, seeks %" PRIu32 ", looks %" PRIu32 ")\n", screen.found, counts[0], counts[1]);
    }
}

int main(void)
{
    uint8_t buffer[JF_CARD_HEADER + JF_TERM_ROOM(LENGTH(torque_pages), LENGTH(torque_positions)) +
                   JF_TERM_ROOM(LENGTH(bolt_pages), LENGTH(bolt_positions))];
    show_list();
    show_runs();
    show_editions();
    size_t card_len = make_card(buffer, sizeof buffer);
    expect_accepted("jf_check_index", jf_check_index(buffer, card_len));
    printf("card of %d words, %zu bytes\n", WORDS, card_len);
    ask_rank(buffer, card_len);
    ask_bound(buffer, card_len, 16);
    ask_bound(buffer, card_len, PAGES);
    ask_common(buffer, card_len);
    ask_phrase(buffer, card_len, 1);
    ask_phrase(buffer, card_len, 2);
    show_screens(buffer, card_len, 1);
    return EXIT_SUCCESS;
}
