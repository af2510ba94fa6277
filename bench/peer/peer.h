/*
 * The peer: the format of both editions without proofs, written to be fast, for measuring only.
 *
 * For C99 and C++. The calls, structs and numbers are those of include/jundefola.h, with peer_ in place of jf_.
 * Link libjundefola_peer.a, which `cargo build --release` makes, with -lpthread -ldl.
 */
#ifndef JUNDEFOLA_PEER_H
#define JUNDEFOLA_PEER_H

#include <stddef.h>
#include <stdint.h>

#ifdef __cplusplus
extern "C" {
#endif

/* What a writer reports: a refusal, 0 if none, and the bytes written (0 where it refused). */
typedef struct peer_written {
    uint32_t refusal;
    size_t length;
} peer_written;

/* What asking reports: a refusal, the questions answered whole, and the numbers of the room that they use. */
typedef struct peer_asked {
    uint32_t refusal;
    size_t answered;
    size_t used;
} peer_asked;

/* What a screen reports: a refusal, the pages found, 1 where it is full, and then the bound of the next one. */
typedef struct peer_screened {
    uint32_t refusal;
    size_t found;
    uint32_t full;
    uint32_t next;
} peer_screened;

/* A session that writes a word run by run, and what each of its calls reports. */
typedef struct peer_stream {
    uint32_t mark, version, n, pages, positions, u, laid, filled, page, base;
} peer_stream;

typedef struct peer_streamed {
    uint32_t refusal;
    size_t length;
    peer_stream stream;
} peer_streamed;

peer_written peer_write_list(uint32_t u, const uint32_t *list, size_t list_len, uint8_t *room, size_t room_len);

uint32_t peer_check_list(const uint8_t *block, size_t block_len);

peer_written peer_write_term(uint32_t version, uint32_t n, const uint32_t *pages, size_t pages_len,
                             const uint32_t *counts, size_t counts_len, const uint32_t *positions,
                             size_t positions_len, uint8_t *room, size_t room_len);

peer_streamed peer_begin_term(uint32_t version, uint32_t n, uint32_t pages, uint32_t positions, uint32_t u,
                              uint8_t *room, size_t room_len);

peer_streamed peer_put_postings(peer_stream stream, const uint32_t *pages, size_t pages_len, const uint32_t *counts,
                                size_t counts_len, const uint32_t *positions, size_t positions_len, uint8_t *room,
                                size_t room_len);

peer_streamed peer_end_term(peer_stream stream, uint8_t *room, size_t room_len);

uint32_t peer_check_term(uint32_t version, const uint8_t *block, size_t block_len);

peer_written peer_close_index(uint8_t *buffer, size_t buffer_len, size_t used, uint32_t version, uint32_t n,
                              uint32_t t);

uint32_t peer_check_index(const uint8_t *card, size_t card_len);

peer_asked peer_ask(const uint8_t *card, size_t card_len, const uint32_t *questions, size_t questions_len,
                    uint32_t *room, size_t room_len);

peer_screened peer_screen(const uint8_t *card, size_t card_len, uint32_t bound, uint32_t r, const uint32_t *words,
                          size_t words_len, uint32_t *pages, size_t pages_len, uint32_t *counts, size_t counts_len);

#ifdef __cplusplus
}
#endif

#endif
