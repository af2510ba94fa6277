#include "engine.hpp"

#include "peer.h"

namespace {

jf_written as_written(peer_written w) { return {w.refusal, w.length}; }

jf_written write_list(uint32_t u, const uint32_t *list, size_t list_len, uint8_t *room, size_t room_len) {
    return as_written(peer_write_list(u, list, list_len, room, room_len));
}

jf_written write_term(uint32_t version, uint32_t n, const uint32_t *pages, size_t pages_len, const uint32_t *counts,
                      size_t counts_len, const uint32_t *positions, size_t positions_len, uint8_t *room,
                      size_t room_len) {
    return as_written(
        peer_write_term(version, n, pages, pages_len, counts, counts_len, positions, positions_len, room, room_len));
}

jf_streamed as_streamed(peer_streamed given) {
    const peer_stream &s = given.stream;
    return {given.refusal,
            given.length,
            {s.mark, s.version, s.n, s.pages, s.positions, s.u, s.laid, s.filled, s.page, s.base}};
}

peer_stream of_peer(jf_stream s) {
    return {s.mark, s.version, s.n, s.pages, s.positions, s.u, s.laid, s.filled, s.page, s.base};
}

jf_streamed begin_term(uint32_t version, uint32_t n, uint32_t pages, uint32_t positions, uint32_t u, uint8_t *room,
                       size_t room_len) {
    return as_streamed(peer_begin_term(version, n, pages, positions, u, room, room_len));
}

jf_streamed put_postings(jf_stream stream, const uint32_t *pages, size_t pages_len, const uint32_t *counts,
                         size_t counts_len, const uint32_t *positions, size_t positions_len, uint8_t *room,
                         size_t room_len) {
    return as_streamed(peer_put_postings(of_peer(stream), pages, pages_len, counts, counts_len, positions,
                                         positions_len, room, room_len));
}

jf_streamed end_term(jf_stream stream, uint8_t *room, size_t room_len) {
    return as_streamed(peer_end_term(of_peer(stream), room, room_len));
}

jf_written close_index(uint8_t *buffer, size_t buffer_len, size_t used, uint32_t version, uint32_t n, uint32_t t) {
    return as_written(peer_close_index(buffer, buffer_len, used, version, n, t));
}

jf_asked ask(const uint8_t *card, size_t card_len, const uint32_t *questions, size_t questions_len, uint32_t *room,
             size_t room_len) {
    const peer_asked asked = peer_ask(card, card_len, questions, questions_len, room, room_len);
    return {asked.refusal, asked.answered, asked.used};
}

jf_screened screen(const uint8_t *card, size_t card_len, uint32_t bound, uint32_t r, const uint32_t *words,
                   size_t words_len, uint32_t *pages, size_t pages_len, uint32_t *counts, size_t counts_len) {
    const peer_screened shown =
        peer_screen(card, card_len, bound, r, words, words_len, pages, pages_len, counts, counts_len);
    return {shown.refusal, shown.found, shown.full, shown.next};
}

} // namespace

const Engine archive = {"archive",   jf_write_list, jf_check_list,  jf_write_term,  jf_begin_term, jf_put_postings,
                        jf_end_term, jf_check_term, jf_close_index, jf_check_index, jf_ask,        jf_screen};

const Engine peer = {"peer",   write_list,      peer_check_list, write_term,       begin_term, put_postings,
                     end_term, peer_check_term, close_index,     peer_check_index, ask,        screen};

const Engine *const engines[2] = {&archive, &peer};
