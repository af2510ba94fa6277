// The two sides that have the same calls: the proved archive and the Rust peer, each as a host calls it.
#pragma once

#include <cstddef>
#include <cstdint>

#include "jundefola.h"

// the editions of a card: in the second the pages of dense words are bitmaps
constexpr uint32_t first_edition = JF_EDITION_1, second_edition = JF_EDITION_2;

struct Engine {
    const char *name;
    jf_written (*write_list)(uint32_t, const uint32_t *, size_t, uint8_t *, size_t);
    uint32_t (*check_list)(const uint8_t *, size_t);
    jf_written (*write_term)(uint32_t, uint32_t, const uint32_t *, size_t, const uint32_t *, size_t, const uint32_t *,
                             size_t, uint8_t *, size_t);
    jf_streamed (*begin_term)(uint32_t, uint32_t, uint32_t, uint32_t, uint32_t, uint8_t *, size_t);
    jf_streamed (*put_postings)(jf_stream, const uint32_t *, size_t, const uint32_t *, size_t, const uint32_t *, size_t,
                                uint8_t *, size_t);
    jf_streamed (*end_term)(jf_stream, uint8_t *, size_t);
    uint32_t (*check_term)(uint32_t, const uint8_t *, size_t);
    jf_written (*close_index)(uint8_t *, size_t, size_t, uint32_t, uint32_t, uint32_t);
    uint32_t (*check_index)(const uint8_t *, size_t);
    jf_asked (*ask)(const uint8_t *, size_t, const uint32_t *, size_t, uint32_t *, size_t);
    jf_screened (*screen)(const uint8_t *, size_t, uint32_t, uint32_t, const uint32_t *, size_t, uint32_t *, size_t,
                          uint32_t *, size_t);
};

extern const Engine archive;
extern const Engine peer;

// both, the archive first
extern const Engine *const engines[2];
