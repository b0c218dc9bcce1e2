/* What both ends share: numbers given back, limits, layouts. */
#ifndef PACKETS_H
#define PACKETS_H

#include <stdbool.h>
#include <stddef.h>
#include <stdint.h>

#include "golay.h"

/* Numbers given back; the notices are 6 to 16 and 21. */
enum {
    C7_DONE = 0,
    C7_BAD_SETTING = 1,
    C7_BAD_CONTENT = 2,
    C7_TOO_LONG = 3,
    C7_QUEUE_FULL = 4,
    C7_BAD_DRAW_LENGTH = 5,
    C7_BAD_TP_LENGTH = 6,
    C7_BAD_VERSION = 7,
    C7_OTHER_STREAM = 8,
    C7_TP_BEYOND_REPAIR = 9,
    C7_BAD_OFFSET = 10,
    C7_LOW_BROKEN = 11,
    C7_EP_BEYOND_REPAIR = 12,
    C7_OTHER_OFFSET = 13,
    C7_SERIES_BROKEN = 14,
    C7_ROOM_FULL = 15,
    C7_NOT_READABLE = 16,
    C7_NOT_CHAPTER11 = 17,
    C7_FILL_NOT_ZERO = 18,
    C7_OFFSET_IN_LOW = 21
};

enum {
    C7_TP_MIN = 16,
    C7_TP_MAX = 2051,
    C7_STREAM_MAX = 15,
    C7_PIECE_MIN = 1,
    C7_PIECE_MAX = 65535,
    C7_QUEUE_MAX = 1048576,
    C7_SP_MAX = 131072,
    C7_ROOM_MAX = 131072
};

/* TP: stream byte, one Golay word, payload. */
enum {
    C7_TP_HEADER = 4,
    C7_VERSION_BITS = 0x03,
    C7_LOW_PRESENT = 0x800,
    C7_OFFSET_BITS = 0x7FF,
    C7_NO_START = 2047
};

/* EP: two Golay words, data; an LLEP is followed by its end byte. */
enum {
    C7_EP_HEADER = 6,
    C7_END_BYTE = 1,
    C7_FILL_DATA = 0xAA
};

enum { C7_FILL = 0, C7_CHAPTER11 = 3, C7_CONTENT_MIN = 1, C7_CONTENT_MAX = 6 };

enum { C7_COMPLETE = 0, C7_FIRST = 1, C7_MIDDLE = 2, C7_LAST = 3 };

typedef struct {
    uint8_t content;  /* 0 to 15 */
    uint8_t fragment; /* 0 to 3 */
    uint16_t length;  /* data bytes after the header */
    uint8_t repaired; /* flips in its two words, as it was received */
} c7_ep_header;

static inline bool c7_tp_settings_ok(size_t tp_length, unsigned stream)
{
    return tp_length >= C7_TP_MIN && tp_length <= C7_TP_MAX && stream <= C7_STREAM_MAX;
}

static inline size_t c7_smaller(size_t a, size_t b)
{
    return a < b ? a : b;
}

static inline void c7_put_ep_header(uint8_t at[C7_EP_HEADER], c7_ep_header header)
{
    golay_put(at, (uint32_t)header.content << 6 | (uint32_t)header.fragment << 4 |
                      (uint32_t)header.length >> 12);
    golay_put(at + GOLAY_BYTES, header.length & 0xFFFu);
}

/* The header that two 12-bit numbers stand for, bits 11 and 10 of the first ignored. */
static inline c7_ep_header c7_ep_header_of(uint32_t word0, uint32_t word1)
{
    return (c7_ep_header){
        .content = (uint8_t)(word0 >> 6 & 0xF),
        .fragment = (uint8_t)(word0 >> 4 & 0x3),
        .length = (uint16_t)((word0 & 0xF) << 12 | (word1 & 0xFFF)),
    };
}

/* False if either word is beyond repair. */
static inline bool c7_get_ep_header(const uint8_t at[C7_EP_HEADER], c7_ep_header *header)
{
    uint32_t word0, word1;
    unsigned flips0 = golay_decode(golay_word(at), &word0);
    unsigned flips1 = golay_decode(golay_word(at + GOLAY_BYTES), &word1);

    *header = c7_ep_header_of(word0, word1);
    header->repaired = (uint8_t)(flips0 + flips1);
    return flips0 != GOLAY_BEYOND && flips1 != GOLAY_BEYOND;
}

#endif
