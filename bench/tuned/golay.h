/* The Golay code by tables that are filled at start-up. A word is intact exactly if it is the code word of its upper
 * half, so one read and one exclusive or give its syndrome. */
#ifndef GOLAY_H
#define GOLAY_H

#include <stdint.h>

#include "bytes.h"

enum {
    GOLAY_SIZE = 0x1000,
    GOLAY_BYTES = 3,
    GOLAY_BEYOND = 4, /* count of a word that no three flips explain */
    END_LAST = 0x00,
    END_MORE = 0xFF,
    END_BEYOND = -1,
    END_HALF = 4 /* this many ones are as near to 00 as to FF */
};

enum { GOLAY_NUMBER = 0xFFF, GOLAY_COUNT_AT = 12, GOLAY_BEYOND_MARK = GOLAY_BEYOND << GOLAY_COUNT_AT };

extern uint32_t golay_code[GOLAY_SIZE]; /* by number */
extern uint16_t golay_fix[GOLAY_SIZE];  /* by syndrome: flips of the upper half, the count of all above them */
extern uint8_t golay_ones[0x100];

/* Fills the tables; only the first call works, every opening makes it. */
void golay_init(void);

static inline uint32_t golay_encode(uint32_t number)
{
    return golay_code[number & GOLAY_NUMBER];
}

/* Count of flipped bits of all 24, GOLAY_BEYOND if there is no number. */
static inline unsigned golay_decode(uint32_t word, uint32_t *number)
{
    uint32_t upper = word >> 12 & GOLAY_NUMBER;
    uint32_t fix = golay_fix[(golay_code[upper] ^ word) & GOLAY_NUMBER];

    *number = upper ^ (fix & GOLAY_NUMBER);
    return fix >> GOLAY_COUNT_AT;
}

static inline uint32_t golay_word(const uint8_t at[GOLAY_BYTES])
{
    return (uint32_t)at[0] << 16 | (uint32_t)at[1] << 8 | at[2];
}

static inline void golay_put(uint8_t at[GOLAY_BYTES], uint32_t number)
{
    uint32_t word = golay_encode(number);

    at[0] = (uint8_t)(word >> 16);
    bytes_put2(at + 1, (uint16_t)word);
}

/* END_LAST, END_MORE or END_BEYOND. */
static inline int golay_end(uint8_t byte)
{
    unsigned ones = golay_ones[byte];

    return ones < END_HALF ? END_LAST : ones == END_HALF ? END_BEYOND : END_MORE;
}

/* Both words of an EP header. */
typedef struct {
    uint32_t upper; /* of word 0: content, fragment, the length's upper bits */
    uint32_t lower; /* of word 1: the length's lower bits */
    uint32_t flips;
} golay_pair;

/* False if either word is beyond repair. */
static inline bool golay_get_pair(const uint8_t at[2 * GOLAY_BYTES], golay_pair *pair)
{
    uint32_t word0 = bytes_get4(at) >> 8, word1 = bytes_get4(at + 2) & 0xFFFFFF;
    uint32_t upper = word0 >> 12, lower = word1 >> 12;
    uint32_t syndrome0 = golay_code[upper] ^ word0, syndrome1 = golay_code[lower] ^ word1;

    pair->flips = 0;
    if (UNLIKELY((syndrome0 | syndrome1) != 0)) {
        uint32_t fix0 = golay_fix[syndrome0], fix1 = golay_fix[syndrome1];

        if (((fix0 | fix1) & GOLAY_BEYOND_MARK) != 0)
            return false;
        upper ^= fix0 & GOLAY_NUMBER;
        lower ^= fix1 & GOLAY_NUMBER;
        pair->flips = (fix0 >> GOLAY_COUNT_AT) + (fix1 >> GOLAY_COUNT_AT);
    }
    pair->upper = upper;
    pair->lower = lower;
    return true;
}

/* Two code words as the six bytes of a header, in the lower bits of a number. */
static inline uint64_t golay_pair_of(uint32_t upper, uint32_t lower)
{
    return (uint64_t)golay_code[upper] << 24 | golay_code[lower];
}

static inline void golay_put_pair(uint8_t at[2 * GOLAY_BYTES], uint64_t pair)
{
    bytes_put4(at, (uint32_t)(pair >> 16));
    bytes_put2(at + 4, (uint16_t)pair);
}

#endif
