/* The extended Golay code (24,12,8) and the end byte code (8,1,3). */
#ifndef GOLAY_H
#define GOLAY_H

#include <stdint.h>

enum {
    GOLAY_SIZE = 0x1000,
    GOLAY_BYTES = 3,
    GOLAY_BEYOND = 4, /* count of a word that no three flips explain */
    END_LAST = 0x00,
    END_MORE = 0xFF,
    END_BEYOND = -1
};

extern uint32_t golay_encode_table[GOLAY_SIZE];
extern uint16_t golay_syndrome_table[GOLAY_SIZE];
extern uint16_t golay_correct_table[GOLAY_SIZE];
extern uint8_t golay_error_table[GOLAY_SIZE];
extern int16_t golay_end_table[0x100];

/* Builds the tables; only the first call works, every opening makes it. */
void golay_init(void);

/* The 24-bit word of a 12-bit number. */
static inline uint32_t golay_encode(uint32_t number)
{
    return golay_encode_table[number & 0xFFF];
}

static inline uint32_t golay_syndrome(uint32_t word)
{
    return golay_syndrome_table[word & 0xFFF] ^ (word >> 12 & 0xFFF);
}

/* Count of flipped bits of all 24, GOLAY_BEYOND if there is no number. */
static inline unsigned golay_decode(uint32_t word, uint32_t *number)
{
    uint32_t syndrome = golay_syndrome(word);

    /* The mask cuts the mark of uncorrectable syndromes to twelve bits. */
    *number = ((word >> 12) ^ golay_correct_table[syndrome]) & 0xFFF;
    return golay_error_table[syndrome];
}

/* END_LAST, END_MORE or END_BEYOND. */
static inline int golay_end(uint8_t byte)
{
    return golay_end_table[byte];
}

/* Flipped bits of an end byte that was read as `end`. */
unsigned golay_end_flips(uint8_t byte, int end);

static inline void golay_put(uint8_t at[GOLAY_BYTES], uint32_t number)
{
    uint32_t word = golay_encode(number);

    at[0] = (uint8_t)(word >> 16);
    at[1] = (uint8_t)(word >> 8);
    at[2] = (uint8_t)word;
}

static inline uint32_t golay_word(const uint8_t at[GOLAY_BYTES])
{
    return (uint32_t)at[0] << 16 | (uint32_t)at[1] << 8 | at[2];
}

#endif
