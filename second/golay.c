#include "golay.h"

#include <stdbool.h>

uint32_t golay_encode_table[GOLAY_SIZE];
uint16_t golay_syndrome_table[GOLAY_SIZE];
uint16_t golay_correct_table[GOLAY_SIZE];
uint8_t golay_error_table[GOLAY_SIZE];
int16_t golay_end_table[0x100];

/* Parity half of the generator matrix (A.2), most significant bit first. */
static const uint16_t generator[12] = {
    0xC75, 0x63B, 0xF68, 0x7B4, 0x3DA, 0xD99,
    0x6CD, 0x367, 0xDC6, 0xA97, 0x93E, 0x8EB
};

/* Parity check matrix (A.3): takes a parity half back to its number. */
static const uint16_t check[12] = {
    0xA4F, 0xF68, 0x7B4, 0x3DA, 0x1ED, 0xAB9,
    0xF13, 0xDC6, 0x6E3, 0x93E, 0x49F, 0xC75
};

static unsigned ones_in(uint32_t code, unsigned size)
{
    unsigned ones = 0;

    for (unsigned i = 0; i < size; i++)
        ones += code >> i & 1;
    return ones;
}

static uint16_t sum_of_rows(const uint16_t rows[12], uint32_t chosen)
{
    uint16_t sum = 0;

    for (unsigned i = 0; i < 12; i++)
        if (chosen >> (11 - i) & 1)
            sum ^= rows[i];
    return sum;
}

static void init_encode(void)
{
    for (uint32_t x = 0; x < GOLAY_SIZE; x++)
        golay_encode_table[x] = x << 12 | sum_of_rows(generator, x);
}

static void init_decode(void)
{
    for (uint32_t x = 0; x < GOLAY_SIZE; x++) {
        golay_syndrome_table[x] = sum_of_rows(check, x);
        golay_error_table[x] = GOLAY_BEYOND;
        golay_correct_table[x] = 0xFFFF;
    }
    golay_error_table[0] = 0;
    golay_correct_table[0] = 0;
    /* Equal places give the errors of one and two ones. */
    for (unsigned i = 0; i < 24; i++)
        for (unsigned j = 0; j < 24; j++)
            for (unsigned k = 0; k < 24; k++) {
                uint32_t error = 1u << i | 1u << j | 1u << k;
                uint32_t syndrome = golay_syndrome(error);

                golay_correct_table[syndrome] = (uint16_t)(error >> 12);
                golay_error_table[syndrome] = (uint8_t)ones_in(error, 24);
            }
}

static void init_end(void)
{
    for (uint32_t byte = 0; byte < 0x100; byte++) {
        unsigned ones = ones_in(byte, 8);

        golay_end_table[byte] = ones <= 4 ? END_LAST : END_MORE;
        /* Stricter than A.4: four ones lie as near to FF as to 00. */
        if (ones == 4)
            golay_end_table[byte] = END_BEYOND;
    }
}

unsigned golay_end_flips(uint8_t byte, int end)
{
    return ones_in(byte ^ (uint32_t)end, 8);
}

void golay_init(void)
{
    static bool built;

    if (built)
        return;
    init_encode();
    init_decode();
    init_end();
    built = true;
}
