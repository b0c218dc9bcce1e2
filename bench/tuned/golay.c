#include "golay.h"

uint32_t golay_code[GOLAY_SIZE];
uint16_t golay_fix[GOLAY_SIZE];
uint8_t golay_ones[0x100];

/* Parities of the single bits (A.2), most significant first. */
static const uint16_t rows[12] = {
    0xC75, 0x63B, 0xF68, 0x7B4, 0x3DA, 0xD99, 0x6CD, 0x367, 0xDC6, 0xA97, 0x93E, 0x8EB,
};

static void mark(uint32_t flips, uint32_t count)
{
    uint32_t syndrome = (golay_code[flips >> 12] ^ flips) & GOLAY_NUMBER;

    golay_fix[syndrome] = (uint16_t)(count << GOLAY_COUNT_AT | flips >> 12);
}

void golay_init(void)
{
    static bool filled;

    if (filled)
        return;
    filled = true;
    /* A number's code word is that of its highest bit and that of the rest. */
    for (uint32_t bit = 0; bit < 12; bit++)
        for (uint32_t rest = 0; rest < 1u << bit; rest++)
            golay_code[1u << bit | rest] = golay_code[rest] ^ (1u << (bit + 12) | rows[11 - bit]);
    for (uint32_t syndrome = 1; syndrome < GOLAY_SIZE; syndrome++)
        golay_fix[syndrome] = GOLAY_BEYOND_MARK | GOLAY_NUMBER;
    for (uint32_t i = 1; i < 1u << 24; i <<= 1) {
        mark(i, 1);
        for (uint32_t j = 1; j < i; j <<= 1) {
            mark(i | j, 2);
            for (uint32_t k = 1; k < j; k <<= 1)
                mark(i | j | k, 3);
        }
    }
    for (uint32_t byte = 1; byte < 0x100; byte++)
        golay_ones[byte] = (uint8_t)(golay_ones[byte >> 1] + (byte & 1));
}
