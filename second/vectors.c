/* golay.c by itself: the summary of summary.h, which must equal the appendix's own, and the sections
 * of words of words.h. */
#include "commands.h"
#include "golay.h"

static uint32_t code_word(uint32_t number)
{
    return golay_encode(number);
}

static uint32_t flips_of(uint32_t word)
{
    uint32_t number;

    return golay_decode(word, &number);
}

static uint32_t number_of(uint32_t word)
{
    uint32_t number;

    golay_decode(word, &number);
    return number;
}

static uint32_t decoded_value(uint32_t word)
{
    uint32_t number;
    unsigned flips = golay_decode(word, &number);

    return flips == GOLAY_BEYOND ? GOLAY_BEYOND : number * 8 + flips;
}

static uint32_t end_value(uint32_t byte)
{
    int end = golay_end((uint8_t)byte);

    return end == END_BEYOND ? 256 : (uint32_t)end;
}

#include "summary.h"
#include "words.h"

int command_vectors(void)
{
    print_summary();
    return 0;
}

int command_words(void)
{
    print_sections();
    return 0;
}
