/* A summary of a Golay coder, as lines of counts and digests.
 *
 * Included once by a program that has defined
 *     code_word(number)   the 24-bit word of a 12-bit number
 *     flips_of(word)      0 to 3, or 4 beyond repair
 *     number_of(word)     the number, where flips_of is at most 3
 *     end_value(byte)     0, 255, or 256 beyond repair
 */
#include <stdint.h>
#include <stdio.h>

#include "digest.h"

typedef struct {
    unsigned count[5]; /* words by their number of flips */
    uint64_t digest;
} Tally;

static void tally_word(Tally *t, uint32_t word)
{
    uint32_t flips = flips_of(word);
    t->digest = digest_add(t->digest, flips == 4 ? 4 : number_of(word) * 8 + flips);
    t->count[flips]++;
}

/* Depth first over the words that differ from `word` in at most `left` bits at or above `from`. */
static void walk_errors(Tally *t, uint32_t word, int from, int left)
{
    tally_word(t, word);
    if (left == 0)
        return;
    for (int i = from; i < 24; i++)
        walk_errors(t, word ^ (UINT32_C(1) << i), i + 1, left - 1);
}

static void print_tally(const Tally *t)
{
    printf("intact %u one %u two %u three %u beyond %u digest %llu\n", t->count[0], t->count[1],
           t->count[2], t->count[3], t->count[4], (unsigned long long)t->digest);
}

static void print_encode(void)
{
    uint64_t digest = 0;
    for (uint32_t n = 0; n < 4096; n++)
        digest = digest_add(digest, code_word(n));
    printf("encode 4096 digest %llu\n", (unsigned long long)digest);
}

static void print_end(void)
{
    unsigned zeros = 0, ones = 0, beyond = 0;
    uint64_t digest = 0;
    for (uint32_t byte = 0; byte < 256; byte++) {
        uint32_t value = end_value(byte);
        zeros += value == 0;
        ones += value == 255;
        beyond += value == 256;
        digest = digest_add(digest, value);
    }
    printf("end 00 %u FF %u beyond %u digest %llu\n", zeros, ones, beyond,
           (unsigned long long)digest);
}

static void print_decode(uint32_t number)
{
    Tally t = { .digest = 0 };
    walk_errors(&t, code_word(number), 0, 4);
    printf("decode %03X ", (unsigned)number);
    print_tally(&t);
}

static void print_random(void)
{
    Tally t = { .digest = 0 };
    uint32_t w = 1;
    for (int i = 0; i < 65536; i++) {
        w = w * 1103515245u + 12345u;
        tally_word(&t, w >> 8);
    }
    printf("random 65536 ");
    print_tally(&t);
}

static void print_summary(void)
{
    static const uint16_t numbers[] = { 0x000, 0x001, 0x7FF, 0xFFF, 0x800, 0xAAA, 0x555, 0xC75,
                                        0x0F0, 0x123, 0xA4F, 0x8EB, 0x39C, 0x6D1, 0xE07, 0xB52 };
    print_encode();
    print_end();
    for (unsigned i = 0; i < sizeof numbers / sizeof *numbers; i++)
        print_decode(numbers[i]);
    print_random();
}
