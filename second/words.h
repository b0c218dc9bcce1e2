/* A Golay coder on sections of words from standard input, one line for each section.
 *
 * A section is one byte that says what to do (0 nothing, 1 encode, 2 decode, 3 read the end byte, 4 tell the
 * places of the flips), two bytes for the count of its words, and the words, three bytes each; all most
 * significant byte first. Its line tells the sort, the count, and the digest of the answers in order: the word
 * itself; the code word of its lower half; 8 times the number plus the flips, or 4 beyond repair; 0, 255, or 256
 * beyond repair, of its last byte; a number whose bit i is one if bit i of the word was flipped, 0 beyond repair.
 * Another first byte, or a section that is cut short, ends the program.
 *
 * Included once by a program that has defined code_word(word), decoded_value(word) and end_value(byte).
 */
#include <stdint.h>
#include <stdio.h>

#include "digest.h"

enum { WORD = 3, SECTION_HEAD = 3, WORDS_MAX = 65535 };

static uint32_t word_itself(uint32_t word) { return word; }
static uint32_t end_of_word(uint32_t word) { return end_value(word & 0xFF); }

static uint32_t flipped_bits(uint32_t word)
{
    uint32_t decoded = decoded_value(word);
    return decoded % 8 == 4 ? 0 : word ^ code_word(decoded / 8);
}

static inline uint64_t digest_words(const uint8_t *words, size_t count, uint32_t (*answer)(uint32_t))
{
    uint64_t digest = 0;
    for (const uint8_t *w = words; w < words + WORD * count; w += WORD)
        digest = digest_add(digest, answer((uint32_t)w[0] << 16 | (uint32_t)w[1] << 8 | w[2]));
    return digest;
}

/* Each sort has a loop of its own, so that a word costs nothing but its answer. */
static uint64_t digest_section(unsigned what, const uint8_t *words, size_t count)
{
    switch (what) {
    case 0:
        return digest_words(words, count, word_itself);
    case 1:
        return digest_words(words, count, code_word);
    case 2:
        return digest_words(words, count, decoded_value);
    case 3:
        return digest_words(words, count, end_of_word);
    default:
        return digest_words(words, count, flipped_bits);
    }
}

static void print_sections(void)
{
    static const char *const sorts[] = { "nothing", "encode", "decode", "end", "places" };
    static uint8_t words[WORD * WORDS_MAX];
    uint8_t head[SECTION_HEAD];

    while (fread(head, 1, SECTION_HEAD, stdin) == SECTION_HEAD && head[0] < 5) {
        size_t count = (size_t)head[1] << 8 | head[2];
        if (fread(words, WORD, count, stdin) != count)
            return;
        printf("%s %zu %llu\n", sorts[head[0]], count,
               (unsigned long long)digest_section(head[0], words, count));
    }
}
