/* liquid-dsp's Golay (24,12) coder on the sections of second/words.h. Its code is another one of the same
 * distances, and it tells no count of flips and no word as beyond repair: its answer is the number alone. */
#include <stdint.h>

unsigned fec_golay2412_encode_symbol(unsigned number); /* not in liquid's header, yet in its library */
unsigned fec_golay2412_decode_symbol(unsigned word);

static uint32_t code_word(uint32_t word) { return fec_golay2412_encode_symbol(word & 0xFFF); }
static uint32_t decoded_value(uint32_t word) { return fec_golay2412_decode_symbol(word); }
static uint32_t end_value(uint32_t byte) { return byte; } /* liquid has no end byte */

#include "../second/words.h"

int main(void)
{
    print_sections();
}
