#include "chapter11.h"

#include <string.h>

/* The packet header, all numbers least significant byte first. From KEPT on, a byte of the SP stands where it
 * stood in the packet: four Golay words take the place of sync, channel and both lengths. */
enum {
    SYNC_AT = 0,
    CHANNEL_AT = 2,
    LENGTH_AT = 4,
    DATA_LENGTH_AT = 8,
    KEPT = 12,
    FLAGS_AT = 14,
    CHECKSUM_AT = 22,
    HEADER = 24
};

enum { SYNC = 0xEB25, SECONDARY_FLAG = 0x80, SECONDARY_HEADER = 12, CHECKSUM_KIND = 0x03 };

static const uint8_t checksum_bytes[] = {0, 1, 2, 4};

static uint32_t little(const uint8_t *at, unsigned count)
{
    uint32_t value = 0;

    while (count-- > 0)
        value = value << 8 | at[count];
    return value;
}

static void put_little(uint8_t *at, unsigned count, uint32_t value)
{
    for (unsigned i = 0; i < count; i++)
        at[i] = (uint8_t)(value >> 8 * i);
}

/* The sum of the header's words but the last, which holds it. */
static uint16_t header_checksum(const uint8_t header[HEADER])
{
    uint16_t sum = 0;

    for (unsigned at = 0; at < CHECKSUM_AT; at += 2)
        sum = (uint16_t)(sum + little(header + at, 2));
    return sum;
}

/* What of 17 the header alone decides. */
static bool header_ok(const uint8_t *packet, size_t length)
{
    return length >= HEADER && length <= C7_SP_MAX && little(packet + SYNC_AT, 2) == SYNC &&
           little(packet + LENGTH_AT, 4) == length &&
           little(packet + CHECKSUM_AT, 2) == header_checksum(packet);
}

static void put_protected(uint8_t *sp, uint32_t channel, uint32_t trailer, uint32_t data)
{
    golay_put(sp, channel >> 12);
    golay_put(sp + GOLAY_BYTES, channel & 0xFFF);
    golay_put(sp + 2 * GOLAY_BYTES, trailer << 7 | data >> 12);
    golay_put(sp + 3 * GOLAY_BYTES, data & 0xFFF);
}

/* The checksum of the same header with another packet length. */
static uint16_t checksum_with_length(const uint8_t *packet, size_t length)
{
    uint8_t header[HEADER];

    memcpy(header, packet, sizeof header);
    put_little(header + LENGTH_AT, 4, (uint32_t)length);
    return header_checksum(header);
}

int chapter11_compose(const uint8_t *packet, size_t length, uint8_t *sp, size_t space,
                      size_t *sp_length)
{
    if (!header_ok(packet, length))
        return C7_NOT_CHAPTER11;

    uint64_t secondary = (packet[FLAGS_AT] & SECONDARY_FLAG) != 0 ? SECONDARY_HEADER : 0;
    uint64_t data = little(packet + DATA_LENGTH_AT, 4);
    uint64_t checksum = checksum_bytes[packet[FLAGS_AT] & CHECKSUM_KIND];

    if (HEADER + secondary + data + checksum > length)
        return C7_NOT_CHAPTER11;

    size_t fill = length - (size_t)(HEADER + secondary + data + checksum);
    size_t cut = fill - fill % 4;
    size_t cut_at = length - (size_t)checksum - cut; /* the end of the fill, before the data checksum */

    if (length - cut > space)
        return C7_NOT_CHAPTER11;
    for (size_t i = 0; i < cut; i++)
        if (packet[cut_at + i] != 0)
            return C7_FILL_NOT_ZERO;
    put_protected(sp, little(packet + CHANNEL_AT, 2), (uint32_t)(secondary + fill % 4 + checksum),
                  (uint32_t)data);
    memcpy(sp + KEPT, packet + KEPT, cut_at - KEPT);
    memcpy(sp + cut_at, packet + cut_at + cut, (size_t)checksum);
    put_little(sp + CHECKSUM_AT, 2, checksum_with_length(packet, length - cut));
    *sp_length = length - cut;
    return C7_DONE;
}

int chapter11_reassemble(const uint8_t *sp, size_t length, uint8_t *packet, size_t space,
                         size_t *packet_length)
{
    uint32_t words[4];

    if (length < HEADER)
        return C7_NOT_CHAPTER11;
    for (unsigned i = 0; i < 4; i++)
        if (golay_decode(golay_word(sp + GOLAY_BYTES * i), &words[i]) == GOLAY_BEYOND)
            return C7_NOT_CHAPTER11;

    uint32_t channel = (words[0] & 0xF) << 12 | words[1];
    uint32_t trailer = words[2] >> 7;
    uint32_t data = (words[2] & 0x7F) << 12 | words[3];

    if (HEADER + trailer + data != length || length > space)
        return C7_NOT_CHAPTER11;
    put_little(packet + SYNC_AT, 2, SYNC);
    put_little(packet + CHANNEL_AT, 2, channel);
    put_little(packet + LENGTH_AT, 4, (uint32_t)length);
    put_little(packet + DATA_LENGTH_AT, 4, data);
    memcpy(packet + KEPT, sp + KEPT, length - KEPT);
    *packet_length = length;
    return C7_DONE;
}
