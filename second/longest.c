/* The two ends with the longest packets, which the programs' buffers do not hold.
 *
 * Standard input is in parts. A byte 1 and two bytes n: a packet of 131,072 bytes, byte i of which is
 * i modulo 251, is offered n times, and drawn in 65 TPs each time. A byte 2: the rest of the input is
 * TPs, which are read. TP length 2,051, stream 5, F 65,535. Each part prints a line, whose digest takes
 * in every 512th byte, from the fourth on, of each drawn TP or received packet, after a turn by one bit:
 * cheap beside what made them. A TP's fourth byte is parity, so no Golay word can be left out. */
#include <stdio.h>

#include "commands.h"
#include "receiver.h"
#include "sender.h"

enum { STREAM = 5, PIECE = 65535, DRAWS = 65, FIRST = 3, SAMPLED = 512, QUEUE = 2 * C7_SP_MAX };

static uint64_t digest_sampled(uint64_t digest, const uint8_t *bytes, size_t length)
{
    for (size_t i = FIRST; i < length; i += SAMPLED)
        digest = (digest >> 1 | digest << 63) ^ bytes[i];
    return digest;
}

static void send_packets(const uint8_t *packet, unsigned count)
{
    static uint8_t ordinary_bytes[QUEUE], low_bytes[16], tp[C7_TP_MAX];
    const c7_buffer ordinary = {ordinary_bytes, QUEUE}, low = {low_bytes, sizeof low_bytes};
    c7_sender sender;
    uint64_t digest = 0;

    c7_sender_open(&sender, C7_TP_MAX, STREAM, PIECE, QUEUE, sizeof low_bytes);
    for (unsigned i = 0; i < count; i++) {
        c7_offer_ordinary(&sender, ordinary, low, C7_CONTENT_MIN, packet, C7_SP_MAX);
        for (int j = 0; j < DRAWS; j++) {
            c7_draw(&sender, ordinary, low, tp, C7_TP_MAX);
            digest = digest_sampled(digest, tp, C7_TP_MAX);
        }
    }
    printf("sent %u digest %llu\n", count, (unsigned long long)digest);
}

typedef struct {
    unsigned long long packets, bytes, others;
    uint64_t digest;
} tally;

static uint8_t room[C7_ROOM_MAX];

/* Whether the TP has more to give. */
static bool count_find(tally *t, c7_find find, const uint8_t *tp)
{
    if (find.sort == C7_FIND_NONE)
        return false;
    if (find.sort != C7_FIND_ORDINARY) {
        t->others++;
        return find.sort == C7_FIND_LOW || find.number > C7_TP_BEYOND_REPAIR;
    }
    t->packets++;
    t->bytes += find.length;
    t->digest = digest_sampled(t->digest, c7_stretch(find, tp, C7_TP_MAX, room, sizeof room),
                               find.length);
    return true;
}

static void receive_input(void)
{
    static uint8_t tps[64 * C7_TP_MAX];
    tally t = {0};
    c7_receiver receiver;
    size_t count;

    c7_receiver_open(&receiver, C7_TP_MAX, STREAM, sizeof room);
    while ((count = fread(tps, C7_TP_MAX, 64, stdin)) > 0)
        for (const uint8_t *tp = tps; tp < tps + count * C7_TP_MAX; tp += C7_TP_MAX)
            while (count_find(&t, c7_next(&receiver, tp, C7_TP_MAX, room, sizeof room), tp))
                ;
    printf("received %llu bytes %llu others %llu digest %llu\n", t.packets, t.bytes, t.others,
           (unsigned long long)t.digest);
}

int command_longest(void)
{
    static uint8_t packet[C7_SP_MAX];
    uint8_t count[2];
    int end;

    for (size_t i = 0; i < C7_SP_MAX; i++)
        packet[i] = (uint8_t)(i % 251);
    while ((end = getchar()) == 1 && fread(count, 1, 2, stdin) == 2)
        send_packets(packet, (unsigned)count[0] << 8 | count[1]);
    if (end == 2)
        receive_input();
    return 0;
}
