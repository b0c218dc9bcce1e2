/* Scribbles on states and makes checked calls with them.
 *
 *     scribble SEED ROUNDS
 *
 * A round opens an end, makes some calls, writes anything into some words of its state, and makes some more; or it makes
 * and damages a Chapter 11 packet. All comes from the seed. Status 1 if anything was wrong. */
#include "checked.h"

#include <stdlib.h>
#include <string.h>

static uint64_t seed;

static uint64_t below(uint64_t bound)
{
    seed = seed * 6364136223846793005u + 1442695040888963407u;
    return (seed >> 29) % bound;
}

/* A word near the one that stands there, near a limit, or anything. */
static uint64_t any_word(uint64_t was)
{
    static const uint64_t limits[] = {0, 6, 16, 255, 2047, 65535, 131072, 1048576, UINT32_MAX, UINT64_MAX};

    switch (below(6)) {
    case 0:
        return was + below(5) - 2;
    case 1:
        return limits[below(sizeof limits / sizeof *limits)] + below(3) - 1;
    case 2:
        return below(300);
    case 3:
        return was ^ UINT64_C(1) << below(64);
    case 4:
        return below(UINT32_MAX) << 32 ^ below(UINT32_MAX);
    default:
        return below(8);
    }
}

static void scribble(void)
{
    uint64_t *words = (uint64_t *)lent[STATE].at;
    size_t count = lent[STATE].length / 8;

    for (uint64_t times = below(4); times > 0; times--) {
        uint64_t *word = &words[below(count)];

        *word = below(5) == 0 ? words[below(count)] : any_word(*word);
    }
}

static void lend(int what, size_t length)
{
    guarded_lend(&lent[what], length, below(2));
    for (size_t i = 0; i < length; i++)
        lent[what].at[i] = (uint8_t)below(256);
}

/* Now and then what is lent is a byte shorter than it was. */
static void shorten(int what)
{
    if (lent[what].length > 0 && below(40) == 0)
        lent[what].at[--lent[what].length] = UNLENT;
}

static void call_sender(void)
{
    int call = OFFER + (int)below(3);

    content = (uint32_t)below(8);
    lend(PACKET, below(4) ? below(20) : below(400));
    checked(call);
}

static void send_round(size_t tp_length)
{
    lend(STATE, sizeof(c7_sender));
    lend(LOW, below(120));
    lend(ORDINARY, below(400));
    lend(TP, tp_length);
    if (c7_sender_open((c7_sender *)lent[STATE].at, tp_length, (uint32_t)below(16), 1 + below(30), lent[LOW].at,
                       lent[LOW].length, lent[ORDINARY].at, lent[ORDINARY].length) != C7_DONE)
        check(false, OFFER, "no opening");
    for (uint64_t times = below(8); times > 0; times--)
        call_sender();
    scribble();
    if (below(4) == 0)
        for (size_t i = 0; i < lent[LOW].length; i++)
            lent[LOW].at[i] = (uint8_t)below(256);
    for (uint64_t times = 1 + below(6); times > 0; times--) {
        shorten(LOW + (int)below(3));
        call_sender();
    }
}

enum { TPS = 6 };
static uint8_t tps[TPS][C7_TP_MOST];

/* Transport packets of a sender, some of them damaged. */
static void make_tps(size_t tp_length)
{
    static uint8_t low[200], ordinary[1000], packet[200];
    c7_sender sender;

    c7_sender_open(&sender, tp_length, 0, 1 + below(30), low, sizeof low, ordinary, sizeof ordinary);
    for (int i = 0; i < TPS; i++) {
        c7_sender_offer(&sender, low, sizeof low, ordinary, sizeof ordinary, 1 + (uint32_t)below(6), packet, below(60));
        if (below(2))
            c7_sender_offer_low(&sender, low, sizeof low, ordinary, sizeof ordinary, 2, packet, below(12));
        c7_sender_draw(&sender, low, sizeof low, ordinary, sizeof ordinary, tps[i], tp_length);
        for (uint64_t flips = below(6); flips > 3; flips--)
            tps[i][1 + below(tp_length - 1)] ^= (uint8_t)below(256);
    }
}

static void receive(size_t tp_length, uint64_t times, bool shortened)
{
    const c7_find *find = (const c7_find *)lent[FIND].at;

    for (; times > 0; times--) {
        if (!c7_goes_on(find) || below(20) == 0) {
            lend(TP, tp_length);
            memcpy(lent[TP].at, tps[below(TPS)], tp_length);
        }
        if (shortened)
            shorten(below(2) ? TP : ROOM);
        checked(below(10) ? NEXT : GAP);
    }
}

static void receive_round(size_t tp_length)
{
    make_tps(tp_length);
    lend(STATE, sizeof(c7_receiver));
    lend(FIND, sizeof(c7_find));
    lend(ROOM, below(300));
    lend(TP, tp_length);
    if (c7_receiver_open((c7_receiver *)lent[STATE].at, tp_length, 0, lent[ROOM].at, lent[ROOM].length) != C7_DONE)
        check(false, NEXT, "no opening");
    receive(tp_length, below(12), false);
    scribble();
    receive(tp_length, 1 + below(6), true);
}

static void put(uint8_t *at, size_t bytes, uint64_t number)
{
    for (size_t i = 0; i < bytes; i++)
        at[i] = (uint8_t)(number >> 8 * i);
}

/* A Chapter 11 packet of so many data and fill bytes: header, data, fill; least significant byte first. */
static void lend_chapter11(size_t data, size_t fill)
{
    uint8_t *at;
    uint16_t sum = 0;

    lend(PACKET, 24 + data + fill);
    at = lent[PACKET].at;
    put(at, 2, 0xEB25);
    put(at + 4, 4, 24 + data + fill);
    put(at + 8, 4, data);
    at[14] = 0; /* no secondary header, no data checksum */
    memset(at + 24 + data, 0, fill);
    for (size_t i = 0; i < 22; i += 2)
        sum = (uint16_t)(sum + (at[i] | at[i + 1] << 8));
    put(at + 22, 2, sum);
}

static void chapter11_round(void)
{
    static uint8_t sp[LENT_MOST];
    uint64_t length;

    lend_chapter11(below(200), below(9));
    if (below(3) == 0)
        lent[PACKET].at[below(lent[PACKET].length)] ^= (uint8_t)below(256);
    lend(OUT, below(300));
    lend(WRITTEN, sizeof(uint64_t));
    if (checked(COMPOSE) != C7_DONE)
        return;
    memcpy(&length, lent[WRITTEN].at, sizeof length);
    check(length <= lent[OUT].length, COMPOSE, "more written than lent");
    memcpy(sp, lent[OUT].at, lent[OUT].length);
    guarded_lend(&lent[PACKET], length, below(2));
    memcpy(lent[PACKET].at, sp, length);
    if (below(3) == 0)
        lent[PACKET].at[below(length)] ^= (uint8_t)below(256);
    checked(REASSEMBLE);
}

int main(int count, char **words)
{
    if (count != 3)
        return EXIT_FAILURE;
    seed = strtoull(words[1], NULL, 10);
    guarded_make(lent, LENT);
    for (unsigned long rounds = strtoul(words[2], NULL, 10); rounds > 0; rounds--) {
        size_t tp_length = below(50) ? 16 + below(60) : C7_TP_MOST;

        if (below(2))
            receive_round(tp_length);
        else
            send_round(tp_length);
        chapter11_round();
    }
    return print_checked() ? EXIT_SUCCESS : EXIT_FAILURE;
}
