/* Calls on the library, one line each, as CALLS.md says. */
#include <stdio.h>
#include <string.h>

#include "commands.h"
#include "digest.h"
#include "receiver.h"
#include "sender.h"

enum { QUEUE_BYTES = 1048580, ROOM_BYTES = 131080, TP_BYTES = 4096, DATA_MAX = 131080 };
enum { ENTRY_BYTES = 25 };
enum { ORDINARY, LOW, ROOM, DRAWN, RECEIVED, BUFFERS };

static uint8_t ordinary_queue[QUEUE_BYTES], low_queue[QUEUE_BYTES], room[ROOM_BYTES],
    drawn_tp[TP_BYTES], received_tp[TP_BYTES];

static const c7_buffer buffers[BUFFERS] = {
    [ORDINARY] = {ordinary_queue, QUEUE_BYTES},
    [LOW] = {low_queue, QUEUE_BYTES},
    [ROOM] = {room, ROOM_BYTES},
    [DRAWN] = {drawn_tp, TP_BYTES},
    [RECEIVED] = {received_tp, TP_BYTES},
};

typedef struct {
    uint8_t op;
    uint32_t a, b, c, d, e;
    uint32_t length;
    uint8_t data[DATA_MAX];
} call_entry;

static c7_sender sender;
static c7_receiver receiver;
static uint32_t limit = UINT32_MAX;

static c7_buffer lend(int buffer, uint32_t length)
{
    return (c7_buffer){buffers[buffer].at, c7_smaller(length, buffers[buffer].length)};
}

static unsigned long long digest_of(c7_buffer lent, size_t most)
{
    return digest_bytes(lent.at, c7_smaller(lent.length, most));
}

static void print_queues(c7_buffer ordinary, c7_buffer low)
{
    printf(" %llu %llu\n", digest_of(ordinary, limit), digest_of(low, limit));
}

static void call_sender(const call_entry *entry)
{
    c7_buffer ordinary = lend(ORDINARY, entry->d), low = lend(LOW, entry->e);

    printf("sender %d", c7_sender_open(&sender, entry->a, entry->b, entry->c, ordinary.length,
                                       low.length));
    print_queues(ordinary, low);
}

static void call_ordinary(const call_entry *entry)
{
    c7_buffer ordinary = lend(ORDINARY, entry->d), low = lend(LOW, entry->e);

    printf("ordinary %d",
           c7_offer_ordinary(&sender, ordinary, low, entry->a, entry->data, entry->length));
    print_queues(ordinary, low);
}

static void call_low(const call_entry *entry)
{
    c7_buffer ordinary = lend(ORDINARY, entry->d), low = lend(LOW, entry->e);

    printf("low %d", c7_offer_low(&sender, ordinary, low, entry->a, entry->data, entry->length));
    print_queues(ordinary, low);
}

static void call_draw(const call_entry *entry)
{
    c7_buffer tp = lend(DRAWN, entry->a);
    c7_buffer ordinary = lend(ORDINARY, entry->d), low = lend(LOW, entry->e);

    printf("draw %d", c7_draw(&sender, ordinary, low, tp.at, tp.length));
    printf(" %llu", digest_of(tp, tp.length));
    print_queues(ordinary, low);
}

static void call_receiver(const call_entry *entry)
{
    c7_buffer lent = lend(ROOM, entry->c);

    printf("receiver %d", c7_receiver_open(&receiver, entry->a, entry->b, lent.length));
    printf(" %llu\n", digest_of(lent, limit));
}

static c7_find next_line(const call_entry *entry)
{
    c7_buffer tp = lend(RECEIVED, entry->a), lent = lend(ROOM, entry->c);
    c7_find find = c7_next(&receiver, tp.at, tp.length, lent.at, lent.length);
    const uint8_t *stretch = c7_stretch(find, tp.at, tp.length, lent.at, lent.length);

    if (find.sort == C7_FIND_NONE)
        printf("next none");
    else if (stretch == NULL)
        printf("next %u", find.number);
    else
        printf("next %s %u %zu %llu", find.sort == C7_FIND_LOW ? "low" : "ordinary", find.number,
               find.length, (unsigned long long)digest_bytes(stretch, find.length));
    printf(" %llu %llu\n", digest_of(tp, tp.length), digest_of(lent, limit));
    return find;
}

static c7_find next_and_about_lines(const call_entry *entry)
{
    c7_find find = next_line(entry);

    printf("about %lu %zu %lu\n", (unsigned long)find.began.tp, find.began.place,
           (unsigned long)find.repaired);
    return find;
}

static void call_next(const call_entry *entry)
{
    next_line(entry);
}

static void call_next_about(const call_entry *entry)
{
    next_and_about_lines(entry);
}

static void all_lines(const call_entry *entry, c7_find (*lines)(const call_entry *))
{
    c7_find find;

    do
        find = lines(entry);
    while (find.sort == C7_FIND_LOW || find.sort == C7_FIND_ORDINARY ||
           (find.sort == C7_FIND_NOTICE && find.number > C7_TP_BEYOND_REPAIR));
}

static void call_all(const call_entry *entry)
{
    all_lines(entry, next_line);
}

static void call_all_about(const call_entry *entry)
{
    all_lines(entry, next_and_about_lines);
}

static void call_gap(const call_entry *entry)
{
    (void)entry;
    c7_gap(&receiver);
    printf("gap\n");
}

static void call_write(const call_entry *entry)
{
    if (entry->a < BUFFERS && entry->b < buffers[entry->a].length) {
        c7_buffer buffer = buffers[entry->a];

        memcpy(buffer.at + entry->b, entry->data,
               c7_smaller(entry->length, buffer.length - entry->b));
    }
    printf("write\n");
}

static void call_hand(const call_entry *entry)
{
    (void)entry;
    memcpy(received_tp, drawn_tp, TP_BYTES);
    printf("hand\n");
}

static void call_limit(const call_entry *entry)
{
    limit = entry->a;
    printf("limit\n");
}

static uint32_t field(const uint8_t *bytes)
{
    return (uint32_t)bytes[0] << 24 | (uint32_t)bytes[1] << 16 | (uint32_t)bytes[2] << 8 |
           bytes[3];
}

static bool read_entry(call_entry *entry)
{
    uint8_t head[ENTRY_BYTES];

    if (fread(head, 1, ENTRY_BYTES, stdin) != ENTRY_BYTES)
        return false;
    entry->op = head[0];
    entry->a = field(head + 1);
    entry->b = field(head + 5);
    entry->c = field(head + 9);
    entry->d = field(head + 13);
    entry->e = field(head + 17);
    entry->length = field(head + 21);
    return entry->length <= DATA_MAX &&
           fread(entry->data, 1, entry->length, stdin) == entry->length;
}

int command_calls(void)
{
    static void (*const calls[])(const call_entry *) = {
        NULL,      call_sender, call_ordinary, call_low,  call_draw,  call_receiver,
        call_next, call_gap,    call_write,    call_hand, call_limit, call_all,
        call_next_about, call_all_about,
    };
    static call_entry entry;

    c7_sender_open(&sender, 16, 0, 1, 0, 0);
    c7_receiver_open(&receiver, 16, 0, 0);
    while (read_entry(&entry) && entry.op >= 1 && entry.op < sizeof calls / sizeof *calls)
        calls[entry.op](&entry);
    return 0;
}
