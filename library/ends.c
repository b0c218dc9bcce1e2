/* Each call of the second program's interface as the library's call of the same sense. */
#include "jenugathi.h"

#include <stdlib.h>

#define PACKETS_H /* its numbers have names of their own */
#include "ends.h"

/* from here on the library's again */
#undef c7_sender
#undef c7_receiver
#undef c7_find
#undef c7_sender_open
#undef c7_receiver_open

_Static_assert((int)C7_SENDER_WORDS <= ENDS_WORDS && (int)C7_RECEIVER_WORDS <= ENDS_WORDS, "room for either state");
_Static_assert((int)C7_FIND_NONE == C7_NOTHING && (int)C7_FIND_REFUSED == C7_REFUSED &&
                   (int)C7_FIND_NOTICE == C7_NOTICE && (int)C7_FIND_LOW == C7_LOW &&
                   (int)C7_FIND_ORDINARY == C7_ORDINARY,
               "the same sorts");

/* What an opening is lent, which looks at the length alone. */
static const uint8_t lent[2 * C7_QUEUE_MOST];

static c7_sender *sender_of(ends_sender *sender)
{
    return (c7_sender *)sender->words;
}

static c7_receiver *receiver_of(ends_receiver *receiver)
{
    return (c7_receiver *)receiver->words;
}

int ends_sender_open(ends_sender *sender, size_t tp_length, unsigned stream, size_t piece, size_t ordinary_length,
                     size_t low_length)
{
    uint32_t number =
        c7_sender_open(sender_of(sender), tp_length, stream, piece, lent, low_length, lent, ordinary_length);

    if (number == C7_DONE)
        sender->tp_length = tp_length;
    return (int)number;
}

int c7_offer_ordinary(ends_sender *sender, c7_buffer ordinary, c7_buffer low, unsigned content, const uint8_t *sp,
                      size_t sp_length)
{
    return (int)c7_sender_offer(sender_of(sender), low.at, low.length, ordinary.at, ordinary.length, content, sp,
                                sp_length);
}

int c7_offer_low(ends_sender *sender, c7_buffer ordinary, c7_buffer low, unsigned content, const uint8_t *sp,
                 size_t sp_length)
{
    return (int)c7_sender_offer_low(sender_of(sender), low.at, low.length, ordinary.at, ordinary.length, content, sp,
                                    sp_length);
}

int c7_draw(ends_sender *sender, c7_buffer ordinary, c7_buffer low, uint8_t *tp, size_t tp_length)
{
    return (int)c7_sender_draw(sender_of(sender), low.at, low.length, ordinary.at, ordinary.length, tp, tp_length);
}

int ends_receiver_open(ends_receiver *receiver, size_t tp_length, unsigned stream, size_t room_length)
{
    return (int)c7_receiver_open(receiver_of(receiver), tp_length, stream, lent, room_length);
}

ends_find c7_next(ends_receiver *receiver, const uint8_t *tp, size_t tp_length, uint8_t *room, size_t room_length)
{
    c7_find find;
    uint32_t number = c7_receiver_next(receiver_of(receiver), tp, tp_length, room, room_length, &find);

    /* a number is told twice, and must be the same */
    if (number != (find.sort == C7_NOTICE || find.sort == C7_REFUSED ? find.what : C7_DONE))
        abort();
    return (ends_find){(c7_find_sort)find.sort, (unsigned)find.what, {find.tp, find.place}, find.start, find.length,
                       find.repaired};
}

void c7_gap(ends_receiver *receiver)
{
    if (c7_receiver_gap(receiver_of(receiver)) != C7_DONE)
        abort();
}

const uint8_t *c7_stretch(ends_find find, const uint8_t *tp, size_t tp_length, const uint8_t *room, size_t room_length)
{
    const c7_find one = {.sort = find.sort, .start = find.start};

    if (find.start + find.length > (find.sort == C7_FIND_LOW ? tp_length : room_length))
        abort();
    return c7_packet(&one, tp, room);
}

int chapter11_compose(const uint8_t *packet, size_t length, uint8_t *sp, size_t space, size_t *sp_length)
{
    return (int)c7_compose(packet, length, sp, space, sp_length);
}

int chapter11_reassemble(const uint8_t *sp, size_t length, uint8_t *packet, size_t space, size_t *packet_length)
{
    return (int)c7_reassemble(sp, length, packet, space, packet_length);
}
