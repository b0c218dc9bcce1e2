/* The driver's calls on libjenugathi.a. */
#include "jenugathi.h"

#include "settings.h"

enum { END_LOW = C7_LOW, END_ORDINARY = C7_ORDINARY, END_NOTICE = C7_NOTICE };

typedef struct {
    uint64_t sort, number, start, length, repaired;
} end_find;

static c7_sender end_sender;
static c7_receiver end_receiver;

static inline int end_open_sender(const settings *s)
{
    return (int)c7_sender_open(&end_sender, s->tp_length, s->stream, s->piece, s->low, s->queue_length, s->ordinary,
                               s->queue_length);
}

static inline int end_offer(const settings *s, unsigned content, const uint8_t *sp, size_t length)
{
    return (int)c7_sender_offer(&end_sender, s->low, s->queue_length, s->ordinary, s->queue_length, content, sp,
                                length);
}

static inline int end_offer_low(const settings *s, unsigned content, const uint8_t *sp, size_t length)
{
    return (int)c7_sender_offer_low(&end_sender, s->low, s->queue_length, s->ordinary, s->queue_length, content, sp,
                                    length);
}

static inline int end_draw(const settings *s, uint8_t *tp)
{
    return (int)c7_sender_draw(&end_sender, s->low, s->queue_length, s->ordinary, s->queue_length, tp, s->tp_length);
}

static inline int end_open_receiver(const settings *s)
{
    return (int)c7_receiver_open(&end_receiver, s->tp_length, s->stream, s->room, s->room_length);
}

static inline end_find end_next(const settings *s, const uint8_t *tp, size_t length)
{
    c7_find find;

    if (c7_receiver_next(&end_receiver, tp, length, s->room, s->room_length, &find) == C7_LIMITS)
        return (end_find){.sort = C7_NOTHING};
    return (end_find){find.sort, find.what, find.start, find.length, find.repaired};
}

static inline void end_gap(void)
{
    c7_receiver_gap(&end_receiver);
}
