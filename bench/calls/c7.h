/* The driver's calls on the ends of second/ or bench/tuned/, whose interface is the same. */
#include "receiver.h"
#include "sender.h"

#include "settings.h"

enum { END_LOW = C7_FIND_LOW, END_ORDINARY = C7_FIND_ORDINARY, END_NOTICE = C7_FIND_NOTICE };

typedef struct {
    unsigned sort, number;
    size_t start, length;
    uint32_t repaired;
} end_find;

static c7_sender end_sender;
static c7_receiver end_receiver;

static inline c7_buffer end_ordinary(const settings *s)
{
    return (c7_buffer){s->ordinary, s->queue_length};
}

static inline c7_buffer end_low(const settings *s)
{
    return (c7_buffer){s->low, s->queue_length};
}

static inline int end_open_sender(const settings *s)
{
    return c7_sender_open(&end_sender, s->tp_length, s->stream, s->piece, s->queue_length, s->queue_length);
}

static inline int end_offer(const settings *s, unsigned content, const uint8_t *sp, size_t length)
{
    return c7_offer_ordinary(&end_sender, end_ordinary(s), end_low(s), content, sp, length);
}

static inline int end_offer_low(const settings *s, unsigned content, const uint8_t *sp, size_t length)
{
    return c7_offer_low(&end_sender, end_ordinary(s), end_low(s), content, sp, length);
}

static inline int end_draw(const settings *s, uint8_t *tp)
{
    return c7_draw(&end_sender, end_ordinary(s), end_low(s), tp, s->tp_length);
}

static inline int end_open_receiver(const settings *s)
{
    return c7_receiver_open(&end_receiver, s->tp_length, s->stream, s->room_length);
}

static inline end_find end_next(const settings *s, const uint8_t *tp, size_t length)
{
    c7_find find = c7_next(&end_receiver, tp, length, s->room, s->room_length);

    return (end_find){find.sort, find.number, find.start, find.length, find.repaired};
}

static inline void end_gap(void)
{
    c7_gap(&end_receiver);
}
