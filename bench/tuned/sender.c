#include "sender.h"

enum { FRAGMENT_AT = 4, CONTENT_AT = 6, FRAGMENT_BITS = 3 << FRAGMENT_AT };

static inline uint64_t header_of(unsigned content, unsigned fragment, size_t length)
{
    return golay_pair_of(content << CONTENT_AT | fragment << FRAGMENT_AT | (uint32_t)(length >> 12),
                         length & GOLAY_NUMBER);
}

static inline size_t place(const c7_queue *queue, size_t from_head)
{
    size_t at = queue->head + from_head;

    return at < queue->length ? at : at - queue->length;
}

/* Copies into the ring from a place on; where it ends the rest goes to its start. */
static inline void ring_put(c7_queue *queue, uint8_t *buffer, size_t at, const uint8_t *bytes, size_t count)
{
    size_t straight = queue->length - at;

    if (LIKELY(count <= straight)) {
        bytes_copy(buffer + at, bytes, count);
    } else {
        memcpy(buffer + at, bytes, straight);
        memcpy(buffer, bytes + straight, count - straight);
    }
}

static inline void ring_get(const c7_queue *queue, const uint8_t *buffer, size_t at, uint8_t *to, size_t count)
{
    size_t straight = queue->length - at;

    if (LIKELY(count <= straight)) {
        bytes_copy(to, buffer + at, count);
    } else {
        memcpy(to, buffer + at, straight);
        memcpy(to + straight, buffer, count - straight);
    }
}

static inline void ring_drop(c7_queue *queue, size_t count)
{
    queue->head = place(queue, count);
    queue->queued -= count;
}

/* An EP across the ring's end. */
NOT_INLINE void add_wrapped(c7_queue *queue, uint8_t *buffer, uint64_t header, const uint8_t *data, size_t length)
{
    uint8_t bytes[C7_EP_HEADER];

    golay_put_pair(bytes, header);
    ring_put(queue, buffer, place(queue, queue->queued), bytes, C7_EP_HEADER);
    queue->queued += C7_EP_HEADER;
    ring_put(queue, buffer, place(queue, queue->queued), data, length);
    queue->queued += length;
}

/* An EP behind what is queued. The data may have no address if there are none. */
static inline void add_ep(c7_queue *queue, uint8_t *buffer, uint64_t header, const uint8_t *data, size_t length)
{
    size_t at = place(queue, queue->queued);

    if (UNLIKELY(C7_EP_HEADER + length > queue->length - at)) {
        add_wrapped(queue, buffer, header, data, length);
        return;
    }
    golay_put_pair(buffer + at, header);
    queue->queued += C7_EP_HEADER + length;
    bytes_copy(buffer + at + C7_EP_HEADER, data, length);
}

static inline bool is_opening(const c7_sender *sender, c7_buffer ordinary, c7_buffer low)
{
    return LIKELY(ordinary.length == sender->ordinary.length && low.length == sender->low.length &&
                  sender->tp_length != 0);
}

int c7_sender_open(c7_sender *sender, size_t tp_length, unsigned stream, size_t piece, size_t ordinary_length,
                   size_t low_length)
{
    if (!c7_tp_settings_ok(tp_length, stream) || piece < C7_PIECE_MIN || piece > C7_PIECE_MAX ||
        ordinary_length > C7_QUEUE_MAX || low_length > C7_QUEUE_MAX)
        return C7_BAD_SETTING;
    golay_init();
    *sender = (c7_sender){
        .tp_length = tp_length,
        .piece = piece,
        .ordinary.length = ordinary_length,
        .low.length = low_length,
        .stream = (uint32_t)stream << 28,
    };
    return C7_DONE;
}

/* More than one piece; all middle ones have one header. */
NOT_INLINE int offer_pieces(c7_queue *queue, uint8_t *buffer, size_t piece, unsigned content, const uint8_t *sp,
                            size_t sp_length)
{
    size_t pieces = (sp_length - 1) / piece + 1;

    if (sp_length + pieces * C7_EP_HEADER > queue->length - queue->queued)
        return C7_QUEUE_FULL;
    add_ep(queue, buffer, header_of(content, C7_FIRST, piece), sp, piece);

    uint64_t middle = header_of(content, C7_MIDDLE, piece);
    const uint8_t *at = sp + piece, *last = sp + (pieces - 1) * piece;

    for (; at < last; at += piece)
        add_ep(queue, buffer, middle, at, piece);

    size_t rest = sp_length - (pieces - 1) * piece;

    add_ep(queue, buffer, header_of(content, C7_LAST, rest), last, rest);
    return C7_DONE;
}

int c7_offer_ordinary(c7_sender *sender, c7_buffer ordinary, c7_buffer low, unsigned content, const uint8_t *sp,
                      size_t sp_length)
{
    c7_queue *queue = &sender->ordinary;

    if (!is_opening(sender, ordinary, low))
        return C7_BAD_SETTING;
    if (UNLIKELY(content - C7_CONTENT_MIN > C7_CONTENT_MAX - C7_CONTENT_MIN))
        return C7_BAD_CONTENT;
    if (UNLIKELY(sp_length > C7_SP_MAX))
        return C7_TOO_LONG;
    if (sp_length > sender->piece)
        return offer_pieces(queue, ordinary.at, sender->piece, content, sp, sp_length);
    if (sp_length + C7_EP_HEADER > queue->length - queue->queued)
        return C7_QUEUE_FULL;
    add_ep(queue, ordinary.at, header_of(content, C7_COMPLETE, sp_length), sp, sp_length);
    return C7_DONE;
}

int c7_offer_low(c7_sender *sender, c7_buffer ordinary, c7_buffer low, unsigned content, const uint8_t *sp,
                 size_t sp_length)
{
    c7_queue *queue = &sender->low;

    if (!is_opening(sender, ordinary, low))
        return C7_BAD_SETTING;
    if (UNLIKELY(content - C7_CONTENT_MIN > C7_CONTENT_MAX - C7_CONTENT_MIN))
        return C7_BAD_CONTENT;
    if (UNLIKELY(sp_length > sender->tp_length - C7_TP_HEADER - C7_EP_HEADER - C7_END_BYTE))
        return C7_TOO_LONG;
    if (sp_length + C7_EP_HEADER > queue->length - queue->queued)
        return C7_QUEUE_FULL;
    add_ep(queue, low.at, header_of(content, C7_COMPLETE, sp_length), sp, sp_length);
    return C7_DONE;
}

/* Six bytes of a ring that may lie across its end. */
static inline const uint8_t *header_at(const c7_queue *queue, const uint8_t *buffer, size_t at,
                                       uint8_t bytes[C7_EP_HEADER])
{
    if (LIKELY(C7_EP_HEADER <= queue->length - at))
        return buffer + at;
    ring_get(queue, buffer, at, bytes, C7_EP_HEADER);
    return bytes;
}

/* Bytes of the low-latency EP at a place of its queue, 0 if no offer put one there. */
static inline size_t low_ep_at(const c7_sender *sender, const uint8_t *buffer, size_t from_head)
{
    const c7_queue *queue = &sender->low;
    size_t rest = queue->queued - from_head;
    uint8_t bytes[C7_EP_HEADER];

    if (rest < C7_EP_HEADER)
        return 0;

    const uint8_t *header = header_at(queue, buffer, place(queue, from_head), bytes);
    uint32_t word0 = bytes_get4(header) >> 8, word1 = bytes_get4(header + 2) & 0xFFFFFF;
    uint32_t upper = word0 >> 12, lower = word1 >> 12;
    size_t length = (size_t)(upper & 0xF) << 12 | lower;

    /* Contents 1 to 6 also have the two reserved bits zero. */
    if (golay_code[upper] != word0 || golay_code[lower] != word1 || (upper & FRAGMENT_BITS) != 0 ||
        (upper >> CONTENT_AT) - C7_CONTENT_MIN > C7_CONTENT_MAX - C7_CONTENT_MIN ||
        length > rest - C7_EP_HEADER ||
        length > sender->tp_length - C7_TP_HEADER - C7_EP_HEADER - C7_END_BYTE)
        return 0;
    return length + C7_EP_HEADER;
}

/* Length of the low-latency part written to a payload; its first EP has so many bytes. */
static size_t draw_low(c7_sender *sender, const uint8_t *buffer, uint8_t *payload, size_t room, size_t ep)
{
    c7_queue *queue = &sender->low;
    size_t at = 0, taken = 0;

    do {
        if (at > 0)
            payload[at - 1] = END_MORE;
        ring_get(queue, buffer, place(queue, taken), payload + at, ep);
        taken += ep;
        at += ep;
        payload[at++] = END_LAST;
        ep = low_ep_at(sender, buffer, taken);
    } while (ep != 0 && ep + C7_END_BYTE <= room - at);
    ring_drop(queue, taken);
    return at;
}

/* Bytes of the ordinary EP at a place of the ring, of which so many are queued from there on. */
static inline size_t ordinary_ep_at(const c7_queue *queue, const uint8_t *buffer, size_t at, size_t queued)
{
    uint8_t bytes[C7_EP_HEADER];

    if (queued < C7_EP_HEADER)
        return queued;

    /* The length's bits lie in bytes 1 to 4, between parity bits. */
    uint32_t bits = bytes_get4(header_at(queue, buffer, at, bytes) + 1);
    size_t ep = (bits >> 16 & 0xF000) + (bits >> 4 & 0xFFF) + C7_EP_HEADER;

    return c7_smaller(ep, queued);
}

/* Draws queued ordinary bytes, keeping count of what is left of the last EP begun. */
static inline void draw_ordinary(c7_sender *sender, const uint8_t *buffer, uint8_t *to, size_t count)
{
    c7_queue *queue = &sender->ordinary;
    size_t passed = sender->ep_left, queued = queue->queued;

    ring_get(queue, buffer, queue->head, to, count);
    while (passed < count)
        passed += ordinary_ep_at(queue, buffer, place(queue, passed), queued - passed);
    sender->ep_left = passed - count;
    ring_drop(queue, count);
}

int c7_draw(c7_sender *sender, c7_buffer ordinary, c7_buffer low, uint8_t *tp, size_t tp_length)
{
    size_t low_ep = 0;

    if (!is_opening(sender, ordinary, low))
        return C7_BAD_SETTING;
    if (sender->low.queued > 0 && (low_ep = low_ep_at(sender, low.at, 0)) == 0)
        return C7_BAD_SETTING;
    if (UNLIKELY(tp_length != sender->tp_length))
        return C7_BAD_DRAW_LENGTH;

    uint8_t *payload = tp + C7_TP_HEADER;
    size_t length = tp_length - C7_TP_HEADER, at = 0;
    uint32_t number = 0;

    if (low_ep > 0) {
        at = draw_low(sender, low.at, payload, length, low_ep);
        number = C7_LOW_PRESENT;
    }

    /* What follows the owed bytes and the begun EP begins here, be it queued or fill. */
    size_t start = at + sender->owed + sender->ep_left;

    number |= start < length ? (uint32_t)start : C7_NO_START;
    bytes_put4(tp, sender->stream | golay_code[number]);

    if (UNLIKELY(sender->owed > 0)) {
        size_t owed = c7_smaller(sender->owed, length - at);

        memset(payload + at, 0, owed);
        sender->owed -= owed;
        at += owed;
    }

    size_t run = c7_smaller(sender->ordinary.queued, length - at);

    if (run > 0) {
        draw_ordinary(sender, ordinary.at, payload + at, run);
        at += run;
    }

    size_t rest = length - at;

    if (rest >= C7_EP_HEADER) {
        golay_put_pair(payload + at, golay_code[rest - C7_EP_HEADER]);
        memset(payload + at + C7_EP_HEADER, C7_FILL_DATA, rest - C7_EP_HEADER);
    } else if (rest > 0) {
        /* The header of a fill EP without data is six zero bytes. */
        memset(payload + at, 0, rest);
        sender->owed = C7_EP_HEADER - rest;
    }
    return C7_DONE;
}
