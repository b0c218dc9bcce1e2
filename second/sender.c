#include "sender.h"

#include <string.h>

static size_t place(const c7_queue *queue, size_t from_head)
{
    size_t at = queue->head + from_head;

    return at < queue->length ? at : at - queue->length;
}

/* The bytes may have no address if there are none. */
static void queue_add(c7_queue *queue, uint8_t *buffer, const uint8_t *bytes, size_t count)
{
    if (count == 0)
        return;

    size_t at = place(queue, queue->queued);
    size_t run = c7_smaller(count, queue->length - at);

    memcpy(buffer + at, bytes, run);
    memcpy(buffer, bytes + run, count - run);
    queue->queued += count;
}

static void queue_copy(const c7_queue *queue, const uint8_t *buffer, size_t from_head,
                       uint8_t *to, size_t count)
{
    size_t at = place(queue, from_head);
    size_t run = c7_smaller(count, queue->length - at);

    memcpy(to, buffer + at, run);
    memcpy(to + run, buffer, count - run);
}

static void queue_drop(c7_queue *queue, size_t count)
{
    if (count == 0)
        return;
    queue->head = place(queue, count);
    queue->queued -= count;
}

static size_t payload_length(const c7_sender *sender)
{
    return sender->tp_length - C7_TP_HEADER;
}

static bool is_opening(const c7_sender *sender, c7_buffer ordinary, c7_buffer low)
{
    return sender->tp_length != 0 && ordinary.length == sender->ordinary.length &&
           low.length == sender->low.length;
}

static bool content_ok(unsigned content)
{
    return content >= C7_CONTENT_MIN && content <= C7_CONTENT_MAX;
}

int c7_sender_open(c7_sender *sender, size_t tp_length, unsigned stream, size_t piece,
                   size_t ordinary_length, size_t low_length)
{
    if (!c7_tp_settings_ok(tp_length, stream) || piece < C7_PIECE_MIN ||
        piece > C7_PIECE_MAX || ordinary_length > C7_QUEUE_MAX || low_length > C7_QUEUE_MAX)
        return C7_BAD_SETTING;
    golay_init();
    *sender = (c7_sender){
        .tp_length = tp_length,
        .piece = piece,
        .ordinary = {.length = ordinary_length},
        .low = {.length = low_length},
        .stream = (uint8_t)stream,
    };
    return C7_DONE;
}

static void add_ep(c7_queue *queue, uint8_t *buffer, unsigned content, unsigned fragment,
                   const uint8_t *data, size_t length)
{
    uint8_t header[C7_EP_HEADER];

    c7_put_ep_header(header,
                     (c7_ep_header){(uint8_t)content, (uint8_t)fragment, (uint16_t)length, 0});
    queue_add(queue, buffer, header, sizeof header);
    queue_add(queue, buffer, data, length);
}

int c7_offer_ordinary(c7_sender *sender, c7_buffer ordinary, c7_buffer low, unsigned content,
                      const uint8_t *sp, size_t sp_length)
{
    c7_queue *queue = &sender->ordinary;

    if (!is_opening(sender, ordinary, low))
        return C7_BAD_SETTING;
    if (!content_ok(content))
        return C7_BAD_CONTENT;
    if (sp_length > C7_SP_MAX)
        return C7_TOO_LONG;

    /* An SP without bytes is one EP too. */
    size_t pieces = sp_length == 0 ? 1 : (sp_length - 1) / sender->piece + 1;

    if (sp_length + pieces * C7_EP_HEADER > queue->length - queue->queued)
        return C7_QUEUE_FULL;
    if (pieces == 1) {
        add_ep(queue, ordinary.at, content, C7_COMPLETE, sp, sp_length);
        return C7_DONE;
    }
    for (size_t i = 0; i < pieces; i++) {
        size_t from = i * sender->piece;
        size_t length = c7_smaller(sender->piece, sp_length - from);
        unsigned fragment = i == 0 ? C7_FIRST : i == pieces - 1 ? C7_LAST : C7_MIDDLE;

        add_ep(queue, ordinary.at, content, fragment, sp + from, length);
    }
    return C7_DONE;
}

int c7_offer_low(c7_sender *sender, c7_buffer ordinary, c7_buffer low, unsigned content,
                 const uint8_t *sp, size_t sp_length)
{
    c7_queue *queue = &sender->low;

    if (!is_opening(sender, ordinary, low))
        return C7_BAD_SETTING;
    if (!content_ok(content))
        return C7_BAD_CONTENT;
    if (sp_length > payload_length(sender) - C7_EP_HEADER - C7_END_BYTE)
        return C7_TOO_LONG;
    if (sp_length + C7_EP_HEADER > queue->length - queue->queued)
        return C7_QUEUE_FULL;
    add_ep(queue, low.at, content, C7_COMPLETE, sp, sp_length);
    return C7_DONE;
}

/* The number bits of a queued header as they stand: nothing flips bits in a queue. */
static c7_ep_header plain_header(const uint8_t at[C7_EP_HEADER])
{
    return c7_ep_header_of(golay_word(at) >> 12, golay_word(at + GOLAY_BYTES) >> 12);
}

/* Bytes of the whole low-latency EP at a place of its queue, 0 if no offer put one there. */
static size_t low_ep_at(const c7_sender *sender, const uint8_t *buffer, size_t from_head)
{
    const c7_queue *queue = &sender->low;
    size_t rest = queue->queued - from_head;
    uint8_t bytes[C7_EP_HEADER], accepted[C7_EP_HEADER];

    if (rest < C7_EP_HEADER)
        return 0;
    queue_copy(queue, buffer, from_head, bytes, sizeof bytes);

    c7_ep_header header = plain_header(bytes);

    if (!content_ok(header.content) || header.fragment != C7_COMPLETE ||
        (size_t)header.length + C7_EP_HEADER > rest ||
        (size_t)header.length + C7_EP_HEADER + C7_END_BYTE > payload_length(sender))
        return 0;
    /* Catches wrong parity and reserved bits. */
    c7_put_ep_header(accepted, header);
    if (memcmp(bytes, accepted, sizeof bytes) != 0)
        return 0;
    return (size_t)header.length + C7_EP_HEADER;
}

/* Bytes of the ordinary EP at the head, kept within the queue if someone overwrote it. */
static size_t ordinary_ep(const c7_queue *queue, const uint8_t *buffer)
{
    uint8_t bytes[C7_EP_HEADER];

    if (queue->queued < C7_EP_HEADER)
        return queue->queued;
    queue_copy(queue, buffer, 0, bytes, sizeof bytes);
    return c7_smaller((size_t)plain_header(bytes).length + C7_EP_HEADER, queue->queued);
}

/* Length of the low-latency part written to the payload. */
static size_t draw_low(c7_sender *sender, const uint8_t *buffer, uint8_t *payload)
{
    size_t at = 0, taken = 0;

    for (;;) {
        size_t ep = low_ep_at(sender, buffer, taken);

        if (ep == 0 || ep + C7_END_BYTE > payload_length(sender) - at)
            break;
        if (at > 0)
            payload[at - 1] = END_MORE;
        queue_copy(&sender->low, buffer, taken, payload + at, ep);
        taken += ep;
        at += ep;
        payload[at++] = END_LAST;
    }
    queue_drop(&sender->low, taken);
    return at;
}

/* Takes bytes off the head, keeping count of where the EPs begin. */
static void pass_ordinary(c7_sender *sender, const uint8_t *buffer, size_t count)
{
    while (count > 0) {
        if (sender->ep_left == 0)
            sender->ep_left = ordinary_ep(&sender->ordinary, buffer);

        size_t run = c7_smaller(count, sender->ep_left);

        queue_drop(&sender->ordinary, run);
        sender->ep_left -= run;
        count -= run;
    }
}

/* Fills the rest of a payload with one fill EP, which may owe bytes. */
static void draw_fill(c7_sender *sender, uint8_t *at, size_t rest)
{
    if (rest >= C7_EP_HEADER) {
        size_t length = rest - C7_EP_HEADER;

        c7_put_ep_header(at, (c7_ep_header){C7_FILL, C7_COMPLETE, (uint16_t)length, 0});
        memset(at + C7_EP_HEADER, C7_FILL_DATA, length);
    } else {
        /* The header of a fill EP without data is six zero bytes. */
        memset(at, 0, rest);
        sender->owed = C7_EP_HEADER - rest;
    }
}

int c7_draw(c7_sender *sender, c7_buffer ordinary, c7_buffer low, uint8_t *tp, size_t tp_length)
{
    if (!is_opening(sender, ordinary, low))
        return C7_BAD_SETTING;
    if (sender->low.queued > 0 && low_ep_at(sender, low.at, 0) == 0)
        return C7_BAD_SETTING;
    if (tp_length != sender->tp_length)
        return C7_BAD_DRAW_LENGTH;

    uint8_t *payload = tp + C7_TP_HEADER;
    size_t length = payload_length(sender);
    size_t at = draw_low(sender, low.at, payload);
    uint32_t word = at > 0 ? C7_LOW_PRESENT : 0;

    /* What comes after the owed bytes and the begun EP begins here, be it queued or fill. */
    size_t start = at + sender->owed + sender->ep_left;

    word |= start < length ? (uint32_t)start : C7_NO_START;
    tp[0] = (uint8_t)(sender->stream << 4);
    golay_put(tp + 1, word);

    size_t owed = c7_smaller(sender->owed, length - at);

    memset(payload + at, 0, owed);
    sender->owed -= owed;
    at += owed;

    size_t run = c7_smaller(sender->ordinary.queued, length - at);

    if (run > 0) {
        queue_copy(&sender->ordinary, ordinary.at, 0, payload + at, run);
        pass_ordinary(sender, ordinary.at, run);
        at += run;
    }
    if (at < length)
        draw_fill(sender, payload + at, length - at);
    return C7_DONE;
}
