/* The sender: queues of encoded EPs, drawn as transport packets. The calls are those of second/sender.h. */
#ifndef SENDER_H
#define SENDER_H

#include "golay.h"
#include "packets.h"

/* A queue buffer lent for one call. */
typedef struct {
    uint8_t *at;
    size_t length;
} c7_buffer;

/* A ring in its buffer. */
typedef struct {
    size_t length; /* of the buffer */
    size_t head;   /* place of the first queued byte */
    size_t queued;
} c7_queue;

typedef struct {
    size_t tp_length; /* 0: not opened */
    size_t piece;     /* F */
    c7_queue ordinary;
    c7_queue low;
    size_t ep_left; /* queued bytes of the ordinary EP that has begun to leave */
    size_t owed;    /* zero bytes of a fill header still to send */
    uint32_t stream; /* in the upper four bits */
} c7_sender;

int c7_sender_open(c7_sender *sender, size_t tp_length, unsigned stream, size_t piece, size_t ordinary_length,
                   size_t low_length);
int c7_offer_ordinary(c7_sender *sender, c7_buffer ordinary, c7_buffer low, unsigned content, const uint8_t *sp,
                      size_t sp_length);
int c7_offer_low(c7_sender *sender, c7_buffer ordinary, c7_buffer low, unsigned content, const uint8_t *sp,
                 size_t sp_length);
int c7_draw(c7_sender *sender, c7_buffer ordinary, c7_buffer low, uint8_t *tp, size_t tp_length);

#endif
