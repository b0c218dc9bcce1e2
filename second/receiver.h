/* The receiver: one find a call out of the transport packets lent to it. */
#ifndef RECEIVER_H
#define RECEIVER_H

#include "packets.h"

typedef enum {
    C7_FIND_NONE,
    C7_FIND_LOW,      /* stretch of the TP */
    C7_FIND_ORDINARY, /* stretch of the room */
    C7_FIND_NOTICE,   /* number 6 to 16, or 21 */
    C7_FIND_REFUSED   /* number 1 */
} c7_find_sort;

/* A payload byte: the number of its TP, as the receiver counts them, and where it stands. */
typedef struct {
    uint32_t tp;
    size_t place;
} c7_place;

typedef struct {
    c7_find_sort sort;
    unsigned number; /* content of a packet, number of a notice or refusal */
    c7_place began;  /* the first EP byte of a packet, or of the EP that a notice names */
    size_t start;    /* of the stretch, 0 without one */
    size_t length;
    uint32_t repaired; /* of a packet: flips in its EP headers and, if low-latency, its end byte */
} c7_find;

/* How far the begun TP has been read. */
typedef enum {
    C7_TP_NONE, /* the next call begins a TP */
    C7_TP_LOW,
    C7_TP_OFFSET,
    C7_TP_ORDINARY,
    C7_TP_DROPPED
} c7_tp_phase;

/* What the next ordinary byte belongs to. */
typedef enum {
    C7_EP_BEGIN,  /* a header, of which `have` bytes are known */
    C7_EP_SERIES, /* header whole, 14 not yet checked */
    C7_EP_ROOM,   /* 14 checked, 16 and 15 not yet */
    C7_EP_COPY,   /* data of an SP */
    C7_EP_PASS    /* data of no use */
} c7_ep_phase;

typedef struct {
    size_t tp_length; /* 0: not opened */
    size_t room_length;
    uint8_t stream;

    uint32_t count; /* TPs of this length and stream since opening */

    bool in_step;
    c7_ep_phase ep;
    c7_place ep_began; /* first byte of the unfinished EP, its header included */
    size_t have; /* of its header's bytes */
    uint8_t bytes[C7_EP_HEADER];
    c7_ep_header header;
    size_t left;    /* data bytes of the EP not yet read */
    size_t in_room; /* bytes of the SP in work or held */
    c7_place sp_began; /* first byte of its first EP */
    uint32_t repaired; /* flips in its EP headers */
    bool held;
    uint8_t held_content;

    c7_tp_phase tp;
    size_t at;     /* next payload byte of the begun TP */
    size_t offset; /* that the begun TP announces */
} c7_receiver;

/* C7_DONE or C7_BAD_SETTING, which leaves *receiver as it was. */
int c7_receiver_open(c7_receiver *receiver, size_t tp_length, unsigned stream,
                     size_t room_length);

/* The next find of the begun TP, or the first of a new one. */
c7_find c7_next(c7_receiver *receiver, const uint8_t *tp, size_t tp_length, uint8_t *room,
                size_t room_length);

/* Bytes were lost here: ends a begun TP and step. */
void c7_gap(c7_receiver *receiver);

/* Where the held series began, else the unfinished EP, if there is one. */
bool c7_unfinished(const c7_receiver *receiver, c7_place *began);

/* First byte of a packet's stretch in what was lent; NULL for a find without one. */
const uint8_t *c7_stretch(c7_find find, const uint8_t *tp, size_t tp_length, const uint8_t *room,
                          size_t room_length);

#endif
