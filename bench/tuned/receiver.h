/* The receiver: one find a call out of the transport packets lent to it. The calls are those of second/receiver.h. */
#ifndef RECEIVER_H
#define RECEIVER_H

#include "golay.h"
#include "packets.h"

typedef enum {
    C7_FIND_NONE,
    C7_FIND_LOW,      /* stretch of the TP */
    C7_FIND_ORDINARY, /* stretch of the room */
    C7_FIND_NOTICE,   /* number 6 to 16, or 21 */
    C7_FIND_REFUSED   /* number 1 */
} c7_find_sort;

/* A payload byte: the number of its TP, as the receiver counts them, and where it stands. */
typedef struct {
    uint32_t tp;
    size_t place;
} c7_place;

typedef struct {
    c7_find_sort sort;
    unsigned number; /* content of a packet, number of a notice or refusal */
    size_t start;    /* of the stretch, 0 without one */
    size_t length;
    uint32_t repaired; /* of a packet: flips in its EP headers and, if low-latency, its end byte */
    c7_place began;    /* the first EP byte of a packet, or of the EP that a notice names */
} c7_find;

/* What the next call does. */
typedef enum {
    C7_CLOSED, /* not opened */
    C7_BEGIN,  /* a new TP */
    C7_LOW,    /* low-latency part from `at` on */
    C7_OFFSET, /* low-latency part ended at `at` */
    C7_CLEAN,  /* ordinary bytes from `at` on, where an EP begins and nothing is held */
    C7_WALK,   /* ordinary bytes from `at` on */
    C7_JUDGE,  /* an EP got 14; is it still to get 16 or 15? */
    C7_DROPPED /* nothing more of this TP */
} c7_phase;

/* Read and written as one word: 0 is in step between two EPs, with nothing held. */
typedef union {
    uint64_t all;
    struct {
        uint32_t left; /* data bytes of the EP not yet read; 0 between two EPs */
        uint8_t have;  /* bytes of a cut header */
        uint8_t held;  /* content of the series held, 0 without one */
        bool keeps;    /* the EP's data go to the room */
        bool lost;     /* out of step */
    };
} c7_state;

typedef struct {
    size_t tp_length;
    size_t room_length;
    c7_phase phase;
    uint32_t stream; /* as in the first byte of a TP's first four */
    uint32_t count;  /* TPs of its length and stream since opening */
    uint32_t at;     /* next payload byte of the begun TP */
    c7_state state;
    uint32_t offset; /* that the begun TP announces */
    uint32_t upper;  /* first number of the header of the EP under way */
    uint32_t in_room;
    uint32_t repaired;
    c7_place ep; /* where the EP or the cut header began */
    c7_place sp; /* where the packet in the room began */
    uint8_t bytes[C7_EP_HEADER];
} c7_receiver;

int c7_receiver_open(c7_receiver *receiver, size_t tp_length, unsigned stream, size_t room_length);
c7_find c7_next(c7_receiver *receiver, const uint8_t *tp, size_t tp_length, uint8_t *room, size_t room_length);
void c7_gap(c7_receiver *receiver);
const uint8_t *c7_stretch(c7_find find, const uint8_t *tp, size_t tp_length, const uint8_t *room,
                          size_t room_length);

#endif
