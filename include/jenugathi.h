/* Jenugathi: both ends of the IRIG 106 Chapter 7 packet telemetry link, for C11 and C++. Link libjenugathi.a (x86-64).
 *
 * Ownership. The caller owns everything: states, finds and buffers. The library keeps no pointer between two calls and
 *   has no globals, no heap, no locks and no system calls.
 * States. A sender or a receiver is a row of words. It may be copied, stored and compared; only its opening gives one.
 *   A call on words that are no sound state gives C7_LIMITS and changes nothing: no crash and no byte written elsewhere.
 * Buffers. Each call is lent the buffers of the opening, with the same lengths, else it gives C7_LIMITS. They may lie
 *   elsewhere, if their bytes were copied. A buffer of length 0 may be NULL; states, finds and `written` may not.
 * Aliasing. Nothing that is lent to one call may overlap.
 * Threads. Calls on different states run at the same time. A state and its buffers: one thread at a time.
 * Numbers. A call gives C7_DONE or one of c7_number; c7_text tells it in words. A call that refuses changes nothing that
 *   it was lent, but for the find, unless its number says more (docs/NOTICES.md). */
#ifndef JENUGATHI_H
#define JENUGATHI_H

#include <stddef.h>
#include <stdint.h>

#ifdef __cplusplus
#define C7_ASSERT static_assert
extern "C" {
#else
#define C7_ASSERT _Static_assert
#endif

enum { C7_SENDER_WORDS = 11, C7_RECEIVER_WORDS = 23, C7_FIND_WORDS = 7 };

typedef struct {
    uint64_t word[C7_SENDER_WORDS];
} c7_sender;

typedef struct {
    uint64_t word[C7_RECEIVER_WORDS];
} c7_receiver;

/* One find of the receiver. */
typedef struct {
    uint64_t sort;     /* one of c7_sort */
    uint64_t what;     /* the content of a packet, the number of a notice or refusal */
    uint64_t start;    /* of a packet: its first byte, in the transport packet (C7_LOW) or in the room (C7_ORDINARY) */
    uint64_t length;   /* of a packet, in bytes */
    uint64_t repaired; /* of a packet: flipped bits in its headers, and in its end byte if low-latency */
    uint64_t tp;       /* where it began: the transport packet, as the receiver counts them from 1, */
    uint64_t place;    /*   and the payload byte in it, from 0 */
} c7_find;

C7_ASSERT(sizeof(size_t) == 8 && sizeof(void *) == 8, "libjenugathi.a is for x86-64");
C7_ASSERT(sizeof(c7_sender) == 8 * C7_SENDER_WORDS, "a sender is its words");
C7_ASSERT(sizeof(c7_receiver) == 8 * C7_RECEIVER_WORDS, "a receiver is its words");
C7_ASSERT(sizeof(c7_find) == 8 * C7_FIND_WORDS, "a find is its words");

enum c7_sort { C7_NOTHING, C7_REFUSED, C7_NOTICE, C7_LOW, C7_ORDINARY };

/* Contents of packets; 0 is fill, which is never handed out, and 7 to 15 are reserved. */
enum c7_content {
    C7_APPLICATION = 1,
    C7_TEST_COUNTER,
    C7_CHAPTER_11,
    C7_MAC_FRAME,
    C7_IP,
    C7_TMNS_MESSAGE
};

/* The numbers of documents 01 and 02. */
enum c7_number {
    C7_DONE = 0,
    C7_LIMITS = 1,
    C7_WRONG_CONTENT = 2,
    C7_TOO_LONG = 3,
    C7_QUEUE_FULL = 4,
    C7_WRONG_DRAW = 5,
    C7_WRONG_LENGTH = 6,
    C7_WRONG_VERSION = 7,
    C7_WRONG_STREAM = 8,
    C7_LOST_TP = 9,
    C7_OFFSET_BEYOND = 10,
    C7_LOST_LOW = 11,
    C7_LOST_EP = 12,
    C7_OFFSET_DIFFERS = 13,
    C7_SERIES_BROKEN = 14,
    C7_ROOM_FULL = 15,
    C7_RESERVED = 16,
    C7_NO_CHAPTER_11 = 17,
    C7_FILL_NOT_ZERO = 18,
    C7_OFFSET_IN_LOW = 21
};

/* The longest buffers, and what an opening allows of the rest. */
enum {
    C7_TP_LEAST = 16,
    C7_TP_MOST = 2051,
    C7_STREAM_MOST = 15,
    C7_PIECE_MOST = 65535,
    C7_QUEUE_MOST = 1048576,
    C7_ROOM_MOST = 131072,
    C7_PACKET_MOST = 131072
};

/* Of this interface: 1. */
uint32_t c7_version(void);

/* ---- the sender ---- */

/* Opens a sender: transport packets of tp_length bytes, ordinary packets cut into pieces of `piece` bytes. Of the queues
 * only the lengths are looked at. Gives C7_DONE or C7_LIMITS. */
uint32_t c7_sender_open(c7_sender *s, size_t tp_length, uint32_t stream, size_t piece, const uint8_t *low,
                        size_t low_length, const uint8_t *ordinary, size_t ordinary_length);

/* Queues a packet; sp is copied. Gives C7_DONE, C7_LIMITS, C7_WRONG_CONTENT, C7_TOO_LONG or C7_QUEUE_FULL. */
uint32_t c7_sender_offer(c7_sender *s, const uint8_t *low, size_t low_length, uint8_t *ordinary,
                         size_t ordinary_length, uint32_t content, const uint8_t *sp, size_t sp_length);

/* Queues a low-latency packet, at most tp_length - 11 bytes; it leaves before all ordinary ones. Same numbers. */
uint32_t c7_sender_offer_low(c7_sender *s, uint8_t *low, size_t low_length, const uint8_t *ordinary,
                             size_t ordinary_length, uint32_t content, const uint8_t *sp, size_t sp_length);

/* Writes the next transport packet into tp, with fill where nothing is queued. Gives C7_DONE, C7_LIMITS or
 * C7_WRONG_DRAW. */
uint32_t c7_sender_draw(c7_sender *s, const uint8_t *low, size_t low_length, const uint8_t *ordinary,
                        size_t ordinary_length, uint8_t *tp, size_t tp_length);

/* ---- the receiver ---- */

/* Opens a receiver, out of step; ordinary packets will be put together in the room, of which only the length is looked
 * at. Gives C7_DONE or C7_LIMITS. */
uint32_t c7_receiver_open(c7_receiver *r, size_t tp_length, uint32_t stream, const uint8_t *room, size_t room_length);

/* The next find in a transport packet: lend the same bytes again while c7_goes_on(find). An ordinary packet stands in
 * the room until the next call. Gives the number of a notice or refusal, else C7_DONE. */
uint32_t c7_receiver_next(c7_receiver *r, const uint8_t *tp, size_t tp_length, uint8_t *room, size_t room_length,
                          c7_find *find);

/* Tells that transport packets are missing here; what was unfinished is dropped. Gives C7_DONE or C7_LIMITS. */
uint32_t c7_receiver_gap(c7_receiver *r);

/* ---- Chapter 11 packets ---- */

/* The source packet (content C7_CHAPTER_11) of a Chapter 11 packet, into out, and its length into *written. Gives C7_DONE,
 * C7_NO_CHAPTER_11 or C7_FILL_NOT_ZERO. */
uint32_t c7_compose(const uint8_t *packet, size_t packet_length, uint8_t *out, size_t out_length, uint64_t *written);

/* And back. Gives C7_DONE or C7_NO_CHAPTER_11. */
uint32_t c7_reassemble(const uint8_t *sp, size_t sp_length, uint8_t *out, size_t out_length, uint64_t *written);

/* ---- what callers write again and again ---- */

/* Whether the same transport packet must be lent again: it has more to give, or has yet to say that it has not. */
static inline int c7_goes_on(const c7_find *find)
{
    return find->sort == C7_LOW || find->sort == C7_ORDINARY || (find->sort == C7_NOTICE && find->what > C7_LOST_TP);
}

/* The first byte of a packet that was found, in what was lent; NULL if the find is no packet. */
static inline const uint8_t *c7_packet(const c7_find *find, const uint8_t *tp, const uint8_t *room)
{
    return find->sort == C7_LOW ? tp + find->start : find->sort == C7_ORDINARY ? room + find->start : NULL;
}

/* A number in words, for people. */
static inline const char *c7_text(uint32_t number)
{
    switch (number) {
    case C7_DONE: return "done";
    case C7_LIMITS: return "a setting or buffer outside its limits or of another length than at opening, or no sound state";
    case C7_WRONG_CONTENT: return "a content other than 1 to 6";
    case C7_TOO_LONG: return "a packet too long for its sort";
    case C7_QUEUE_FULL: return "no room in the queue";
    case C7_WRONG_DRAW: return "a buffer for a draw that is not as long as a transport packet";
    case C7_WRONG_LENGTH: return "a transport packet of another length";
    case C7_WRONG_VERSION: return "a version other than 0; the transport packet is dropped";
    case C7_WRONG_STREAM: return "a transport packet of another stream";
    case C7_LOST_TP: return "the transport packet's Golay word is beyond repair; it is dropped";
    case C7_OFFSET_BEYOND: return "the offset lies behind the payload's end; the ordinary bytes are dropped";
    case C7_LOST_LOW: return "a low-latency packet is broken; the rest of the transport packet is dropped";
    case C7_LOST_EP: return "a packet's header is beyond repair; what follows is lost up to the next offset";
    case C7_OFFSET_DIFFERS: return "the offset is not where the packet before must end; the unfinished packet is lost";
    case C7_SERIES_BROKEN: return "a piece without its beginning, or another packet among pieces; the pieces are lost";
    case C7_ROOM_FULL: return "a packet longer than the room; it is dropped";
    case C7_RESERVED: return "a reserved content, or a low-latency packet in pieces; it is passed over";
    case C7_NO_CHAPTER_11: return "no whole Chapter 11 packet, or no room for the result";
    case C7_FILL_NOT_ZERO: return "fill that would be cut is not zero";
    case C7_OFFSET_IN_LOW: return "the offset points into the low-latency part; the ordinary bytes are dropped";
    default: return "no number of this library";
    }
}

#ifdef __cplusplus
}
#endif

#undef C7_ASSERT

#endif
