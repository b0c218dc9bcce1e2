/* The second program's interface over libjenugathi.a. Included ahead of its sources, it shuts out their own headers, so
 * that its lists of calls and its programs are compiled over the library as they are. */
#ifndef ENDS_H
#define ENDS_H
#define RECEIVER_H
#define SENDER_H
#define CHAPTER11_H

#include <stdbool.h>
#include <stddef.h>
#include <stdint.h>

#include "packets.h"

/* Names that mean something else in include/jenugathi.h. */
#define c7_sender ends_sender
#define c7_receiver ends_receiver
#define c7_find ends_find
#define c7_sender_open ends_sender_open
#define c7_receiver_open ends_receiver_open

enum { ENDS_WORDS = 32 }; /* room for either state */

typedef struct {
    uint8_t *at;
    size_t length;
} c7_buffer;

typedef struct {
    size_t tp_length;
    uint64_t words[ENDS_WORDS];
} c7_sender;

typedef struct {
    uint64_t words[ENDS_WORDS];
} c7_receiver;

typedef enum {
    C7_FIND_NONE,
    C7_FIND_REFUSED,
    C7_FIND_NOTICE,
    C7_FIND_LOW,
    C7_FIND_ORDINARY
} c7_find_sort;

typedef struct {
    c7_find_sort sort;
    unsigned number;
    struct {
        uint64_t tp;
        size_t place;
    } began;
    size_t start, length;
    uint64_t repaired;
} c7_find;

int c7_sender_open(c7_sender *sender, size_t tp_length, unsigned stream, size_t piece,
                   size_t ordinary_length, size_t low_length);
int c7_offer_ordinary(c7_sender *sender, c7_buffer ordinary, c7_buffer low, unsigned content,
                      const uint8_t *sp, size_t sp_length);
int c7_offer_low(c7_sender *sender, c7_buffer ordinary, c7_buffer low, unsigned content,
                 const uint8_t *sp, size_t sp_length);
int c7_draw(c7_sender *sender, c7_buffer ordinary, c7_buffer low, uint8_t *tp, size_t tp_length);

int c7_receiver_open(c7_receiver *receiver, size_t tp_length, unsigned stream, size_t room_length);
c7_find c7_next(c7_receiver *receiver, const uint8_t *tp, size_t tp_length, uint8_t *room,
                size_t room_length);
void c7_gap(c7_receiver *receiver);
const uint8_t *c7_stretch(c7_find find, const uint8_t *tp, size_t tp_length, const uint8_t *room,
                          size_t room_length);

int chapter11_compose(const uint8_t *packet, size_t length, uint8_t *sp, size_t space,
                      size_t *sp_length);
int chapter11_reassemble(const uint8_t *sp, size_t length, uint8_t *packet, size_t space,
                         size_t *packet_length);

#endif
