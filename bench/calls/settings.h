/* What the driver lends to a side's ends at every call. */
#ifndef SETTINGS_H
#define SETTINGS_H

#include <stdbool.h>
#include <stddef.h>
#include <stdint.h>

typedef struct {
    size_t tp_length, piece;
    unsigned stream;
    uint8_t *ordinary, *low, *room;
    size_t queue_length, room_length;
} settings;

#endif
