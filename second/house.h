/* House records: mark C7 07, kind, content, 4-byte length, data. */
#ifndef HOUSE_H
#define HOUSE_H

#include <stdint.h>
#include <stdio.h>

#include "packets.h"

enum {
    HOUSE_SETUP = 0,
    HOUSE_ORDINARY = 1,
    HOUSE_LOW = 2,
    HOUSE_DRAW = 3,
    HOUSE_TP = 4,
    HOUSE_GAP = 5
};

enum { HOUSE_HEADER = 8, HOUSE_SETUP_DATA = 5, HOUSE_DATA_MAX = 32768 };

typedef struct {
    uint8_t kind;
    uint8_t content;
    size_t length;
    uint8_t data[HOUSE_DATA_MAX];
} house_record;

typedef struct {
    size_t tp_length;
    unsigned stream;
    size_t piece; /* F, the most data bytes of an ordinary EP */
} house_setup;

/* A file of records; the kinds allowed after the setup are bits of a mask. */
typedef struct {
    FILE *file;
    unsigned kinds;
    unsigned long long at;   /* of the record read last */
    unsigned long long next; /* of the record to come */
    const char *wrong;       /* what stopped the reading, if anything did */
    bool cut;                /* the input ends inside a record */
} house_input;

house_input house_open(FILE *file, unsigned kinds);

/* The setup that must come first; false at what stops the reading, be it the end. */
bool house_read_setup(house_input *input, house_record *record, house_setup *setup);

/* A record after the setup; false at the end or at what stops the reading. */
bool house_read(house_input *input, house_record *record);

/* Writes a record; false if the file takes no more. */
bool house_write(FILE *file, uint8_t kind, uint8_t content, const uint8_t *data, size_t length);

#endif
