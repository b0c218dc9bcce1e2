/* Buffers to lend, each in a page between two pages that nobody can touch: a byte read or written beyond them ends the
 * program. What a call may not change is compared with what it was. */
#ifndef GUARDED_H
#define GUARDED_H

#include <stdbool.h>
#include <stddef.h>
#include <stdint.h>

enum { LENT_MOST = 4096, UNLENT = 0x5A };

typedef struct {
    uint8_t *page, *at; /* the page, and what is lent of it */
    size_t length;
    uint8_t was[LENT_MOST]; /* what stood there before the call */
} guarded;

void guarded_make(guarded *some, size_t count);

/* Lends so many bytes at the page's end, or at its beginning. */
void guarded_lend(guarded *one, size_t length, bool at_end);

/* Whether what is lent is as it was. */
bool guarded_unchanged(const guarded *one);

/* Whether nothing was written beside what is lent. */
bool guarded_beside(const guarded *one);

#endif
