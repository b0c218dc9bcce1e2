/* Calls on the library that are looked at from all sides: each must give a number that it may give, touch nothing that it
 * may not, and do the same if it is made again. */
#ifndef CHECKED_H
#define CHECKED_H

#include "jenugathi.h"

#include "guarded.h"

enum { STATE, FIND, LOW, ORDINARY, TP, ROOM, PACKET, OUT, WRITTEN, LENT };
enum { NEXT, GAP, OFFER, OFFER_LOW, DRAW, COMPOSE, REASSEMBLE, CALLS };

/* What the calls are lent, and the content that is offered. */
extern guarded lent[LENT];
extern uint32_t content;

/* Tells and counts what is wrong. */
void check(bool fine, int call, const char *what);

/* Makes a call with what is lent; gives its number. */
uint32_t checked(int call);

/* Prints what was called and what it came to; false if anything was wrong. */
bool print_checked(void);

#endif
