/* Chapter 11 packets as source packets, and back (000, 7.2.2.4). */
#ifndef CHAPTER11_H
#define CHAPTER11_H

#include "packets.h"

/* Composes the SP of a packet; 17 or 18 write nothing. */
int chapter11_compose(const uint8_t *packet, size_t length, uint8_t *sp, size_t space,
                      size_t *sp_length);

/* Reassembles the packet of an SP; 17 writes nothing. */
int chapter11_reassemble(const uint8_t *sp, size_t length, uint8_t *packet, size_t space,
                         size_t *packet_length);

#endif
