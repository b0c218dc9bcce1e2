/* Ways in which a library could be wrong, one for each letter in the environment's LOOSE: the scribbler must notice each.
 * Linked between it and c7_receiver_next (ld's --wrap). */
#include <stdlib.h>

#include "jenugathi.h"

uint32_t __real_c7_receiver_next(c7_receiver *r, const uint8_t *tp, size_t tp_length, uint8_t *room, size_t room_length,
                                 c7_find *find);

uint32_t __wrap_c7_receiver_next(c7_receiver *r, const uint8_t *tp, size_t tp_length, uint8_t *room, size_t room_length,
                                 c7_find *find)
{
    static unsigned long calls;
    uint32_t number = __real_c7_receiver_next(r, tp, tp_length, room, room_length, find);

    switch (*getenv("LOOSE")) {
    case 'n': /* a number that it cannot give */
        return number == C7_OFFSET_DIFFERS ? C7_FILL_NOT_ZERO : number;
    case 't': /* another number than the find's */
        return number == C7_LOST_EP ? C7_LOST_LOW : number;
    case 's': /* a stretch that ends behind the room */
        find->length += find->sort == C7_ORDINARY ? room_length : 0;
        return number;
    case 'c': /* a refusal that changes the state */
        r->word[0] += number == C7_LIMITS;
        return number;
    case 'b': /* a byte written behind the room */
        room[room_length] = 0;
        return number;
    case 'r': /* a byte read before the transport packet */
        (void)((const volatile uint8_t *)tp)[-1];
        return number;
    default: /* something remembered from call to call */
        find->tp += ++calls % 5 == 0;
        return number;
    }
}
