#include "receiver.h"

/* The first four bytes of a TP as one number; bits 3 and 2 of the stream byte are not looked at. */
#define HEAD_READ 0xF3FFFFFFu
#define STREAM_BITS 0xF0000000u
enum { STREAM_AT = 28, LENGTH_BITS = 0xF };

/* The common ways of a call are in c7_next; the others are functions that end it, so that it saves few registers. */

int c7_receiver_open(c7_receiver *receiver, size_t tp_length, unsigned stream, size_t room_length)
{
    if (!c7_tp_settings_ok(tp_length, stream) || room_length > C7_ROOM_MAX)
        return C7_BAD_SETTING;
    golay_init();
    *receiver = (c7_receiver){
        .tp_length = tp_length,
        .room_length = room_length,
        .phase = C7_BEGIN,
        .stream = (uint32_t)stream << STREAM_AT,
        .state.lost = true,
    };
    return C7_DONE;
}

static inline void lose_step(c7_receiver *receiver)
{
    receiver->state = (c7_state){.lost = true};
}

void c7_gap(c7_receiver *receiver)
{
    if (receiver->phase == C7_CLOSED)
        return;
    lose_step(receiver);
    receiver->phase = C7_BEGIN;
}

static inline unsigned content_of(uint32_t upper)
{
    return upper >> 6 & 0xF;
}

static inline unsigned fragment_of(uint32_t upper)
{
    return upper >> 4 & 3;
}

static inline uint32_t size_of(golay_pair header)
{
    return (header.upper & LENGTH_BITS) << 12 | header.lower;
}

static inline c7_find found(c7_find_sort sort, unsigned number, size_t start, size_t length, uint32_t repaired,
                            uint32_t tp, size_t place)
{
    return (c7_find){sort, number, start, length, repaired, {tp, place}};
}

static inline c7_find notice(unsigned number, c7_place began)
{
    return found(C7_FIND_NOTICE, number, 0, 0, 0, began.tp, began.place);
}

/* A notice that names no EP. */
static inline c7_find notice_of_tp(const c7_receiver *receiver, unsigned number)
{
    return found(C7_FIND_NOTICE, number, 0, 0, 0, receiver->count, 0);
}

static inline c7_find end_of_tp(c7_receiver *receiver)
{
    receiver->phase = C7_BEGIN;
    return found(C7_FIND_NONE, 0, 0, 0, 0, receiver->count, 0);
}

/* Behind this notice nothing more of the TP is read. */
NOT_INLINE c7_find drop_rest(c7_receiver *receiver, unsigned number, c7_place began)
{
    lose_step(receiver);
    receiver->phase = C7_DROPPED;
    return notice(number, began);
}

static inline void count_tp(c7_receiver *receiver)
{
    receiver->count += receiver->count < UINT32_MAX;
}

NOT_INLINE c7_find wrong_lengths(const c7_receiver *receiver, size_t room_length)
{
    if (receiver->phase == C7_CLOSED || room_length != receiver->room_length)
        return found(C7_FIND_REFUSED, C7_BAD_SETTING, 0, 0, 0, receiver->count, 0);
    return notice_of_tp(receiver, C7_BAD_TP_LENGTH);
}

/* The held series is dropped, and this EP's data are passed over from the next call on. */
static inline void pass_over(c7_receiver *receiver, size_t at, uint32_t size)
{
    receiver->state = (c7_state){.left = size};
    receiver->at = (uint32_t)at;
    receiver->phase = C7_WALK;
}

/* Reads data; whether the EP has ended. */
static inline bool read_data(c7_receiver *receiver, const uint8_t *payload, size_t length, uint8_t *room, size_t *at)
{
    uint32_t left = receiver->state.left, run = (uint32_t)c7_smaller(left, length - *at);

    receiver->state.left = left - run;
    if (receiver->state.keeps) {
        uint32_t in_room = receiver->in_room;

        receiver->in_room = in_room + run;
        bytes_copy(room + in_room, payload + *at, run);
    }
    *at += run;
    return left == run;
}

/* Of a complete or a last EP. */
static inline c7_find packet_in_room(c7_receiver *receiver, size_t at)
{
    receiver->at = (uint32_t)at;
    receiver->state.all = 0;
    receiver->phase = C7_CLEAN;
    return found(C7_FIND_ORDINARY, content_of(receiver->upper), 0, receiver->in_room, receiver->repaired,
                 receiver->sp.tp, receiver->sp.place);
}

/* Begins to keep an EP that 14, 16 and 15 let pass. */
static inline void keep(c7_receiver *receiver, uint32_t upper, uint32_t flips, c7_place ep, uint32_t in_room,
                        uint32_t size)
{
    unsigned fragment = fragment_of(upper);

    if (fragment < C7_MIDDLE) {
        receiver->sp = ep;
        receiver->repaired = flips;
    } else if (flips > 0) {
        receiver->repaired = flips > UINT32_MAX - receiver->repaired ? UINT32_MAX : receiver->repaired + flips;
    }
    receiver->upper = upper;
    receiver->in_room = in_room;
    receiver->state = (c7_state){
        .left = size,
        .held = fragment == C7_FIRST || fragment == C7_MIDDLE ? (uint8_t)content_of(upper) : 0,
        .keeps = true,
    };
}

/* Ordinary bytes from a place on, whatever is under way; or, if it is given, behind a header that got 14. */
static inline c7_find walk_from(c7_receiver *receiver, const uint8_t *tp, uint8_t *room, size_t at, bool judged)
{
    const uint8_t *payload = tp + C7_TP_HEADER;
    size_t length = receiver->tp_length - C7_TP_HEADER;
    golay_pair header;
    uint32_t size, in_room;
    unsigned content;
    c7_place ep;

    if (judged) {
        header = (golay_pair){.upper = receiver->upper, .flips = receiver->repaired};
        content = content_of(header.upper);
        size = receiver->state.left;
        ep = receiver->ep;
        in_room = 0;
        goto judge;
    }
    for (;;) {
        if (receiver->state.left > 0) {
            if (!read_data(receiver, payload, length, room, &at))
                return end_of_tp(receiver);
        ended:
            if (receiver->state.keeps && receiver->state.held == 0)
                return packet_in_room(receiver, at);
        }
        if (UNLIKELY(receiver->state.have > 0 || length - at < C7_EP_HEADER)) {
            size_t have = receiver->state.have, run = c7_smaller(C7_EP_HEADER - have, length - at);

            if (have == 0)
                receiver->ep = (c7_place){receiver->count, at};
            memcpy(receiver->bytes + have, payload + at, run);
            receiver->state.have = (uint8_t)(have + run);
            if (have + run < C7_EP_HEADER)
                return end_of_tp(receiver);
            receiver->state.have = 0;
            at += run;
            ep = receiver->ep;
            if (!golay_get_pair(receiver->bytes, &header))
                return drop_rest(receiver, C7_EP_BEYOND_REPAIR, ep);
        } else {
            ep = (c7_place){receiver->count, at};
            if (UNLIKELY(!golay_get_pair(payload + at, &header)))
                return drop_rest(receiver, C7_EP_BEYOND_REPAIR, ep);
            at += C7_EP_HEADER;
        }
        size = size_of(header);
        content = content_of(header.upper);

        bool joins = content != C7_FILL && fragment_of(header.upper) >= C7_MIDDLE;

        if (UNLIKELY(receiver->state.held != (joins ? content : 0))) {
            pass_over(receiver, at, size);
            if (content != C7_FILL && !joins) {
                receiver->phase = C7_JUDGE;
                receiver->upper = header.upper;
                receiver->repaired = header.flips;
                receiver->ep = ep;
            }
            return notice(C7_SERIES_BROKEN, ep);
        }
        if (content == C7_FILL) {
            receiver->state = (c7_state){.left = size};
            continue;
        }
        in_room = joins ? receiver->in_room : 0;
    judge:
        if (UNLIKELY(content > C7_CONTENT_MAX || size > receiver->room_length - in_room)) {
            pass_over(receiver, at, size);
            return notice(content > C7_CONTENT_MAX ? C7_NOT_READABLE : C7_ROOM_FULL, ep);
        }
        keep(receiver, header.upper, header.flips, ep, in_room, size);
        if (size == 0)
            goto ended;
    }
}

NOT_INLINE c7_find walk(c7_receiver *receiver, const uint8_t *tp, uint8_t *room, size_t at)
{
    return walk_from(receiver, tp, room, at, false);
}

NOT_INLINE c7_find walk_judged(c7_receiver *receiver, const uint8_t *tp, uint8_t *room)
{
    return walk_from(receiver, tp, room, receiver->at, true);
}

/* Where the header of which a part is held says that the next EP begins, P or more if not here; false if it is
 * beyond repair. */
static bool foretold_by_cut(const c7_receiver *receiver, const uint8_t *payload, size_t length, size_t at,
                            size_t *next)
{
    size_t have = receiver->state.have, missing = C7_EP_HEADER - have;
    uint8_t bytes[C7_EP_HEADER];
    golay_pair header;

    *next = length;
    if (missing > length - at)
        return true;
    memcpy(bytes, receiver->bytes, have);
    memcpy(bytes + have, payload + at, missing);
    if (!golay_get_pair(bytes, &header))
        return false;
    *next = at + missing + size_of(header);
    return true;
}

/* Whether an offset announces what was foretold. */
static inline bool agrees(size_t next, size_t offset, size_t length)
{
    return next < length ? next == offset : offset == C7_NO_START;
}

/* The offset behind a low-latency part that ends at `at`: 10 or 21, 12, 13, or reading goes on. */
NOT_INLINE c7_find judge_offset(c7_receiver *receiver, const uint8_t *tp, uint8_t *room, size_t at)
{
    const uint8_t *payload = tp + C7_TP_HEADER;
    size_t length = receiver->tp_length - C7_TP_HEADER, offset = receiver->offset, next;
    c7_place began = {receiver->count, 0};
    unsigned number = C7_DONE;

    if (offset == C7_NO_START) {
        if (receiver->state.lost)
            return end_of_tp(receiver);
    } else if (offset >= length || offset < at) {
        return drop_rest(receiver, offset >= length ? C7_BAD_OFFSET : C7_OFFSET_IN_LOW, began);
    }
    if (!receiver->state.lost) {
        if (receiver->state.have == 0) {
            next = at + receiver->state.left;
        } else if (!foretold_by_cut(receiver, payload, length, at, &next)) {
            number = C7_EP_BEYOND_REPAIR;
            began = receiver->ep;
        }
        if (number == C7_DONE) {
            if (agrees(next, offset, length))
                return walk(receiver, tp, room, at);
            number = C7_OTHER_OFFSET;
        }
        if (offset == C7_NO_START)
            return drop_rest(receiver, number, began);
    }
    receiver->state.all = 0;
    if (number == C7_DONE)
        return walk(receiver, tp, room, offset);
    receiver->at = (uint32_t)offset;
    receiver->phase = C7_CLEAN;
    return notice(number, began);
}

/* The low-latency part from `at` on. */
static inline c7_find read_low(c7_receiver *receiver, const uint8_t *tp, uint8_t *room, size_t at)
{
    for (;;) {
        const uint8_t *ep = tp + C7_TP_HEADER + at;
        size_t rest = receiver->tp_length - C7_TP_HEADER - at;
        golay_pair header;
        uint32_t size;

        if (rest < C7_EP_HEADER + C7_END_BYTE || !golay_get_pair(ep, &header) ||
            (size = size_of(header)) > rest - C7_EP_HEADER - C7_END_BYTE ||
            golay_ones[ep[C7_EP_HEADER + size]] == END_HALF)
            return drop_rest(receiver, C7_LOW_BROKEN, (c7_place){receiver->count, at});

        uint32_t ones = golay_ones[ep[C7_EP_HEADER + size]], content = content_of(header.upper);
        size_t behind = at + C7_EP_HEADER + size + C7_END_BYTE;
        bool more = ones > END_HALF;

        if (LIKELY(content != C7_FILL)) {
            receiver->at = (uint32_t)behind;
            receiver->phase = more ? C7_LOW : C7_OFFSET;
            if (UNLIKELY(content > C7_CONTENT_MAX || fragment_of(header.upper) != C7_COMPLETE))
                return notice(C7_NOT_READABLE, (c7_place){receiver->count, at});
            return found(C7_FIND_LOW, content, C7_TP_HEADER + at + C7_EP_HEADER, size,
                         header.flips + (more ? 8 - ones : ones), receiver->count, at);
        }
        at = behind;
        if (!more)
            return judge_offset(receiver, tp, room, at);
    }
}

NOT_INLINE c7_find begin_low(c7_receiver *receiver, const uint8_t *tp, uint8_t *room)
{
    return read_low(receiver, tp, room, 0);
}

/* A TP that is not read at all: 8, 7, 9. */
NOT_INLINE c7_find refuse_tp(c7_receiver *receiver, const uint8_t *tp)
{
    if ((bytes_get4(tp) & STREAM_BITS) != receiver->stream)
        return notice_of_tp(receiver, C7_OTHER_STREAM);
    count_tp(receiver);
    lose_step(receiver);
    return notice_of_tp(receiver, (tp[0] & C7_VERSION_BITS) != 0 ? C7_BAD_VERSION : C7_TP_BEYOND_REPAIR);
}

NOT_INLINE c7_find go_on(c7_receiver *receiver, const uint8_t *tp, uint8_t *room)
{
    switch (receiver->phase) {
    case C7_OFFSET:
        return judge_offset(receiver, tp, room, receiver->at);
    case C7_JUDGE:
        return walk_judged(receiver, tp, room);
    case C7_DROPPED:
        return end_of_tp(receiver);
    case C7_CLOSED:
        return wrong_lengths(receiver, receiver->room_length);
    default:
        return walk(receiver, tp, room, receiver->at);
    }
}

c7_find c7_next(c7_receiver *receiver, const uint8_t *tp, size_t tp_length, uint8_t *room, size_t room_length)
{
    if (UNLIKELY(tp_length != receiver->tp_length || room_length != receiver->room_length))
        return wrong_lengths(receiver, room_length);

    const uint8_t *payload = tp + C7_TP_HEADER;
    size_t length = tp_length - C7_TP_HEADER, at = receiver->at;
    c7_phase phase = receiver->phase;

    if (phase == C7_BEGIN) {
        uint32_t head = bytes_get4(tp), number = head >> 12 & GOLAY_NUMBER;
        /* 0 if the header is intact; more than a syndrome if stream or version are others. */
        uint32_t differs = (head & HEAD_READ) ^ (receiver->stream | golay_code[number]);

        if (UNLIKELY(differs != 0)) {
            if (differs >= GOLAY_SIZE || (golay_fix[differs] & GOLAY_BEYOND_MARK) != 0)
                return refuse_tp(receiver, tp);
            number ^= golay_fix[differs] & GOLAY_NUMBER;
        }
        count_tp(receiver);

        uint32_t offset = number & C7_OFFSET_BITS;

        if ((number & C7_LOW_PRESENT) != 0) {
            receiver->offset = offset;
            return begin_low(receiver, tp, room);
        }
        if (receiver->state.all != 0 || offset != 0) {
            c7_state state = receiver->state;

            if (state.lost ? offset == C7_NO_START : state.have == 0 && agrees(state.left, offset, length))
                return state.lost ? end_of_tp(receiver) : walk(receiver, tp, room, 0);
            receiver->offset = offset;
            return judge_offset(receiver, tp, room, 0);
        }
        at = 0;
    } else if (phase == C7_LOW) {
        return read_low(receiver, tp, room, at);
    } else if (phase != C7_CLEAN) {
        return go_on(receiver, tp, room);
    }

    /* An EP begins here, and nothing is held. */
    for (;;) {
        const uint8_t *ep = payload + at;
        size_t rest = length - at - C7_EP_HEADER;
        golay_pair header;

        if (UNLIKELY(length - at < C7_EP_HEADER || !golay_get_pair(ep, &header)))
            return walk(receiver, tp, room, at);

        uint32_t size = size_of(header), content = content_of(header.upper);

        if (content - C7_CONTENT_MIN <= C7_CONTENT_MAX - C7_CONTENT_MIN && fragment_of(header.upper) == C7_COMPLETE &&
            size <= room_length) {
            if (UNLIKELY(size > rest)) {
                receiver->sp = (c7_place){receiver->count, at};
                receiver->upper = header.upper;
                receiver->repaired = header.flips;
                receiver->in_room = (uint32_t)rest;
                receiver->state = (c7_state){.left = size - (uint32_t)rest, .keeps = true};
                bytes_copy(room, ep + C7_EP_HEADER, rest);
                return end_of_tp(receiver);
            }
            receiver->at = (uint32_t)(at + C7_EP_HEADER + size);
            receiver->phase = C7_CLEAN;

            c7_find find = found(C7_FIND_ORDINARY, content, 0, size, header.flips, receiver->count, at);

            bytes_copy(room, ep + C7_EP_HEADER, size);
            return find;
        }
        if (content != C7_FILL)
            return walk(receiver, tp, room, at);
        if (size >= rest) {
            receiver->state = (c7_state){.left = size - (uint32_t)rest};
            return end_of_tp(receiver);
        }
        at += C7_EP_HEADER + size;
    }
}

const uint8_t *c7_stretch(c7_find find, const uint8_t *tp, size_t tp_length, const uint8_t *room, size_t room_length)
{
    const uint8_t *from = find.sort == C7_FIND_LOW ? tp : find.sort == C7_FIND_ORDINARY ? room : NULL;
    size_t length = find.sort == C7_FIND_LOW ? tp_length : room_length;

    if (from == NULL || find.start > length || find.length > length - find.start)
        return NULL;
    return from + find.start;
}
