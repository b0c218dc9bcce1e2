#include "receiver.h"

#include <string.h>

static const c7_find none = {.sort = C7_FIND_NONE};

static c7_find notice(unsigned number, c7_place began)
{
    return (c7_find){.sort = C7_FIND_NOTICE, .number = number, .began = began};
}

static bool is_find(c7_find find)
{
    return find.sort != C7_FIND_NONE;
}

static size_t payload_length(const c7_receiver *receiver)
{
    return receiver->tp_length - C7_TP_HEADER;
}

/* What a find carries that names no EP. */
static c7_place count_and_0(const c7_receiver *receiver)
{
    return (c7_place){.tp = receiver->count, .place = 0};
}

/* The next payload byte of the begun TP. */
static c7_place here(const c7_receiver *receiver)
{
    return (c7_place){.tp = receiver->count, .place = receiver->at};
}

int c7_receiver_open(c7_receiver *receiver, size_t tp_length, unsigned stream,
                     size_t room_length)
{
    if (!c7_tp_settings_ok(tp_length, stream) || room_length > C7_ROOM_MAX)
        return C7_BAD_SETTING;
    golay_init();
    *receiver = (c7_receiver){
        .tp_length = tp_length,
        .room_length = room_length,
        .stream = (uint8_t)stream,
        .ep = C7_EP_BEGIN,
        .tp = C7_TP_NONE,
    };
    return C7_DONE;
}

static void drop_held(c7_receiver *receiver)
{
    receiver->held = false;
    receiver->in_room = 0;
    receiver->repaired = 0;
}

static void begin_ep(c7_receiver *receiver)
{
    receiver->ep = C7_EP_BEGIN;
    receiver->have = 0;
    receiver->left = 0;
}

static void lose_step(c7_receiver *receiver)
{
    receiver->in_step = false;
    begin_ep(receiver);
    drop_held(receiver);
}

/* Starts reading where the TP says that an EP begins, if one does. */
static void resume(c7_receiver *receiver)
{
    if (receiver->offset == C7_NO_START) {
        receiver->tp = C7_TP_DROPPED;
        return;
    }
    receiver->in_step = true;
    receiver->at = receiver->offset;
    receiver->tp = C7_TP_ORDINARY;
}

static bool reserved(uint8_t content)
{
    return content > C7_CONTENT_MAX;
}

/* The TP header: 8, 7, 9. */
static c7_find begin_tp(c7_receiver *receiver, const uint8_t *tp)
{
    uint32_t word;

    if (tp[0] >> 4 != receiver->stream)
        return notice(C7_OTHER_STREAM, count_and_0(receiver));
    /* The count stays at its largest number. */
    if (receiver->count < UINT32_MAX)
        receiver->count++;
    if ((tp[0] & C7_VERSION_BITS) != 0) {
        lose_step(receiver);
        return notice(C7_BAD_VERSION, count_and_0(receiver));
    }
    if (golay_decode(golay_word(tp + 1), &word) == GOLAY_BEYOND) {
        lose_step(receiver);
        return notice(C7_TP_BEYOND_REPAIR, count_and_0(receiver));
    }
    receiver->at = 0;
    receiver->offset = word & C7_OFFSET_BITS;
    receiver->tp = (word & C7_LOW_PRESENT) != 0 ? C7_TP_LOW : C7_TP_OFFSET;
    return none;
}

/* One LLEP and its end byte. */
static c7_find read_low(c7_receiver *receiver, const uint8_t *payload)
{
    size_t at = receiver->at;
    size_t rest = payload_length(receiver) - at;
    c7_place began = here(receiver);
    c7_ep_header header;
    int end = END_BEYOND;

    if (rest >= C7_EP_HEADER + C7_END_BYTE && c7_get_ep_header(payload + at, &header) &&
        (size_t)header.length + C7_EP_HEADER + C7_END_BYTE <= rest)
        end = golay_end(payload[at + C7_EP_HEADER + header.length]);
    if (end == END_BEYOND) {
        lose_step(receiver);
        receiver->tp = C7_TP_DROPPED;
        return notice(C7_LOW_BROKEN, began);
    }
    receiver->at = at + C7_EP_HEADER + header.length + C7_END_BYTE;
    if (end == END_LAST)
        receiver->tp = C7_TP_OFFSET;
    if (header.content == C7_FILL)
        return none;
    if (reserved(header.content) || header.fragment != C7_COMPLETE)
        return notice(C7_NOT_READABLE, began);
    return (c7_find){
        .sort = C7_FIND_LOW,
        .number = header.content,
        .began = began,
        .start = C7_TP_HEADER + at + C7_EP_HEADER,
        .length = header.length,
        .repaired = header.repaired + golay_end_flips(payload[receiver->at - C7_END_BYTE], end),
    };
}

/* Where the next EP must begin in this payload; false if its cut header is beyond repair. */
static bool foretell(const c7_receiver *receiver, const uint8_t *payload, size_t *start)
{
    size_t length = payload_length(receiver);
    size_t next = receiver->at;

    *start = C7_NO_START;
    if (receiver->ep != C7_EP_BEGIN) {
        next += receiver->left;
    } else if (receiver->have > 0) {
        uint8_t bytes[C7_EP_HEADER];
        size_t missing = C7_EP_HEADER - receiver->have;
        c7_ep_header header;

        if (missing > length - next)
            return true;
        memcpy(bytes, receiver->bytes, receiver->have);
        memcpy(bytes + receiver->have, payload + next, missing);
        if (!c7_get_ep_header(bytes, &header))
            return false;
        next += missing + header.length;
    }
    if (next < length)
        *start = next;
    return true;
}

/* An offset that no payload with this low-latency part can have: 10 or 21. */
static unsigned offset_fault(const c7_receiver *receiver)
{
    if (receiver->offset == C7_NO_START)
        return C7_DONE;
    if (receiver->offset >= payload_length(receiver))
        return C7_BAD_OFFSET;
    return receiver->offset < receiver->at ? C7_OFFSET_IN_LOW : C7_DONE;
}

/* 10 or 21, then 12 for a cut header, then 13. */
static c7_find judge_offset(c7_receiver *receiver, const uint8_t *payload)
{
    unsigned number = offset_fault(receiver);
    c7_place began = count_and_0(receiver);
    size_t start;

    if (number != C7_DONE) {
        lose_step(receiver);
        receiver->tp = C7_TP_DROPPED;
        return notice(number, began);
    }
    if (receiver->in_step) {
        if (!foretell(receiver, payload, &start)) {
            number = C7_EP_BEYOND_REPAIR;
            began = receiver->ep_began;
        } else if (start != receiver->offset)
            number = C7_OTHER_OFFSET;
        if (number == C7_DONE) {
            receiver->tp = C7_TP_ORDINARY;
            return none;
        }
        lose_step(receiver);
    }
    resume(receiver);
    return number == C7_DONE ? none : notice(number, began);
}

/* Adds header bytes; 12 if they are whole and beyond repair. */
static c7_find read_header(c7_receiver *receiver, const uint8_t *payload)
{
    size_t run =
        c7_smaller(C7_EP_HEADER - receiver->have, payload_length(receiver) - receiver->at);

    if (receiver->have == 0)
        receiver->ep_began = here(receiver);
    memcpy(receiver->bytes + receiver->have, payload + receiver->at, run);
    receiver->have += run;
    receiver->at += run;
    if (receiver->have < C7_EP_HEADER)
        return none;
    /* A header cut by a TP end was found good by the forecast. */
    if (!c7_get_ep_header(receiver->bytes, &receiver->header)) {
        lose_step(receiver);
        receiver->tp = C7_TP_DROPPED;
        return notice(C7_EP_BEYOND_REPAIR, receiver->ep_began);
    }
    receiver->left = receiver->header.length;
    receiver->ep = C7_EP_SERIES;
    return none;
}

/* 14: does the EP suit what is held? */
static c7_find judge_series(c7_receiver *receiver)
{
    c7_ep_header header = receiver->header;
    bool fill = header.content == C7_FILL;
    bool joins = !fill && header.fragment >= C7_MIDDLE;
    bool suits = joins ? receiver->held && receiver->held_content == header.content
                       : !receiver->held;

    receiver->ep = fill || (joins && !suits) ? C7_EP_PASS : C7_EP_ROOM;
    if (suits)
        return none;
    drop_held(receiver);
    return notice(C7_SERIES_BROKEN, receiver->ep_began);
}

/* 16, then 15. */
static c7_find judge_room(c7_receiver *receiver)
{
    c7_ep_header header = receiver->header;

    if (reserved(header.content)) {
        receiver->ep = C7_EP_PASS;
        return notice(C7_NOT_READABLE, receiver->ep_began);
    }
    if (receiver->in_room + header.length > receiver->room_length) {
        drop_held(receiver);
        receiver->ep = C7_EP_PASS;
        return notice(C7_ROOM_FULL, receiver->ep_began);
    }
    receiver->ep = C7_EP_COPY;
    if (!receiver->held)
        receiver->sp_began = receiver->ep_began;
    /* The total stays at its largest number. */
    if (receiver->repaired > UINT32_MAX - header.repaired)
        receiver->repaired = UINT32_MAX;
    else
        receiver->repaired += header.repaired;
    return none;
}

/* Reads data; the packet if its last byte was among them. */
static c7_find read_data(c7_receiver *receiver, const uint8_t *payload, uint8_t *room)
{
    size_t run = c7_smaller(receiver->left, payload_length(receiver) - receiver->at);
    bool copy = receiver->ep == C7_EP_COPY;
    c7_ep_header header = receiver->header;

    /* A room of no bytes may have no address. */
    if (copy && run > 0) {
        memcpy(room + receiver->in_room, payload + receiver->at, run);
        receiver->in_room += run;
    }
    receiver->at += run;
    receiver->left -= run;
    if (receiver->left > 0)
        return none;
    begin_ep(receiver);
    if (!copy)
        return none;
    if (header.fragment == C7_FIRST || header.fragment == C7_MIDDLE) {
        receiver->held = true;
        receiver->held_content = header.content;
        return none;
    }

    c7_find packet = {
        .sort = C7_FIND_ORDINARY,
        .number = header.content,
        .began = receiver->sp_began,
        .length = receiver->in_room,
        .repaired = receiver->repaired,
    };

    drop_held(receiver);
    return packet;
}

/* Ordinary bytes up to the next find or the payload's end. */
static c7_find read_ordinary(c7_receiver *receiver, const uint8_t *payload, uint8_t *room)
{
    size_t length = payload_length(receiver);

    for (;;) {
        c7_find find = none;

        switch (receiver->ep) {
        case C7_EP_BEGIN:
            if (receiver->at == length)
                return none;
            find = read_header(receiver, payload);
            break;
        case C7_EP_SERIES:
            find = judge_series(receiver);
            break;
        case C7_EP_ROOM:
            find = judge_room(receiver);
            break;
        case C7_EP_COPY:
        case C7_EP_PASS:
            /* An EP without data ends here even at the payload's end. */
            if (receiver->at == length && receiver->left > 0)
                return none;
            find = read_data(receiver, payload, room);
            break;
        }
        if (is_find(find))
            return find;
    }
}

/* The next find of a TP of the right length. */
static c7_find find_next(c7_receiver *receiver, const uint8_t *tp, uint8_t *room)
{
    const uint8_t *payload = tp + C7_TP_HEADER;
    c7_find find;

    if (receiver->tp == C7_TP_NONE && is_find(find = begin_tp(receiver, tp)))
        return find;
    while (receiver->tp == C7_TP_LOW)
        if (is_find(find = read_low(receiver, payload)))
            return find;
    if (receiver->tp == C7_TP_OFFSET && is_find(find = judge_offset(receiver, payload)))
        return find;
    if (receiver->tp == C7_TP_ORDINARY && is_find(find = read_ordinary(receiver, payload, room)))
        return find;
    receiver->tp = C7_TP_NONE;
    return none;
}

c7_find c7_next(c7_receiver *receiver, const uint8_t *tp, size_t tp_length, uint8_t *room,
                size_t room_length)
{
    c7_place before = count_and_0(receiver);

    if (receiver->tp_length == 0 || room_length != receiver->room_length)
        return (c7_find){.sort = C7_FIND_REFUSED, .number = C7_BAD_SETTING, .began = before};
    if (tp_length != receiver->tp_length)
        return notice(C7_BAD_TP_LENGTH, before);

    c7_find find = find_next(receiver, tp, room);

    if (!is_find(find))
        find.began = count_and_0(receiver);
    return find;
}

void c7_gap(c7_receiver *receiver)
{
    lose_step(receiver);
    receiver->tp = C7_TP_NONE;
}

bool c7_unfinished(const c7_receiver *receiver, c7_place *began)
{
    *began = receiver->held ? receiver->sp_began : receiver->ep_began;
    return receiver->held || receiver->have > 0;
}

const uint8_t *c7_stretch(c7_find find, const uint8_t *tp, size_t tp_length, const uint8_t *room,
                          size_t room_length)
{
    const uint8_t *from;
    size_t length;

    switch (find.sort) {
    case C7_FIND_LOW:
        from = tp;
        length = tp_length;
        break;
    case C7_FIND_ORDINARY:
        from = room;
        length = room_length;
        break;
    default:
        return NULL;
    }
    /* A find of other buffers names nothing in these. */
    if (find.start > length || find.length > length - find.start)
        return NULL;
    return from == NULL ? NULL : from + find.start;
}
