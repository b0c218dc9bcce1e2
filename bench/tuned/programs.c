/* c7send and c7list over the two ends: records taken in place out of one block of input, TPs drawn and lines written
 * right into one block of output. */
#include <errno.h>
#include <stdio.h>
#include <stdlib.h>
#include <unistd.h>

#include "commands.h"
#include "receiver.h"
#include "sender.h"

enum { SETUP, ORDINARY, LOW, DRAW, TP, GAP };
enum { HEAD = 8, SETUP_DATA = 5, DATA_MAX = 32768, BUFFER = 32768 };
enum { INPUT = 1 << 18, OUTPUT = 1 << 16, OUTPUT_MOST = 4096 /* that one draw or find adds */ };

/* The first half of a record's header. */
#define KIND(kind) (0xC7070000u | (uint32_t)(kind) << 8)

static uint8_t ordinary_queue[BUFFER], low_queue[BUFFER], room[BUFFER];

/* ---- output ---- */

static uint8_t output[OUTPUT + OUTPUT_MOST];
static size_t written;
static bool output_failed;

static void write_out(void)
{
    for (size_t done = 0; done < written && !output_failed;) {
        ssize_t now = write(STDOUT_FILENO, output + done, written - done);

        if (now > 0)
            done += (size_t)now;
        else if (now == 0 || errno != EINTR)
            output_failed = true;
    }
    written = 0;
}

/* ---- input ---- */

static uint8_t input[INPUT];
static size_t from, to;          /* what is read and not yet used */
static unsigned long long before; /* input bytes before input[0] */
static bool ended, input_failed;

/* Whether so many bytes are there, or could be read. */
static bool read_more(size_t wanted)
{
    memmove(input, input + from, to - from);
    before += from;
    to -= from;
    from = 0;
    while (to < wanted && !ended) {
        ssize_t now = read(STDIN_FILENO, input + to, INPUT - to);

        if (now > 0) {
            to += (size_t)now;
        } else if (now == 0) {
            ended = true;
        } else if (errno != EINTR) {
            ended = input_failed = true;
        }
    }
    return to >= wanted;
}

static inline bool has(size_t wanted)
{
    return LIKELY(to - from >= wanted) || read_more(wanted);
}

/* ---- records ---- */

static const char *program, *wrong;

static bool stop(const char *why)
{
    wrong = why;
    return false;
}

/* What is wrong with a record's header, NULL if nothing is. */
static const char *fault_of(uint64_t head, unsigned kinds)
{
    unsigned kind = head >> 40 & 0xFF, content = head >> 32 & 0xFF;
    uint32_t length = (uint32_t)head;

    if (head >> 48 != KIND(0) >> 16)
        return "the mark C7 07 is missing";
    if (kind > GAP || (kinds >> kind & 1) == 0)
        return "this kind does not belong here";
    if (content != 0 && kind != ORDINARY && kind != LOW)
        return "content must be 0 in this kind";
    if (kind == SETUP && length != SETUP_DATA)
        return "a setup holds 5 bytes";
    if ((kind == DRAW || kind == GAP) && length != 0)
        return "this kind holds no data";
    return length <= DATA_MAX ? NULL : "more than 32768 data bytes";
}

/* The header of the next record, whose data are there as well; false at the end or at what stops the reading. */
NOT_INLINE bool read_record(unsigned kinds, uint64_t *head)
{
    if (!has(HEAD))
        return to == from ? false : stop("the input ends inside the header");
    *head = bytes_get8(input + from);

    const char *fault = fault_of(*head, kinds);

    if (UNLIKELY(fault != NULL))
        return stop(fault);
    if (UNLIKELY(!has(HEAD + (uint32_t)*head)))
        return stop("the input ends inside the data");
    return true;
}

typedef struct {
    size_t tp_length, piece;
    unsigned stream;
} settings;

static bool read_setup(settings *setup)
{
    uint64_t head;

    if (!read_record(1 << SETUP, &head))
        return wrong != NULL ? false : stop("no setup record");

    const uint8_t *data = input + from + HEAD;

    setup->tp_length = (size_t)data[0] << 8 | data[1];
    setup->stream = data[2];
    setup->piece = (size_t)data[3] << 8 | data[4];
    if (!c7_tp_settings_ok(setup->tp_length, setup->stream) || setup->piece < C7_PIECE_MIN)
        return stop("a setting is outside its limits");
    return true;
}

static int finish(void)
{
    write_out();
    if (output_failed)
        fprintf(stderr, "%s: cannot write\n", program);
    else if (input_failed)
        fprintf(stderr, "%s: cannot read\n", program);
    else if (wrong != NULL)
        fprintf(stderr, "%s: record at byte %llu: %s\n", program, before + from, wrong);
    else
        return EXIT_SUCCESS;
    return EXIT_FAILURE;
}

/* ---- sending ---- */

NOT_INLINE void tell_refused(int number)
{
    fprintf(stderr, "%s: record at byte %llu: refused %d\n", program, before + from, number);
}

static void send_records(c7_sender *sender)
{
    const c7_buffer ordinary = {ordinary_queue, BUFFER}, low = {low_queue, BUFFER};
    const size_t tp_length = sender->tp_length;
    const uint64_t tp_head = (uint64_t)KIND(TP) << 32 | tp_length;

    for (;;) {
        uint64_t head = 0;
        int number;

        if (LIKELY(to - from >= HEAD))
            head = bytes_get8(input + from);
        if (head == (uint64_t)KIND(DRAW) << 32) {
            bytes_put8(output + written, tp_head);
            number = c7_draw(sender, ordinary, low, output + written + HEAD, tp_length);
            if (LIKELY(number == C7_DONE))
                written += HEAD + tp_length;
            if (UNLIKELY(written >= OUTPUT)) {
                write_out();
                if (output_failed)
                    return;
            }
        } else {
            uint32_t sort = head >> 40;

            /* What isn't plainly an offer is looked at closely. */
            if (UNLIKELY((sort != KIND(ORDINARY) >> 8 && sort != KIND(LOW) >> 8) || (uint32_t)head > DATA_MAX ||
                         to - from < HEAD + (uint32_t)head)) {
                if (!read_record(1 << ORDINARY | 1 << LOW | 1 << DRAW, &head))
                    return;
                if ((sort = head >> 40) == KIND(DRAW) >> 8)
                    continue;
            }

            unsigned content = head >> 32 & 0xFF;
            const uint8_t *data = input + from + HEAD;
            size_t length = (uint32_t)head;

            number = sort == KIND(ORDINARY) >> 8
                         ? c7_offer_ordinary(sender, ordinary, low, content, data, length)
                         : c7_offer_low(sender, ordinary, low, content, data, length);
        }
        if (UNLIKELY(number != C7_DONE))
            tell_refused(number);
        from += HEAD + (uint32_t)head;
    }
}

int command_send(void)
{
    settings setup;
    c7_sender sender;

    program = "c7send";
    if (read_setup(&setup) && c7_sender_open(&sender, setup.tp_length, setup.stream, setup.piece, BUFFER, BUFFER) ==
                                  C7_DONE) {
        memcpy(output, input + from, HEAD + SETUP_DATA);
        written = HEAD + SETUP_DATA;
        from += HEAD + SETUP_DATA;
        send_records(&sender);
    }
    return finish();
}

/* ---- listing ---- */

/* The TP's number and a space, as each of its lines begins. */
enum { LINE_START = 24 };
static uint8_t line_start[LINE_START] = "0 ";
static size_t digits = 1;

static inline void count_tp(void)
{
    size_t at = digits - 1;

    while (UNLIKELY(line_start[at] == '9') && at > 0)
        line_start[at--] = '0';
    if (UNLIKELY(line_start[at] == '9')) {
        line_start[at] = '1';
        memcpy(line_start + digits, "0 ", 2);
        digits++;
    } else {
        line_start[at]++;
    }
}

static uint8_t pairs[200];

static void fill_pairs(void)
{
    for (unsigned number = 0; number < 100; number++) {
        pairs[2 * number] = (uint8_t)('0' + number / 10);
        pairs[2 * number + 1] = (uint8_t)('0' + number % 10);
    }
}

/* A number below 100; where it ends. */
static inline uint8_t *put_small(uint8_t *at, uint32_t number)
{
    if (number < 10) {
        *at = (uint8_t)('0' + number);
        return at + 1;
    }
    memcpy(at, pairs + 2 * number, 2);
    return at + 2;
}

/* A number below 1,000,000; where it ends. */
static inline uint8_t *put_number(uint8_t *at, uint32_t number)
{
    if (number < 100)
        return put_small(at, number);

    uint32_t upper = number / 100;

    if (upper < 100) {
        at = put_small(at, upper);
    } else {
        at = put_small(at, upper / 100);
        memcpy(at, pairs + 2 * (upper % 100), 2);
        at += 2;
    }
    memcpy(at, pairs + 2 * (number - 100 * upper), 2);
    return at + 2;
}

static inline void put_line(c7_find find)
{
    uint8_t *at = output + written;

    memcpy(at, line_start, LINE_START);
    at += digits + 1;
    if (LIKELY(find.sort == C7_FIND_ORDINARY)) {
        memcpy(at, "ordinary ", 9);
        at += 9;
    } else if (find.sort == C7_FIND_LOW) {
        memcpy(at, "low ", 4);
        at += 4;
    } else {
        memcpy(at, "notice ", 7);
        at += 7;
    }
    at = put_small(at, find.number);
    *at++ = ' ';
    at = put_number(at, (uint32_t)find.length);
    *at++ = '\n';
    written = (size_t)(at - output);
}

static void list_records(c7_receiver *receiver)
{
    const size_t tp_length = receiver->tp_length;
    const uint64_t usual = (uint64_t)KIND(TP) << 32 | tp_length;

    for (;;) {
        uint64_t head = usual;

        if (UNLIKELY(to - from < HEAD + tp_length || bytes_get8(input + from) != usual)) {
            if (!read_record(1 << TP | 1 << GAP, &head))
                return;
            if (head >> 32 == KIND(GAP)) {
                c7_gap(receiver);
                from += HEAD;
                continue;
            }
        }
        count_tp();
        for (;;) {
            c7_find find = c7_next(receiver, input + from + HEAD, (uint32_t)head, room, BUFFER);

            if (find.sort == C7_FIND_NONE)
                break;
            put_line(find);
            if (UNLIKELY(written >= OUTPUT)) {
                write_out();
                if (output_failed)
                    return;
            }
            if (find.sort == C7_FIND_NOTICE && find.number <= C7_TP_BEYOND_REPAIR)
                break;
        }
        from += HEAD + (uint32_t)head;
    }
}

int command_list(void)
{
    static const char head_line[] = "tp what content bytes\n";
    settings setup;
    c7_receiver receiver;

    program = "c7list";
    fill_pairs();
    if (read_setup(&setup) && c7_receiver_open(&receiver, setup.tp_length, setup.stream, BUFFER) == C7_DONE) {
        memcpy(output, head_line, sizeof head_line - 1);
        written = sizeof head_line - 1;
        from += HEAD + SETUP_DATA;
        list_records(&receiver);
    }
    return finish();
}
