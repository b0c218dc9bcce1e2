/* The programs: sending, listing, reading packets out; Chapter 11 packets in and out. */
#include "chapter11.h"
#include "commands.h"
#include "house.h"
#include "receiver.h"
#include "sender.h"

#include <stdlib.h>

enum { PROGRAM_BUFFER = 32768 };

/* What follows the setup. */
enum {
    SCRIPT_KINDS = 1 << HOUSE_ORDINARY | 1 << HOUSE_LOW | 1 << HOUSE_DRAW,
    RECORDING_KINDS = 1 << HOUSE_TP | 1 << HOUSE_GAP
};

/* Static, so cleared at start. */
static uint8_t ordinary_queue[PROGRAM_BUFFER];
static uint8_t low_queue[PROGRAM_BUFFER];
static uint8_t room[PROGRAM_BUFFER];
static uint8_t result[PROGRAM_BUFFER];
static house_input input;
static house_record record;

/* Says in one line why the program could not go on, if it could not. */
static int finish(const char *program)
{
    if (fflush(stdout) != 0 || ferror(stdout))
        fprintf(stderr, "%s: cannot write\n", program);
    else if (ferror(input.file))
        fprintf(stderr, "%s: cannot read\n", program);
    else if (input.wrong != NULL)
        fprintf(stderr, "%s: record at byte %llu: %s\n", program, input.at, input.wrong);
    else
        return EXIT_SUCCESS;
    return EXIT_FAILURE;
}

/* A refusal is told, and the program goes on. */
static void tell_refused(const char *program, int number)
{
    if (number != C7_DONE)
        fprintf(stderr, "%s: record at byte %llu: refused %d\n", program, input.at, number);
}

/* The setup as read, which begins whatever is made of records. */
static bool write_setup(void)
{
    return house_write(stdout, HOUSE_SETUP, 0, record.data, record.length);
}

/* The number given back for the record; a drawn TP is written. */
static int send_one(c7_sender *sender)
{
    static uint8_t tp[C7_TP_MAX];
    const c7_buffer ordinary = {ordinary_queue, sizeof ordinary_queue};
    const c7_buffer low = {low_queue, sizeof low_queue};

    if (record.kind == HOUSE_ORDINARY)
        return c7_offer_ordinary(sender, ordinary, low, record.content, record.data, record.length);
    if (record.kind == HOUSE_LOW)
        return c7_offer_low(sender, ordinary, low, record.content, record.data, record.length);

    int number = c7_draw(sender, ordinary, low, tp, sender->tp_length);

    if (number == C7_DONE)
        house_write(stdout, HOUSE_TP, 0, tp, sender->tp_length);
    return number;
}

int command_send(void)
{
    house_setup setup;
    c7_sender sender;

    input = house_open(stdin, SCRIPT_KINDS);
    if (house_read_setup(&input, &record, &setup) &&
        c7_sender_open(&sender, setup.tp_length, setup.stream, setup.piece,
                       sizeof ordinary_queue, sizeof low_queue) == C7_DONE &&
        write_setup())
        while (!ferror(stdout) && house_read(&input, &record))
            tell_refused("c7send", send_one(&sender));
    return finish("c7send");
}

/* A Chapter 11 packet as its SP, unless it is refused; any other record as it is. */
static int pack_one(void)
{
    const uint8_t *data = record.data;
    size_t length = record.length;

    if (record.content == C7_CHAPTER11) {
        int number = chapter11_compose(record.data, record.length, result, sizeof result, &length);

        if (number != C7_DONE)
            return number;
        data = result;
    }
    house_write(stdout, record.kind, record.content, data, length);
    return C7_DONE;
}

int command_pack(void)
{
    house_setup setup;

    input = house_open(stdin, SCRIPT_KINDS);
    if (house_read_setup(&input, &record, &setup) && write_setup())
        while (!ferror(stdout) && house_read(&input, &record))
            tell_refused("c7pack", pack_one());
    return finish("c7pack");
}

/* A TP of these notices is over, or was never begun, without a none. */
static bool ends_tp(c7_find find)
{
    return find.sort == C7_FIND_REFUSED ||
           (find.sort == C7_FIND_NOTICE && find.number <= C7_TP_BEYOND_REPAIR);
}

/* What a program makes of a find in the TP of this number; false if its output takes no more. */
typedef bool find_use(unsigned long long tp, c7_find find);

static bool use_finds(c7_receiver *receiver, unsigned long long tp, find_use *use)
{
    for (;;) {
        c7_find find = c7_next(receiver, record.data, record.length, room, sizeof room);

        if (find.sort == C7_FIND_NONE)
            return true;
        if (!use(tp, find))
            return false;
        if (ends_tp(find))
            return true;
    }
}

/* Reads a recording: `begin` writes what comes before all finds. */
static int receive(const char *program, bool (*begin)(void), find_use *use)
{
    unsigned long long tps = 0;
    house_setup setup;
    c7_receiver receiver;

    input = house_open(stdin, RECORDING_KINDS);
    if (house_read_setup(&input, &record, &setup) &&
        c7_receiver_open(&receiver, setup.tp_length, setup.stream, sizeof room) == C7_DONE &&
        begin())
        while (house_read(&input, &record)) {
            if (record.kind == HOUSE_GAP)
                c7_gap(&receiver);
            else if (!use_finds(&receiver, ++tps, use))
                break;
        }
    return finish(program);
}

static bool print_header(void)
{
    return puts("tp what content bytes") >= 0;
}

static bool print_find(unsigned long long tp, c7_find find)
{
    const char *sort = find.sort == C7_FIND_LOW        ? "low"
                       : find.sort == C7_FIND_ORDINARY ? "ordinary"
                                                       : "notice";

    return printf("%llu %s %u %zu\n", tp, sort, find.number, find.length) >= 0;
}

int command_list(void)
{
    return receive("c7list", print_header, print_find);
}

/* A packet as the record that offered it; a notice writes nothing. */
static bool write_packet(unsigned long long tp, c7_find find)
{
    const uint8_t *data = c7_stretch(find, record.data, record.length, room, sizeof room);
    uint8_t kind = find.sort == C7_FIND_LOW ? HOUSE_LOW : HOUSE_ORDINARY;

    (void)tp;
    return data == NULL || house_write(stdout, kind, (uint8_t)find.number, data, find.length);
}

int command_read(void)
{
    return receive("c7read", write_setup, write_packet);
}

static bool write_nothing(void)
{
    return true;
}

/* The packet of each Chapter 11 SP, one behind the other. */
static bool write_chapter11(unsigned long long tp, c7_find find)
{
    const uint8_t *sp = c7_stretch(find, record.data, record.length, room, sizeof room);
    size_t length;

    (void)tp;
    if (sp == NULL || find.number != C7_CHAPTER11)
        return true;

    int number = chapter11_reassemble(sp, find.length, result, sizeof result, &length);

    tell_refused("c7unpack", number);
    return number != C7_DONE || fwrite(result, 1, length, stdout) == length;
}

int command_unpack(void)
{
    return receive("c7unpack", write_nothing, write_chapter11);
}
