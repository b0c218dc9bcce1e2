/* The index beside a recording, made afresh each time and held to what stood there before;
   and the packet of a line. */
#include <errno.h>
#include <stdlib.h>
#include <string.h>

#include "commands.h"
#include "house.h"
#include "receiver.h"

enum { ROOM_BYTES = 32768, LINE_0_BYTES = 133, NUMBERS = 5, DIGITS = 20 };

/* The numbers of line 0, in its order. */
typedef struct {
    unsigned long long covered; /* records, the setup counted */
    unsigned long long since;   /* the record in which what is unfinished began, or 0 */
    unsigned long long end;     /* the byte behind the last covered record */
    unsigned long long from;    /* the first byte of record `since`, or 0 */
    unsigned long long size;    /* bytes of the index, line 0 counted */
} index_head;

typedef struct {
    unsigned long long number; /* the setup is 0 */
    unsigned long long byte;
} record_spot;

static uint8_t room[ROOM_BYTES];
static house_input input;
static house_record record;
static record_spot at;     /* of the record at hand */
static record_spot *spots; /* of the TPs that the receiver counts */
static size_t counted, spots_length;
static c7_receiver receiver;

static int fail(const char *program, const char *what)
{
    fprintf(stderr, "%s: %s\n", program, what);
    return EXIT_FAILURE;
}

/* What stopped the reading, but for an end inside a record. */
static int finish(const char *program)
{
    if (ferror(input.file))
        return fail(program, "cannot read");
    if (input.wrong == NULL || input.cut)
        return EXIT_SUCCESS;
    fprintf(stderr, "%s: record at byte %llu: %s\n", program, input.at, input.wrong);
    return EXIT_FAILURE;
}

/* False if the file cannot be read to its end. */
static bool bytes_of(FILE *file, unsigned long long *bytes)
{
    static uint8_t block[65536];
    size_t got;

    *bytes = 0;
    rewind(file);
    while ((got = fread(block, 1, sizeof block, file)) > 0)
        *bytes += got;
    return !ferror(file);
}

/* A fresh receiver behind the setup; false if there is no good one. */
static bool begin(FILE *recording)
{
    house_setup setup;

    rewind(recording);
    input = house_open(recording, 1 << HOUSE_TP | 1 << HOUSE_GAP);
    at = (record_spot){0};
    counted = 0;
    if (house_read_setup(&input, &record, &setup) &&
        c7_receiver_open(&receiver, setup.tp_length, setup.stream, sizeof room) == C7_DONE)
        return true;
    input.cut = false; /* a setup that the end cuts is no good one */
    return false;
}

static bool next_record(void)
{
    if (!house_read(&input, &record))
        return false;
    at = (record_spot){at.number + 1, input.at};
    return true;
}

/* The TPs of the receiver's length and stream are those that it counts. */
static void note_counted(void)
{
    if (record.length != receiver.tp_length || record.data[0] >> 4 != receiver.stream)
        return;
    if (counted == spots_length) {
        spots_length = 2 * spots_length + 1000;
        spots = realloc(spots, spots_length * sizeof *spots);
        if (spots == NULL)
            abort();
    }
    spots[counted++] = at;
}

static record_spot spot_of(c7_place place)
{
    return spots[place.tp - 1];
}

static bool ends_tp(c7_find find)
{
    return find.sort == C7_FIND_NONE ||
           (find.sort == C7_FIND_NOTICE && find.number <= C7_TP_BEYOND_REPAIR);
}

/* What becomes of a packet; false if it was the last one wanted. */
typedef bool packet_use(c7_find packet, FILE *out);

/* Gives the record at hand to the receiver; false if a use said so. */
static bool give(packet_use *use, FILE *out)
{
    c7_find find;

    if (record.kind == HOUSE_GAP) {
        c7_gap(&receiver);
        return true;
    }
    note_counted();
    do {
        find = c7_next(&receiver, record.data, record.length, room, sizeof room);
        if ((find.sort == C7_FIND_LOW || find.sort == C7_FIND_ORDINARY) && !use(find, out))
            return false;
    } while (!ends_tp(find));
    return true;
}

static const char *sort_name(c7_find packet)
{
    return packet.sort == C7_FIND_LOW ? "low" : "ordinary";
}

/* ---- the index ---- */

static void print_head(char text[LINE_0_BYTES + 1], index_head head)
{
    snprintf(text, LINE_0_BYTES + 1,
             "covered %020llu since %020llu end %020llu from %020llu size %020llu\n", head.covered,
             head.since, head.end, head.from, head.size);
}

/* False if the text isn't what its own numbers print. */
static bool read_head(const char text[LINE_0_BYTES + 1], index_head *head)
{
    static const size_t places[NUMBERS] = {8, 35, 60, 86, 112};
    unsigned long long numbers[NUMBERS];
    char printed[LINE_0_BYTES + 1];

    for (size_t i = 0; i < NUMBERS; i++)
        numbers[i] = strtoull(text + places[i], NULL, 10); /* too large a number prints otherwise */
    *head = (index_head){numbers[0], numbers[1], numbers[2], numbers[3], numbers[4]};
    print_head(printed, *head);
    return memcmp(printed, text, LINE_0_BYTES) == 0;
}

static bool add_line(c7_find packet, FILE *lines)
{
    fprintf(lines, "%llu %zu %s %u %zu\n", spot_of(packet.began).number, packet.began.place,
            sort_name(packet), packet.number, packet.length);
    return true;
}

/* The index of the first `most` records: line 0, and the lines behind it. */
static index_head make(FILE *recording, unsigned long long most, FILE *lines)
{
    c7_place began;
    record_spot since = {0};

    begin(recording);
    while (at.number + 1 < most && next_record())
        give(add_line, lines);
    if (c7_unfinished(&receiver, &began))
        since = spot_of(began);
    return (index_head){
        .covered = at.number + 1,
        .since = since.number,
        .end = input.next,
        .from = since.byte,
        .size = LINE_0_BYTES + (unsigned long long)ftell(lines),
    };
}

static bool same_bytes(FILE *one, FILE *other, unsigned long long bytes)
{
    while (bytes-- > 0)
        if (getc(one) != getc(other))
            return false;
    return true;
}

/* Is what stands in the index that of the records which it covers? */
static bool still_holds(FILE *recording, index_head old, FILE *index)
{
    FILE *lines = tmpfile();
    index_head head = make(recording, old.covered, lines);

    rewind(lines);
    fseek(index, LINE_0_BYTES, SEEK_SET);
    return memcmp(&head, &old, sizeof head) == 0 &&
           same_bytes(lines, index, old.size - LINE_0_BYTES);
}

static bool write_index(const char *path, index_head head, FILE *lines)
{
    FILE *file = fopen(path, "wb");
    char text[LINE_0_BYTES + 1];
    int byte;

    if (file == NULL)
        return false;
    print_head(text, head);
    fputs(text, file);
    rewind(lines);
    while ((byte = getc(lines)) != EOF)
        putc(byte, file);
    return fclose(file) == 0;
}

/* Line 0 as it stands, all 0 if there is none; else the failure that it is. */
static int old_head(const char *program, FILE *index, unsigned long long recorded, index_head *old)
{
    unsigned long long bytes = 0;
    char text[LINE_0_BYTES + 1] = {0};

    *old = (index_head){0};
    if (index != NULL && !bytes_of(index, &bytes))
        return fail(program, "cannot read the index");
    if (bytes < LINE_0_BYTES)
        return EXIT_SUCCESS;
    rewind(index);
    if (fread(text, 1, LINE_0_BYTES, index) != LINE_0_BYTES || !read_head(text, old) ||
        old->size < LINE_0_BYTES || old->size > bytes)
        return fail(program, "not an index");
    return old->end <= recorded ? EXIT_SUCCESS : fail(program, "refused 23");
}

int command_index(int count, char **words)
{
    static const char program[] = "c7index";
    unsigned long long recorded;
    index_head old, head;

    if (count != 2)
        return fail(program, "asked as: c7index RECORDING INDEX");

    FILE *recording = fopen(words[0], "rb");

    if (recording == NULL || !bytes_of(recording, &recorded))
        return fail(program, "cannot read the recording");

    FILE *index = fopen(words[1], "rb");

    if (index == NULL && errno != ENOENT)
        return fail(program, "cannot read the index");
    if (old_head(program, index, recorded, &old) != EXIT_SUCCESS)
        return EXIT_FAILURE;
    if (!begin(recording))
        return finish(program);
    if (old.covered > 0 && !still_holds(recording, old, index))
        return fail(program, "not the index of this recording");

    FILE *lines = tmpfile();

    head = make(recording, UINT64_MAX, lines);
    if (!write_index(words[1], head, lines))
        return fail(program, "cannot write the index");
    return finish(program);
}

/* ---- the packet of a line ---- */

static struct {
    unsigned long long record, place;
    const char *sort;
} asked;

static bool write_asked(c7_find packet, FILE *out)
{
    unsigned long long number = spot_of(packet.began).number;
    const uint8_t *data =
        c7_stretch(packet, record.data, record.length, room, sizeof room);

    if (strcmp(sort_name(packet), asked.sort) != 0 || number < asked.record ||
        (number == asked.record && packet.began.place < asked.place))
        return true;
    house_write(out, packet.sort == C7_FIND_LOW ? HOUSE_LOW : HOUSE_ORDINARY,
                (uint8_t)packet.number, data, packet.length);
    return false;
}

static bool read_number(const char *word, unsigned long long *number)
{
    if (*word == 0 || word[strspn(word, "0123456789")] != 0)
        return false;
    errno = 0;
    *number = strtoull(word, NULL, 10);
    return errno == 0;
}

int command_at(int count, char **words)
{
    static const char program[] = "c7at";

    if (count != 4 || !read_number(words[1], &asked.record) ||
        !read_number(words[2], &asked.place) ||
        (strcmp(words[3], "low") != 0 && strcmp(words[3], "ordinary") != 0))
        return fail(program, "asked as: c7at RECORDING RECORD PLACE low|ordinary");
    asked.sort = words[3];

    FILE *recording = fopen(words[0], "rb");
    unsigned long long recorded;

    if (recording == NULL || !bytes_of(recording, &recorded))
        return fail(program, "cannot read the recording");
    if (!begin(recording))
        return finish(program);
    while (next_record())
        if (at.number >= asked.record && !give(write_asked, stdout))
            return fflush(stdout) == 0 ? EXIT_SUCCESS : fail(program, "cannot write");
    return finish(program) == EXIT_SUCCESS ? fail(program, "no such packet") : EXIT_FAILURE;
}
