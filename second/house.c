#include "house.h"

#include <string.h>

static const uint8_t mark[2] = {0xC7, 0x07};

house_input house_open(FILE *file, unsigned kinds)
{
    return (house_input){.file = file, .kinds = kinds};
}

/* The first thing wrong with a record's header, NULL if nothing is. */
static const char *header_fault(const uint8_t head[HOUSE_HEADER], unsigned kinds, size_t length)
{
    uint8_t kind = head[2], content = head[3];

    if (memcmp(head, mark, sizeof mark) != 0)
        return "the mark C7 07 is missing";
    if (kind > HOUSE_GAP)
        return "no such kind";
    if ((kinds >> kind & 1) == 0)
        return "this kind does not belong here";
    if (content != 0 && kind != HOUSE_ORDINARY && kind != HOUSE_LOW)
        return "content must be 0 in this kind";
    switch (kind) {
    case HOUSE_SETUP:
        return length == HOUSE_SETUP_DATA ? NULL : "a setup holds 5 bytes";
    case HOUSE_DRAW:
    case HOUSE_GAP:
        return length == 0 ? NULL : "this kind holds no data";
    default:
        return length <= HOUSE_DATA_MAX ? NULL : "more than 32768 data bytes";
    }
}

static bool stop(house_input *input, const char *wrong)
{
    input->wrong = wrong;
    return false;
}

static bool read_record(house_input *input, house_record *record, unsigned kinds)
{
    uint8_t head[HOUSE_HEADER];
    size_t got = fread(head, 1, sizeof head, input->file);

    input->at = input->next;
    if (got == 0)
        return false;
    input->cut = got < sizeof head;
    if (input->cut)
        return stop(input, "the input ends inside the header");

    size_t length =
        (size_t)head[4] << 24 | (size_t)head[5] << 16 | (size_t)head[6] << 8 | head[7];
    const char *wrong = header_fault(head, kinds, length);

    if (wrong != NULL)
        return stop(input, wrong);
    input->cut = length > 0 && fread(record->data, 1, length, input->file) < length;
    if (input->cut)
        return stop(input, "the input ends inside the data");
    record->kind = head[2];
    record->content = head[3];
    record->length = length;
    input->next += HOUSE_HEADER + length;
    return true;
}

bool house_read_setup(house_input *input, house_record *record, house_setup *setup)
{
    const uint8_t *data = record->data;

    if (!read_record(input, record, 1u << HOUSE_SETUP))
        return input->wrong != NULL ? false : stop(input, "no setup record");
    setup->tp_length = (size_t)data[0] << 8 | data[1];
    setup->stream = data[2];
    setup->piece = (size_t)data[3] << 8 | data[4];
    if (!c7_tp_settings_ok(setup->tp_length, setup->stream) || setup->piece < C7_PIECE_MIN)
        return stop(input, "a setting is outside its limits");
    return true;
}

bool house_read(house_input *input, house_record *record)
{
    return read_record(input, record, input->kinds);
}

bool house_write(FILE *file, uint8_t kind, uint8_t content, const uint8_t *data, size_t length)
{
    uint8_t head[HOUSE_HEADER] = {
        mark[0], mark[1], kind, content,
        (uint8_t)(length >> 24), (uint8_t)(length >> 16), (uint8_t)(length >> 8), (uint8_t)length,
    };

    return fwrite(head, 1, sizeof head, file) == sizeof head &&
           fwrite(data, 1, length, file) == length;
}
