/* What is in a file of transport packets, one right behind the other: c7list's lines.
 *
 *     listing TP_LENGTH STREAM [FILE]
 */
#include <stdio.h>
#include <stdlib.h>

#include "jenugathi.h"

static uint8_t tp[C7_TP_MOST], room[C7_ROOM_MOST];

static void print_find(unsigned long number, const c7_find *find)
{
    const char *sort = find->sort == C7_LOW ? "low" : find->sort == C7_ORDINARY ? "ordinary" : "notice";

    printf("%lu %s %lu %lu\n", number, sort, (unsigned long)find->what, (unsigned long)find->length);
}

/* All finds of one transport packet; the packets' bytes would be at c7_packet(&find, tp, room). */
static void list_tp(c7_receiver *receiver, unsigned long number, size_t length)
{
    c7_find find;

    do {
        c7_receiver_next(receiver, tp, length, room, sizeof room, &find);
        if (find.sort != C7_NOTHING)
            print_find(number, &find);
    } while (c7_goes_on(&find));
}

int main(int count, char **words)
{
    c7_receiver receiver;
    size_t tp_length, length;

    if (count < 3 || (count > 3 && freopen(words[3], "rb", stdin) == NULL)) {
        fprintf(stderr, "usage: listing TP_LENGTH STREAM [FILE]\n");
        return EXIT_FAILURE;
    }
    tp_length = strtoul(words[1], NULL, 10);

    uint32_t number =
        c7_receiver_open(&receiver, tp_length, (uint32_t)strtoul(words[2], NULL, 10), room, sizeof room);

    if (number != C7_DONE) {
        fprintf(stderr, "listing: %s\n", c7_text(number));
        return EXIT_FAILURE;
    }
    puts("tp what content bytes");
    for (unsigned long tps = 1; (length = fread(tp, 1, tp_length, stdin)) > 0; tps++)
        list_tp(&receiver, tps, length);
    return ferror(stdin) || fflush(stdout) != 0 ? EXIT_FAILURE : EXIT_SUCCESS;
}
