/* The calls by themselves: a script or recording is taken apart first, then its calls are made again and again.
 *
 *     driver ROUNDS QUEUE ROOM < INPUT
 *
 * INPUT is house records, of any length: the setup, then offers and draws, or TPs and gaps. Both queues have QUEUE
 * bytes, the room ROOM. A round opens the end and makes all calls; so the instructions of two rounds less those of one
 * are those of the calls and of the loop around them. With 0 rounds all is done once and everything that a call gives
 * back goes into a digest: `calls N digest D`. Linked with one side's ends, for which BACKEND is a header. */
#include <stdio.h>
#include <stdlib.h>

#include BACKEND

enum { SETUP, ORDINARY, LOW, DRAW, TP, GAP, HEAD = 8, SETUP_DATA = 5 };

typedef struct {
    const uint8_t *data;
    uint32_t length;
    uint8_t kind, content;
} step;

static step *steps;
static size_t step_count;
static unsigned long long calls;
static uint64_t digest;

static void take(uint64_t value)
{
    digest = (digest * 65599 + value) % 4294967291u;
}

static void take_bytes(const uint8_t *bytes, size_t length)
{
    for (size_t i = 0; i < length; i++)
        take(bytes[i]);
}

/* What the rounds give back goes here, so that no call can be left out. */
static volatile uint64_t kept;

/* `checked` is known where a round is called, so that the rounds that are counted have no trace of it. */
#define ROUND static inline __attribute__((always_inline)) void

ROUND send_round(const settings *s, uint8_t *tp, bool checked)
{
    uint64_t sum = (uint64_t)end_open_sender(s);

    for (const step *one = steps; one < steps + step_count; one++) {
        int number = one->kind == DRAW       ? end_draw(s, tp)
                     : one->kind == ORDINARY ? end_offer(s, one->content, one->data, one->length)
                                             : end_offer_low(s, one->content, one->data, one->length);

        sum += (uint64_t)number;
        if (checked) {
            take((uint64_t)number);
            if (one->kind == DRAW)
                take_bytes(tp, s->tp_length);
            calls++;
        }
    }
    kept = sum;
}

ROUND receive_round(const settings *s, bool checked)
{
    uint64_t sum = (uint64_t)end_open_receiver(s);

    for (const step *one = steps; one < steps + step_count; one++) {
        end_find find;

        if (one->kind == GAP) {
            end_gap();
            continue;
        }
        do {
            find = end_next(s, one->data, one->length);
            sum += find.length;
            if (checked) {
                const uint8_t *data = find.sort == END_LOW ? one->data : s->room;

                take(find.sort == END_LOW ? 1 : find.sort == END_ORDINARY ? 2 : find.sort == END_NOTICE ? 3 : 0);
                take(find.number);
                take_bytes(data + find.start, find.length);
                take(find.repaired);
                calls++;
            }
        } while (find.sort == END_LOW || find.sort == END_ORDINARY || (find.sort == END_NOTICE && find.number > 9));
    }
    kept = sum;
}

static uint32_t number_at(const uint8_t *at)
{
    return (uint32_t)at[0] << 24 | (uint32_t)at[1] << 16 | (uint32_t)at[2] << 8 | at[3];
}

static uint8_t *read_all(size_t *length)
{
    size_t room = 1 << 22, now;
    uint8_t *all = malloc(room);

    for (*length = 0; all != NULL && (now = fread(all + *length, 1, room - *length, stdin)) > 0;) {
        *length += now;
        if (*length == room)
            all = realloc(all, room *= 2);
    }
    return all;
}

/* Takes the records apart; the setup's data, NULL if this is no input. */
static const uint8_t *take_apart(const uint8_t *input, size_t length)
{
    steps = malloc((length / HEAD + 1) * sizeof *steps);
    if (steps == NULL || length < HEAD + SETUP_DATA || input[2] != SETUP)
        return NULL;
    for (size_t at = HEAD + SETUP_DATA; at < length; at += HEAD + steps[step_count++].length)
        steps[step_count] = (step){input + at + HEAD, number_at(input + at + 4), input[at + 2], input[at + 3]};
    return input + HEAD;
}

int main(int count, char **words)
{
    static uint8_t tp[2051];
    size_t length, queue, room;
    unsigned long rounds;
    const uint8_t *setup, *input = read_all(&length);

    if (count != 4 || input == NULL || (setup = take_apart(input, length)) == NULL)
        return EXIT_FAILURE;
    rounds = strtoul(words[1], NULL, 10);
    queue = strtoul(words[2], NULL, 10);
    room = strtoul(words[3], NULL, 10);

    const settings s = {
        .tp_length = (size_t)setup[0] << 8 | setup[1],
        .stream = setup[2],
        .piece = (size_t)setup[3] << 8 | setup[4],
        .ordinary = calloc(queue, 1),
        .low = calloc(queue, 1),
        .room = calloc(room, 1),
        .queue_length = queue,
        .room_length = room,
    };
    bool sends = step_count > 0 && steps[0].kind != TP && steps[0].kind != GAP;

    if (s.ordinary == NULL || s.low == NULL || s.room == NULL)
        return EXIT_FAILURE;
    if (rounds == 0) {
        if (sends)
            send_round(&s, tp, true);
        else
            receive_round(&s, true);
        printf("calls %llu digest %llu\n", calls, (unsigned long long)digest);
    }
    for (; rounds > 0; rounds--)
        if (sends)
            send_round(&s, tp, false);
        else
            receive_round(&s, false);
    return EXIT_SUCCESS;
}
