#include "checked.h"

#include <stdio.h>
#include <string.h>

#define BIT(n) (UINT32_C(1) << (n))
#define NOTICES ((BIT(17) - BIT(6)) | BIT(21))

/* What a call may write if it is done, and the numbers that it may give. */
static const struct {
    const char *name;
    uint32_t writes, numbers;
} calls[CALLS] = {
    [NEXT] = {"next", BIT(STATE) | BIT(ROOM) | BIT(FIND), BIT(0) | BIT(1) | NOTICES},
    [GAP] = {"gap", BIT(STATE), BIT(0) | BIT(1)},
    [OFFER] = {"offer", BIT(STATE) | BIT(ORDINARY), BIT(5) - BIT(0)},
    [OFFER_LOW] = {"offer low", BIT(STATE) | BIT(LOW), BIT(5) - BIT(0)},
    [DRAW] = {"draw", BIT(STATE) | BIT(TP), BIT(0) | BIT(1) | BIT(5)},
    [COMPOSE] = {"compose", BIT(OUT) | BIT(WRITTEN), BIT(0) | BIT(17) | BIT(18)},
    [REASSEMBLE] = {"reassemble", BIT(OUT) | BIT(WRITTEN), BIT(0) | BIT(17)},
};

guarded lent[LENT];
uint32_t content;

static uint64_t digest;
static unsigned long wrong, made[CALLS], accepted[CALLS];

void check(bool fine, int call, const char *what)
{
    if (!fine && wrong++ < 10)
        printf("WRONG: %s, call %lu: %s\n", calls[call].name, made[call], what);
}

static uint32_t make(int call)
{
    const guarded *low = &lent[LOW], *ordinary = &lent[ORDINARY], *tp = &lent[TP], *room = &lent[ROOM],
                  *packet = &lent[PACKET], *out = &lent[OUT];
    c7_sender *sender = (c7_sender *)lent[STATE].at;
    c7_receiver *receiver = (c7_receiver *)lent[STATE].at;
    uint64_t *written = (uint64_t *)lent[WRITTEN].at;

    switch (call) {
    case NEXT:
        return c7_receiver_next(receiver, tp->at, tp->length, room->at, room->length, (c7_find *)lent[FIND].at);
    case GAP:
        return c7_receiver_gap(receiver);
    case OFFER:
        return c7_sender_offer(sender, low->at, low->length, ordinary->at, ordinary->length, content, packet->at,
                               packet->length);
    case OFFER_LOW:
        return c7_sender_offer_low(sender, low->at, low->length, ordinary->at, ordinary->length, content, packet->at,
                                   packet->length);
    case DRAW:
        return c7_sender_draw(sender, low->at, low->length, ordinary->at, ordinary->length, tp->at, tp->length);
    case COMPOSE:
        return c7_compose(packet->at, packet->length, out->at, out->length, written);
    default:
        return c7_reassemble(packet->at, packet->length, out->at, out->length, written);
    }
}

/* The find tells the number again, or a packet within what was lent. */
static void check_find(uint32_t number)
{
    const c7_find *find = (const c7_find *)lent[FIND].at;
    bool told = find->sort == C7_NOTICE || find->sort == C7_REFUSED;
    size_t limit = find->sort == C7_LOW ? lent[TP].length : find->sort == C7_ORDINARY ? lent[ROOM].length : 0;

    check(find->sort <= C7_ORDINARY, NEXT, "no sort");
    check((find->sort == C7_REFUSED) == (number == C7_LIMITS), NEXT, "refused and not 1");
    check(number == (told ? find->what : C7_DONE), NEXT, "another number in the find");
    check(find->start <= limit && find->length <= limit - find->start, NEXT, "a stretch of what was not lent");
}

/* What a call that gave this number may have written: nothing but the find, if the number leaves all as it was. */
static uint32_t writes(int call, uint32_t number)
{
    bool kept = call == NEXT ? number == C7_LIMITS || number == C7_WRONG_LENGTH || number == C7_WRONG_STREAM
                             : number != C7_DONE;

    return kept ? calls[call].writes & BIT(FIND) : calls[call].writes;
}

/* Words of a receiver that say nothing, in the state that they stand in, may come back as 0: then both are the same state,
 * for a call that leaves all as it was makes the same words of them. */
static bool is_same_receiver(const guarded *state)
{
    c7_receiver one, other;
    c7_find find;

    memcpy(&one, state->was, sizeof one);
    memcpy(&other, state->at, sizeof other);
    c7_receiver_next(&one, NULL, 0, lent[ROOM].at, lent[ROOM].length, &find);
    c7_receiver_next(&other, NULL, 0, lent[ROOM].at, lent[ROOM].length, &find);
    return memcmp(&one, &other, sizeof one) == 0;
}

/* Makes a call twice with the same bytes, and looks at everything that was lent. */
uint32_t checked(int call)
{
    static uint8_t left[LENT][LENT_MOST];
    uint32_t number;

    for (int i = 0; i < LENT; i++)
        memcpy(lent[i].was, lent[i].at, lent[i].length);
    number = make(call);
    check(number < 32 && calls[call].numbers >> number & 1, call, "a number that it cannot give");
    for (int i = 0; i < LENT; i++) {
        check(guarded_beside(&lent[i]), call, "a byte beside what was lent");
        if (number < 32 && !(writes(call, number) >> i & 1))
            check(guarded_unchanged(&lent[i]) || (i == STATE && call == NEXT && is_same_receiver(&lent[i])), call,
                  "what it may not write");
        memcpy(left[i], lent[i].at, lent[i].length);
        memcpy(lent[i].at, lent[i].was, lent[i].length);
    }
    check(make(call) == number, call, "another number when it is made again");
    for (int i = 0; i < LENT; i++)
        check(memcmp(left[i], lent[i].at, lent[i].length) == 0, call, "other bytes when it is made again");
    if (call == NEXT)
        check_find(number);
    for (size_t i = 0; i < lent[STATE].length; i++)
        digest = (digest * 65599 + lent[STATE].at[i] + number) % 4294967291u;
    made[call]++;
    accepted[call] += number != C7_LIMITS;
    return number;
}

bool print_checked(void)
{
    for (int call = 0; call < CALLS; call++)
        printf("%s %lu, of which 1 %lu\n", calls[call].name, made[call], made[call] - accepted[call]);
    printf("digest %llu, %lu wrong\n", (unsigned long long)digest, wrong);
    return wrong == 0;
}
