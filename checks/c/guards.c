/* Guards: each call, with invalid sides, handles without a guard and each allocation failing in turn; and sessions whose octets are passed on,
 * changed and answered, with their results written by hand, and others by chance:
 *
 *     guards
 *
 * It runs on STACK octets of stack, and ends with 1 at the first answer that the header doesn't allow. */
#include "ristulva.h"
#include "trial.h"
#include "trial_message.h"
#include "trial_stack.h"
#include <string.h>

#ifndef STACK
#define STACK (56 * 1024)
#endif

#define OUTER RISTULVA_OUTER
#define INNER RISTULVA_INNER

static ristulva_guard guard;

/* ---- octets, as RFC 4271 has them ---- */

/* AS 65001 and 65002, hold time 90: IPv4 unicast, 4-octet AS numbers; and of the first long messages (6), which the guard leaves out. */
#define OUTER_OPEN "04 fde9 005a c0000201 10 020e 010400010001 41040000fde9 0600"
#define CLEAN_OPEN "04 fde9 005a c0000201 0e 020c 010400010001 41040000fde9"
#define INNER_OPEN "04 fdea 005a c0000202 0e 020c 010400010001 41040000fdea"
/* The second with ROUTE-REFRESH (2; RFC 2918); a request for IPv4 unicast, and one for VPN routes of IPv4. */
#define ASKED_OPEN "04 fdea 005a c0000202 10 020e 010400010001 41040000fdea 0200"
#define REFRESH "0001 00 01"
#define VPN_REFRESH "0001 00 80"
/* 10.0.0.0/8 by AS 65000 and 192.0.2.1; the same with an ORIGIN of 3, which is treated as a withdrawal; with attribute 28 after. */
#define UPDATE "0000 0014 40010100 40020602010000fde8 400304c0000201 080a"
#define BAD_ORIGIN "0000 0014 40010103 40020602010000fde8 400304c0000201 080a"
#define WITHDRAWAL "0002 080a 0000"
#define ODD_UPDATE "0000 0018 40010100 40020602010000fde8 400304c0000201 c01c01ff 080a"
/* A body that is cut in Withdrawn Routes: 3/1. */
#define CUT "ffff 0000"

/* What is on its way to a side, where none of it is sent before. */
static struct wanted {
    uint8_t octets[RISTULVA_MESSAGE];
    size_t len;
} wanted[2];

static void want(uint32_t side, uint8_t kind, const char *body)
{
    wanted[side].len += message(kind, body, wanted[side].octets + wanted[side].len);
}

/* ---- calls ---- */

static ristulva_asks asks_of(uint32_t side)
{
    ristulva_asks asks;
    memset(&asks, 0xa5, sizeof asks);
    WANT(ristulva_guard_asks(&guard, side, &asks) == RISTULVA_OK);
    WANT(asks.listens <= 1 && asks.closes <= 1 && asks.ended <= 1 && asks.way <= 69632);
    WANT(!asks.ended || !asks.listens);
    WANT(asks.ended || !asks.closes);
    return asks;
}

static void happens(uint32_t side, uint32_t event)
{
    WANT(ristulva_guard_event(&guard, side, event) == RISTULVA_OK);
}

/* What is queued for a side is what is wanted, also where there is room for less, and nothing is written after it. */
static void check_way(uint32_t side)
{
    static uint8_t octets[2 * RISTULVA_MESSAGE];
    size_t room, written, i;
    WANT(asks_of(side).way == wanted[side].len);
    for (room = 0; room <= wanted[side].len + 1; room++) {
        size_t front = room < wanted[side].len ? room : wanted[side].len;
        memset(octets, 0x5a, sizeof octets);
        written = 77777;
        WANT(ristulva_guard_way(&guard, side, octets, room, &written) == RISTULVA_OK && written == front);
        WANT(memcmp(octets, wanted[side].octets, front) == 0);
        for (i = front; i <= room; i++)
            WANT(octets[i] == 0x5a);
    }
}

/* Some of it is sent: the first octets of it. */
static void sends(uint32_t side, size_t count)
{
    struct wanted *it = &wanted[side];
    WANT(ristulva_guard_sent(&guard, side, count) == RISTULVA_OK);
    count = count < it->len ? count : it->len;
    it->len -= count;
    memmove(it->octets, it->octets + count, it->len);
    check_way(side);
}

/* The guard consumes `takes` of these octets of a side, and reports `told`; the octets after them are for the next call. */
static void hears(uint32_t side, const uint8_t *octets, size_t len, size_t takes, ristulva_came told)
{
    ristulva_came came;
    size_t taken = 77777;
    memset(&came, 0xa5, sizeof came);
    WANT(ristulva_guard_hear(&guard, side, octets, len, &taken, &came) == RISTULVA_OK && taken == takes);
    WANT(came.what == told.what && came.kind == told.kind && came.same == told.same && came.code == told.code && came.subcode == told.subcode);
}

static const ristulva_came nothing = {RISTULVA_CAME_NOTHING, 0, 0, 0, 0};

/* A message of a side is passed on, where it arrives whole with others after it, or octet by octet. */
static void hands_on(uint32_t side, uint8_t kind, const char *body, uint8_t same)
{
    static int turn;
    uint8_t octets[RISTULVA_MESSAGE];
    size_t len = message(kind, body, octets), i;
    ristulva_came told = {RISTULVA_CAME_HANDED_ON, 0, 0, 0, 0};
    told.kind = kind;
    told.same = same;
    if (turn++ % 2 == 0) {
        memset(octets + len, 255, 7);
        hears(side, octets, len + 7, len, told);
        return;
    }
    for (i = 0; i + 1 < len; i++)
        hears(side, octets + i, 1, 1, nothing);
    hears(side, octets + i, 1, 1, told);
}

/* A message of a side isn't passed on. */
static void drops(uint32_t side, uint8_t kind, const char *body)
{
    uint8_t octets[RISTULVA_MESSAGE];
    size_t len = message(kind, body, octets);
    ristulva_came told = {RISTULVA_CAME_DROPPED, 0, 0, 0, 0};
    told.kind = kind;
    hears(side, octets, len, len, told);
}

static void answers(uint32_t side, uint8_t kind, const char *body, uint8_t code, uint8_t subcode)
{
    uint8_t octets[RISTULVA_MESSAGE];
    size_t len = message(kind, body, octets);
    ristulva_came told = {RISTULVA_CAME_ANSWERED, 0, 0, 0, 0};
    told.code = code;
    told.subcode = subcode;
    hears(side, octets, len, len, told);
    hears(side, octets, len, 0, nothing);
}

static void begin(const uint8_t *pass, size_t count, uint8_t one_way)
{
    uint32_t side;
    memset(wanted, 0, sizeof wanted);
    WANT(ristulva_guard_new(pass, count, one_way, &guard) == RISTULVA_OK && live == 3);
    allocations = 0;
    for (side = OUTER; side <= INNER; side++) {
        WANT(!asks_of(side).listens);
        hears(side, (const uint8_t *)"", 0, 0, nothing);
        happens(side, RISTULVA_SIDE_STOOD);
        WANT(asks_of(side).listens && asks_of(side).way == 0);
    }
}

static void finish(void)
{
    WANT(allocations == 0 && ristulva_guard_free(&guard) == RISTULVA_OK && guard.body == NULL && live == 0);
}

/* What the OPEN of a side said, which has an AS number and an identifier. */
static void check_peer(uint32_t side, uint32_t as_number, uint8_t last)
{
    ristulva_peer peer;
    memset(&peer, 0xa5, sizeof peer);
    WANT(ristulva_guard_peer(&guard, side, &peer) == RISTULVA_OK);
    WANT(peer.as_number == as_number && memcmp(peer.id, "\300\0\2", 3) == 0 && peer.id[3] == last);
    WANT(peer.hold == 90 && peer.as4 == 1 && peer.ip4 == 1 && peer.ip6 == 0);
}

/* Both OPENs, the inner one of which is passed on as it is, and KEEPALIVEs go over. */
static void answer_open(const char *open)
{
    hands_on(OUTER, 1, OUTER_OPEN, 0);
    want(INNER, 1, CLEAN_OPEN);
    hands_on(INNER, 1, open, 1);
    want(OUTER, 1, open);
    check_peer(OUTER, 65001, 1);
    check_peer(INNER, 65002, 2);
    hands_on(OUTER, 4, "", 1);
    want(INNER, 4, "");
    hands_on(INNER, 4, "", 1);
    want(OUTER, 4, "");
}

/* A new guard, over which both OPENs and KEEPALIVEs go. */
static void come_up(const uint8_t *pass, size_t count, uint8_t one_way)
{
    ristulva_peer peer, old;
    memset(&peer, 0xa5, sizeof peer);
    old = peer;
    begin(pass, count, one_way);
    WANT(ristulva_guard_peer(&guard, OUTER, &peer) == RISTULVA_STATE && memcmp(&peer, &old, sizeof peer) == 0);
    answer_open(INNER_OPEN);
    check_way(OUTER);
    check_way(INNER);
}

/* A ROUTE-REFRESH goes on to a side that offers it, for a family that both offer; to another its type is unknown. */
static void refreshes(void)
{
    begin((const uint8_t *)"", 0, 0);
    answer_open(ASKED_OPEN);
    hands_on(OUTER, 5, REFRESH, 1);
    want(INNER, 5, REFRESH);
    drops(OUTER, 5, VPN_REFRESH);
    answers(INNER, 5, REFRESH, 1, 3);
    want(INNER, 3, "0103 05");
    want(OUTER, 3, "0604");
    check_way(INNER);
    check_way(OUTER);
    finish();
}

/* ---- sessions ---- */

/* What is passed on, and a message that ends the session: 3/1 to its sender, 6/4 to the other. */
static void faults(void)
{
    come_up(NULL, 0, 0);
    sends(INNER, 5);
    hands_on(OUTER, 2, UPDATE, 1);
    want(INNER, 2, UPDATE);
    hands_on(OUTER, 2, BAD_ORIGIN, 0);
    want(INNER, 2, WITHDRAWAL);
    hands_on(OUTER, 2, ODD_UPDATE, 0);
    want(INNER, 2, UPDATE);
    hands_on(INNER, 2, UPDATE, 1);
    want(OUTER, 2, UPDATE);
    answers(OUTER, 2, CUT, 3, 1);
    want(OUTER, 3, "0301");
    want(INNER, 3, "0604");
    check_way(OUTER);
    check_way(INNER);
    WANT(asks_of(OUTER).ended && !asks_of(OUTER).closes && asks_of(INNER).ended && !asks_of(INNER).closes);
    sends(OUTER, wanted[OUTER].len);
    WANT(asks_of(OUTER).closes && !asks_of(INNER).closes);
    sends(INNER, (size_t)-1);
    WANT(asks_of(INNER).closes);
    finish();
}

/* An attribute type that is passed on, and routes that stay inside. */
static void rules(void)
{
    static const uint8_t pass[] = {16, 28, 28};
    come_up(pass, sizeof pass, 7);
    hands_on(OUTER, 2, ODD_UPDATE, 1);
    want(INNER, 2, ODD_UPDATE);
    drops(INNER, 2, UPDATE);
    check_way(OUTER);
    check_way(INNER);
    finish();
}

/* A NOTIFICATION is passed on, and ends both directions; and a side that closes: the other gets what is queued, for ten seconds. */
static void ends(void)
{
    int i;
    come_up(NULL, 0, 0);
    hands_on(INNER, 3, "0602 03627965", 1);
    want(OUTER, 3, "0602 03627965");
    check_way(OUTER);
    WANT(asks_of(OUTER).ended && !asks_of(OUTER).listens);
    finish();
    come_up(NULL, 0, 0);
    happens(OUTER, RISTULVA_SIDE_CLOSED);
    wanted[OUTER].len = 0;
    check_way(OUTER);
    check_way(INNER);
    WANT(asks_of(OUTER).closes);
    for (i = 0; i < 10; i++) {
        WANT(!asks_of(INNER).closes);
        WANT(ristulva_guard_tick(&guard) == RISTULVA_OK);
    }
    WANT(asks_of(INNER).closes && asks_of(INNER).way > 0);
    finish();
}

/* A side that can't be reached, and OPENs that are missing for 240 seconds: 4/0 to the side that sent none, 6/4 to the one that did. */
static void absences(void)
{
    int i;
    memset(wanted, 0, sizeof wanted);
    WANT(ristulva_guard_new(NULL, 0, 0, &guard) == RISTULVA_OK);
    allocations = 0;
    happens(OUTER, RISTULVA_SIDE_STOOD);
    happens(OUTER, RISTULVA_SIDE_UNREACHABLE);
    WANT(asks_of(OUTER).listens && asks_of(OUTER).way == 0);
    happens(INNER, RISTULVA_SIDE_UNREACHABLE);
    want(OUTER, 3, "0605");
    check_way(OUTER);
    check_way(INNER);
    WANT(asks_of(INNER).ended && asks_of(INNER).closes);
    finish();
    begin(NULL, 0, 0);
    hands_on(INNER, 1, INNER_OPEN, 1);
    want(OUTER, 1, INNER_OPEN);
    for (i = 0; i < 240; i++) {
        WANT(!asks_of(OUTER).ended);
        WANT(ristulva_guard_tick(&guard) == RISTULVA_OK);
    }
    want(OUTER, 3, "0400");
    want(INNER, 3, "0604");
    check_way(OUTER);
    check_way(INNER);
    finish();
}

/* With more than 52 KB on the way to a side the other isn't read, until some of it is sent. */
static void stalls(void)
{
    uint8_t octets[RISTULVA_MESSAGE];
    size_t len = message(2, UPDATE, octets), way;
    come_up(NULL, 0, 0);
    for (way = asks_of(INNER).way; way <= 53248; way += len)
        hears(OUTER, octets, len, len, (ristulva_came){RISTULVA_CAME_HANDED_ON, 2, 1, 0, 0});
    WANT(asks_of(INNER).way == way && !asks_of(OUTER).listens && asks_of(INNER).listens);
    hears(OUTER, octets, len, 0, nothing);
    WANT(ristulva_guard_sent(&guard, INNER, way - 53248) == RISTULVA_OK && asks_of(OUTER).listens);
    hears(OUTER, octets, len, len, (ristulva_came){RISTULVA_CAME_HANDED_ON, 2, 1, 0, 0});
    WANT(asks_of(INNER).way == 53248 + len);
    finish();
}

/* ---- arguments ---- */

/* Nothing is changed or written by a call that answers `status`. */
static void left_alone(uint32_t side, uint32_t event, ristulva_status status)
{
    uint8_t octets[RISTULVA_MESSAGE];
    size_t number = 77, len = message(1, OUTER_OPEN, octets);
    ristulva_asks asks;
    ristulva_came came;
    ristulva_peer peer;
    memset(&asks, 0xa5, sizeof asks);
    memset(&came, 0xa5, sizeof came);
    memset(&peer, 0xa5, sizeof peer);
    WANT(ristulva_guard_event(&guard, side, event) == status);
    if (side <= INNER && status == RISTULVA_RANGE)
        return;
    WANT(ristulva_guard_hear(&guard, side, octets, len, &number, &came) == status && number == 77 && came.what == 0xa5 && came.subcode == 0xa5);
    WANT(ristulva_guard_way(&guard, side, octets, sizeof octets, &number) == status && number == 77 && octets[0] == 255);
    WANT(ristulva_guard_sent(&guard, side, 1) == status);
    WANT(ristulva_guard_asks(&guard, side, &asks) == status && asks.listens == 0xa5 && asks.ended == 0xa5);
    WANT(ristulva_guard_peer(&guard, side, &peer) == status && peer.as_number == 0xa5a5a5a5u && peer.ip6 == 0xa5);
}

/* An invalid side or event is reported before a handle without a guard. */
static void ranges(ristulva_status status)
{
    left_alone(2, RISTULVA_SIDE_STOOD, RISTULVA_RANGE);
    left_alone(256, RISTULVA_SIDE_STOOD, RISTULVA_RANGE);
    left_alone(INNER, 0, RISTULVA_RANGE);
    left_alone(OUTER, 5, RISTULVA_RANGE);
    if (status != RISTULVA_OK)
        left_alone(OUTER, RISTULVA_SIDE_CLOSED, status);
}

static void handles(void)
{
    struct ristulva_guard_body *body;
    uint16_t seconds = 77;
    guard.body = NULL;
    ranges(RISTULVA_NO_GUARD);
    WANT(ristulva_guard_stop(&guard) == RISTULVA_NO_GUARD && ristulva_guard_stall(&guard, &seconds) == RISTULVA_NO_GUARD && seconds == 77);
    WANT(ristulva_guard_tick(&guard) == RISTULVA_NO_GUARD && ristulva_guard_free(&guard) == RISTULVA_NO_GUARD && guard.body == NULL);
    for (refused = 1, allocations = 0; ristulva_guard_new(NULL, 0, 0, &guard) == RISTULVA_MEMORY; refused++, allocations = 0)
        WANT(guard.body == NULL && live == 0);
    WANT(refused == 4 && live == 3);
    refused = 0;
    body = guard.body;
    WANT(body != NULL && ristulva_guard_new((const uint8_t *)"\34", 1, 1, &guard) == RISTULVA_IN_USE && guard.body == body && live == 3);
    happens(OUTER, RISTULVA_SIDE_STOOD);
    ranges(RISTULVA_OK);
    WANT(asks_of(OUTER).listens && !asks_of(INNER).listens && asks_of(INNER).way == 0);
    WANT(ristulva_guard_stall(&guard, &seconds) == RISTULVA_OK && seconds == 240);
    WANT(ristulva_guard_stop(&guard) == RISTULVA_OK && asks_of(OUTER).ended && asks_of(OUTER).way == 21 && asks_of(INNER).way == 0);
    WANT(ristulva_guard_free(&guard) == RISTULVA_OK && guard.body == NULL && live == 0);
    WANT(ristulva_guard_free(&guard) == RISTULVA_NO_GUARD);
}

/* ---- by chance ---- */

static uint64_t state = 1;

static uint32_t below(uint32_t bound)
{
    state = state * 6364136223846793005u + 1442695040888963407u;
    return (uint32_t)((state >> 33) % bound);
}

/* A message of some kind, mostly one that belongs there, of which an octet is changed now and then. */
static size_t some_message(uint32_t side, unsigned turn, uint8_t *octets)
{
    static const char *const bodies[] = {UPDATE, BAD_ORIGIN, ODD_UPDATE, "0000 0000", CUT};
    size_t len;
    if (turn == 0)
        len = message(1, side == OUTER ? OUTER_OPEN : INNER_OPEN, octets);
    else if (turn == 1 || below(4) == 0)
        len = message(4, "", octets);
    else
        len = message(below(200) == 0 ? 3 : 2, bodies[below(below(50) == 0 ? 5 : 4)], octets);
    if (below(40) == 0)
        octets[below((uint32_t)len)] = (uint8_t)below(256);
    return len;
}

/* What is queued after these octets is one whole message, or nothing. */
static void check_behind(uint32_t side, size_t before, int is_message)
{
    size_t len = asks_of(side).way, written;
    uint8_t *octets = malloc(len == 0 ? 1 : len);
    ristulva_found found;
    WANT(ristulva_guard_way(&guard, side, octets, len, &written) == RISTULVA_OK && written == len && len >= before);
    WANT(ristulva_front(octets + before, len - before, &found) == RISTULVA_OK);
    WANT(is_message ? found.what == RISTULVA_FOUND && found.len == len - before : len == before);
    free(octets);
}

/* A side sends some octets, in memory of their own. Answers the number consumed. */
static size_t hears_some(uint32_t side, const uint8_t *octets, size_t len)
{
    uint8_t *piece = malloc(len == 0 ? 1 : len);
    ristulva_asks this = asks_of(side), other = asks_of(INNER - side);
    ristulva_came came;
    size_t taken = 77777;
    memcpy(piece, octets, len);
    WANT(ristulva_guard_hear(&guard, side, piece, len, &taken, &came) == RISTULVA_OK && taken <= len);
    WANT(this.listens ? len == 0 || taken > 0 : taken == 0 && came.what == RISTULVA_CAME_NOTHING);
    check_behind(side, this.way, came.what == RISTULVA_CAME_ANSWERED);
    check_behind(INNER - side, other.way, came.what == RISTULVA_CAME_HANDED_ON || came.what == RISTULVA_CAME_ANSWERED);
    WANT(asks_of(side).ended == (this.ended || came.what == RISTULVA_CAME_ANSWERED || came.kind == 3));
    free(piece);
    return taken;
}

/* A session of octets in pieces, of what is sent and of seconds, until both sides are to be closed. */
static void some_life(void)
{
    uint8_t octets[2][RISTULVA_MESSAGE];
    size_t held[2] = {0, 0};
    unsigned turns[2] = {0, 0}, steps = 0;
    begin((const uint8_t *)"\34", below(2), (uint8_t)below(2));
    while (!(asks_of(OUTER).closes && asks_of(INNER).closes)) {
        uint32_t side = below(2);
        size_t taken;
        if (held[side] == 0)
            held[side] = some_message(side, turns[side]++, octets[side]);
        taken = hears_some(side, octets[side], below(2) == 0 ? held[side] : below((uint32_t)held[side] + 1));
        held[side] -= taken;
        memmove(octets[side], octets[side] + taken, held[side]);
        if (below(3) == 0)
            WANT(ristulva_guard_sent(&guard, side, below(2) == 0 ? below(100) : below(100000)) == RISTULVA_OK);
        if (below(10) == 0)
            WANT(ristulva_guard_tick(&guard) == RISTULVA_OK);
        if (below(300) == 0 || steps++ > 5000)
            happens(side, 1 + below(3));
    }
    finish();
}

static void lives(void)
{
    int i;
    for (i = 0; i < 3000; i++)
        some_life();
}

static void *work(void *unused)
{
    handles();
    faults();
    refreshes();
    rules();
    ends();
    absences();
    stalls();
    lives();
    return unused;
}

int main(void)
{
    run_on_stack(work, STACK);
    return 0;
}
