/* Two sessions in one program, whose octets go from one to the other by buffers: they come up, exchange UPDATEs and end, and each answer is
 * tried:
 *
 *     sessions
 *
 * It has its own functions for memory (trial.h), so it is linked with libristulva.a: cc -pthread sessions.c -l:libristulva.a -o sessions.
 * Each allocation fails in turn, on STACK octets of stack. It prints what the sessions did in one life, and ends with 1 at the first
 * answer that the header doesn't allow. */
#include "ristulva.h"
#include "trial.h"
#include "trial_stack.h"
#include <string.h>

#ifndef STACK
#define STACK (64 * 1024)
#endif

/* ---- a side: a session, and what came for it ---- */

struct side {
    const char *name;
    ristulva_session session;
    uint8_t octets[8192];
    size_t held;
    ristulva_heard heard;
    struct side *peer;
    int loud;
};

static const char *const done[] = {"nothing", "seek", "close", "send OPEN", "send KEEPALIVE", "send NOTIFICATION",
                                   "arm", "disarm", "announce", "withdraw", "flush"};

static uint8_t state_of(struct side *side)
{
    uint8_t state = 77;
    WANT(ristulva_session_state(&side->session, &state) == RISTULVA_OK);
    WANT(state >= RISTULVA_IDLE && state <= RISTULVA_ESTABLISHED);
    return state;
}

/* Does what a session answers: what it sends is passed to its peer. */
static void carry_out(struct side *side, const ristulva_actions *actions, const uint8_t *message, size_t len)
{
    size_t i, sent = 0;
    WANT(actions->count <= RISTULVA_ACTIONS);
    for (i = 0; i < RISTULVA_ACTIONS; i++) {
        const ristulva_action *action = &actions->list[i];
        WANT((action->kind == RISTULVA_DO_NOTHING) == (i >= actions->count));
        WANT(action->kind <= RISTULVA_DO_FLUSH);
        sent += action->kind >= RISTULVA_DO_SEND_OPEN && action->kind <= RISTULVA_DO_SEND_NOTIFICATION;
        if (side->loud && i < actions->count) {
            printf("%s: %s", side->name, done[action->kind]);
            if (action->kind == RISTULVA_DO_ARM || action->kind == RISTULVA_DO_DISARM)
                printf(" %u %u", action->timer, action->seconds);
            if (action->kind == RISTULVA_DO_SEND_NOTIFICATION)
                printf(" %u/%u", action->code, action->subcode);
            printf("\n");
        }
    }
    WANT(sent <= 1 && (sent == 1) == (len > 0));
    WANT(side->peer->held + len <= sizeof side->peer->octets);
    memcpy(side->peer->octets + side->peer->held, message, len);
    side->peer->held += len;
}

static void happens(struct side *side, uint32_t event)
{
    uint8_t message[RISTULVA_MESSAGE + 1];
    ristulva_actions actions;
    size_t len = 77;
    memset(message, 0x5a, sizeof message);
    WANT(ristulva_session_event(&side->session, event, &actions, message, RISTULVA_MESSAGE - 1, &len) == RISTULVA_ROOM);
    WANT(ristulva_session_event(&side->session, event + 100, &actions, message, RISTULVA_MESSAGE, &len) == RISTULVA_RANGE);
    WANT(len == 77 && message[0] == 0x5a);
    WANT(ristulva_session_event(&side->session, event, &actions, message, RISTULVA_MESSAGE, &len) == RISTULVA_OK);
    WANT(len <= RISTULVA_MESSAGE && message[len] == 0x5a);
    carry_out(side, &actions, message, len);
}

/* Passes a side the first message that came for it. Answers whether there was one. */
static int hears(struct side *side)
{
    uint8_t message[RISTULVA_MESSAGE + 1];
    ristulva_actions actions;
    ristulva_status status;
    size_t len = 77;
    memset(message, 0x5a, sizeof message);
    memset(&actions, 0x5a, sizeof actions);
    memset(&side->heard, 0x5a, sizeof side->heard);
    WANT(ristulva_session_hear(&side->session, side->octets, side->held, &side->heard, &actions, message, RISTULVA_MESSAGE - 1, &len) == RISTULVA_ROOM);
    status = ristulva_session_hear(&side->session, side->octets, side->held, &side->heard, &actions, message, RISTULVA_MESSAGE, &len);
    if (status != RISTULVA_OK) {
        WANT(status == (state_of(side) <= RISTULVA_ACTIVE ? RISTULVA_STATE : RISTULVA_INCOMPLETE));
        WANT(len == 77 && message[0] == 0x5a && actions.list[0].kind == 0x5a && side->heard.len == 0x5a5a5a5au);
        return 0;
    }
    WANT(side->heard.len >= 19 && side->heard.len <= side->held);
    carry_out(side, &actions, message, len);
    side->held -= side->heard.len;
    memmove(side->octets, side->octets + side->heard.len, side->held);
    if (side->loud)
        printf("%s: heard %u %u/%u, %u octets\n", side->name, side->heard.heard, side->heard.code, side->heard.subcode, side->heard.len);
    return 1;
}

/* Sends a body, while each allocation fails in turn: nothing changes by that. Before it, its first octet alone, which is no body, and one that is too
 * long: in all states but Established that doesn't matter. */
static ristulva_status sends(struct side *side, const uint8_t *body, size_t len)
{
    uint8_t message[RISTULVA_MESSAGE];
    ristulva_actions actions;
    ristulva_status status;
    size_t written = 77;
    long before = live;
    memset(message, 0x5a, sizeof message);
    WANT(ristulva_session_send(&side->session, body, RISTULVA_BODY + 1, &actions, message, sizeof message - 1, &written) == RISTULVA_ROOM);
    status = ristulva_session_send(&side->session, body, 1, &actions, message, sizeof message, &written);
    WANT(status == (state_of(side) == RISTULVA_ESTABLISHED ? RISTULVA_REFUSED : RISTULVA_STATE));
    status = ristulva_session_send(&side->session, message, RISTULVA_BODY + 1, &actions, message, sizeof message, &written);
    WANT(status == (state_of(side) == RISTULVA_ESTABLISHED ? RISTULVA_RANGE : RISTULVA_STATE));
    for (refused = 1;; refused++) {
        allocations = 0;
        status = ristulva_session_send(&side->session, body, len, &actions, message, sizeof message, &written);
        WANT(live == before);
        if (status != RISTULVA_MEMORY)
            break;
        WANT(written == 77 && message[0] == 0x5a);
    }
    refused = 0;
    if (status == RISTULVA_OK)
        WANT(written >= 23 && written <= sizeof message);
    else
        WANT(written == 77 && message[0] == 0x5a);
    if (status == RISTULVA_OK) {
        size_t i;
        WANT(actions.count <= 1);
        for (i = 0; i < actions.count; i++)
            WANT(actions.list[i].kind == RISTULVA_DO_ARM && actions.list[i].timer == RISTULVA_TIMER_KEEPALIVE && actions.list[i].seconds > 0);
        memcpy(side->peer->octets + side->peer->held, message, written);
        side->peer->held += written;
    }
    return status;
}

/* ---- an empty handle ---- */

static void try_empty(void)
{
    ristulva_session none = {NULL};
    ristulva_actions actions;
    ristulva_context context;
    ristulva_heard heard;
    ristulva_peer peer;
    uint8_t message[RISTULVA_MESSAGE] = {0}, state;
    uint16_t hold;
    size_t len;
    WANT(ristulva_session_free(&none) == RISTULVA_NO_SESSION);
    WANT(ristulva_session_state(&none, &state) == RISTULVA_NO_SESSION);
    WANT(ristulva_session_event(&none, RISTULVA_EVENT_START, &actions, message, sizeof message, &len) == RISTULVA_NO_SESSION);
    WANT(ristulva_session_hear(&none, message, 0, &heard, &actions, message + 0, sizeof message, &len) == RISTULVA_NO_SESSION);
    WANT(ristulva_session_context(&none, &context, &hold) == RISTULVA_NO_SESSION);
    WANT(ristulva_session_peer(&none, &peer) == RISTULVA_NO_SESSION);
    WANT(ristulva_session_codes(&none, message, sizeof message, &len) == RISTULVA_NO_SESSION);
    WANT(ristulva_session_open(&none, message, sizeof message, &len) == RISTULVA_NO_SESSION);
    WANT(ristulva_session_send(&none, message, 4, &actions, message, sizeof message, &len) == RISTULVA_NO_SESSION);
    WANT(none.body == NULL);
}

/* ---- configurations ---- */

static void make(ristulva_session *session, const ristulva_config *config)
{
    session->body = NULL;
    allocations = 0;
    refused = 1;
    WANT(ristulva_session_new(config, session) == RISTULVA_MEMORY && session->body == NULL);
    refused = 0;
    WANT(ristulva_session_new(config, session) == RISTULVA_OK && session->body != NULL);
    WANT(ristulva_session_new(config, session) == RISTULVA_IN_USE);
}

static void try_configs(const ristulva_config *good)
{
    ristulva_session session = {NULL};
    ristulva_config config = *good;
    config.local_as = 0;
    WANT(ristulva_session_new(&config, &session) == RISTULVA_CONFIG);
    config = *good;
    config.peer_as = 0;
    WANT(ristulva_session_new(&config, &session) == RISTULVA_CONFIG);
    config = *good;
    memset(config.id, 0, 4);
    WANT(ristulva_session_new(&config, &session) == RISTULVA_CONFIG);
    config = *good;
    config.hold = 2;
    WANT(ristulva_session_new(&config, &session) == RISTULVA_CONFIG);
    config = *good;
    config.local_as = 70000;
    config.as4 = 0;
    WANT(ristulva_session_new(&config, &session) == RISTULVA_CONFIG);
    WANT(session.body == NULL);
}

/* ---- a life of two sessions ---- */

/* 10.0.0.0/8 by the path 70000 65001, next hop 192.0.2.1. */
static const uint8_t announcement[] = {0, 0, 0, 24, 64, 1, 1, 0, 64, 2, 10, 2, 2, 0, 1, 17, 112, 0, 0, 253, 233, 64, 3, 4, 192, 0, 2, 1, 8, 10};

/* The same without a next hop, as a whole message with AS numbers of two octets: treated as a withdrawal. */
static const uint8_t without_hop[] = {255, 255, 255, 255, 255, 255, 255, 255, 255, 255, 255, 255, 255, 255, 255, 255, 0, 36, 2,
                                      0, 0, 0, 11, 64, 1, 1, 0, 64, 2, 4, 2, 1, 253, 233, 8, 10};

/* A KEEPALIVE whose header says that it has 20 octets. */
static const uint8_t long_keepalive[] = {255, 255, 255, 255, 255, 255, 255, 255, 255, 255, 255, 255, 255, 255, 255, 255, 0, 20, 4, 0};

static void come_up(struct side *one, struct side *other, uint8_t as4)
{
    ristulva_context context, told;
    ristulva_peer peer;
    uint8_t codes[256];
    uint16_t hold;
    size_t len = 77;
    WANT(sends(one, announcement, sizeof announcement) == RISTULVA_STATE);
    WANT(ristulva_session_context(&one->session, &context, &hold) == RISTULVA_STATE);
    WANT(ristulva_session_peer(&one->session, &peer) == RISTULVA_STATE);
    WANT(ristulva_session_codes(&one->session, codes, sizeof codes, &len) == RISTULVA_STATE && len == 77);
    happens(one, RISTULVA_EVENT_START);
    happens(other, RISTULVA_EVENT_START);
    WANT(!hears(one) && state_of(one) == RISTULVA_CONNECT);
    happens(one, RISTULVA_EVENT_CONNECTED);
    happens(other, RISTULVA_EVENT_CONNECTED);
    WANT(state_of(one) == RISTULVA_OPEN_SENT && sends(one, announcement, sizeof announcement) == RISTULVA_STATE);
    WANT(hears(one) && one->heard.heard == RISTULVA_OPEN && state_of(one) == RISTULVA_OPEN_CONFIRM);
    WANT(sends(one, announcement, sizeof announcement) == RISTULVA_STATE);
    WANT(hears(other) && hears(other) && hears(one));
    WANT(one->heard.heard == RISTULVA_KEEPALIVE && other->heard.heard == RISTULVA_KEEPALIVE);
    WANT(!hears(one) && !hears(other) && one->held == 0 && other->held == 0);
    WANT(state_of(one) == RISTULVA_ESTABLISHED && state_of(other) == RISTULVA_ESTABLISHED);
    WANT(ristulva_session_context(&one->session, &context, &hold) == RISTULVA_OK);
    WANT(hold == 30 && context.as4 == as4 && context.ip4 == 1 && context.ip6 == 0 && context.internal == 0);
    WANT(ristulva_session_context(&other->session, &told, &hold) == RISTULVA_OK && memcmp(&told, &context, sizeof told) == 0);
    WANT(ristulva_session_peer(&one->session, &peer) == RISTULVA_OK);
    WANT(peer.as_number == 65002 && peer.id[3] == 2 && peer.hold == 90 && peer.as4 == as4 && peer.ip4 == 1 && peer.ip6 == 0);
    WANT(ristulva_session_codes(&one->session, codes, 0, &len) == RISTULVA_ROOM && len == 1u + as4);
    WANT(ristulva_session_codes(&one->session, codes, sizeof codes, &len) == RISTULVA_OK && codes[0] == 1 && (!as4 || codes[1] == 65));
}

/* What came is the announcement: one prefix, and a path as wide as the session's AS numbers. */
static void check_routes(struct side *side, const uint8_t *octets)
{
    ristulva_prefixes cursor = {side->heard.parts.nlri.at, side->heard.parts.nlri.at + side->heard.parts.nlri.len, 1};
    ristulva_prefix prefix;
    WANT(side->heard.parts.withdrawn.len == 0 && side->heard.parts.attributes.len > 0);
    WANT(ristulva_next_prefix(octets, side->heard.len, &cursor, &prefix) == RISTULVA_OK);
    WANT(prefix.len == 8 && prefix.addr[0] == 10);
    WANT(ristulva_next_prefix(octets, side->heard.len, &cursor, &prefix) == RISTULVA_END);
}

static void exchange(struct side *one, struct side *other)
{
    uint8_t octets[RISTULVA_MESSAGE], mixed[64];
    size_t len;
    WANT(sends(one, announcement, sizeof announcement) == RISTULVA_OK);
    memcpy(octets, other->octets, len = other->held);
    WANT(hears(other) && other->heard.heard == RISTULVA_UPDATE && other->heard.len == len);
    check_routes(other, octets);
    /* A next hop is missing; two kinds of routes. */
    WANT(sends(one, without_hop + 19, sizeof without_hop - 19) == RISTULVA_REFUSED);
    memcpy(mixed, "\0\2\10\12", 4);
    memcpy(mixed + 4, announcement + 2, sizeof announcement - 2);
    WANT(sends(one, mixed, sizeof announcement + 2) == RISTULVA_MIXED);
    happens(one, RISTULVA_EVENT_KEEPALIVE_EXPIRED);
    happens(one, RISTULVA_EVENT_KEEPALIVE_EXPIRED);
    WANT(hears(other) && hears(other) && !hears(other));
}

/* How a life ends. */
enum end { STOPPED, SILENT, LOST, FAULTY, WITHDRAWN };

static void come_down(struct side *one, struct side *other, enum end end)
{
    const uint8_t *octets = end == FAULTY ? long_keepalive : without_hop;
    if (end == STOPPED || end == SILENT) {
        happens(one, end == STOPPED ? RISTULVA_EVENT_STOP : RISTULVA_EVENT_HOLD_EXPIRED);
        WANT(hears(other) && other->heard.heard == RISTULVA_NOTIFICATION && other->heard.code == (end == STOPPED ? 6 : 4));
    } else if (end == LOST) {
        happens(one, RISTULVA_EVENT_FAILED);
        happens(other, RISTULVA_EVENT_FAILED);
    } else {
        memcpy(other->octets, octets, other->held = end == FAULTY ? sizeof long_keepalive : sizeof without_hop);
        WANT(hears(other) && other->heard.heard == (end == FAULTY ? RISTULVA_RESET : RISTULVA_WITHDRAW));
        if (end == WITHDRAWN) {
            WANT(state_of(other) == RISTULVA_ESTABLISHED && other->heard.parts.nlri.len == 2);
            happens(other, RISTULVA_EVENT_STOP);
        } else
            WANT(other->heard.code == 1 && other->heard.subcode == 2 && other->heard.len == 19);
        WANT(hears(one) && one->heard.heard == RISTULVA_NOTIFICATION && one->heard.code == (end == FAULTY ? 1 : 6));
    }
    WANT(state_of(one) == RISTULVA_IDLE && state_of(other) == RISTULVA_IDLE && !hears(one) && !hears(other));
}

static void live_once(uint8_t as4, enum end end, int loud)
{
    ristulva_config local = {65001, 65002, {192, 0, 2, 1}, 30, 1, 1, 1}, remote = {65002, 65001, {192, 0, 2, 2}, 90, 1, 1, 0};
    static struct side one, other;
    uint8_t open[64];
    size_t len = 0;
    memset(&one, 0, sizeof one);
    memset(&other, 0, sizeof other);
    remote.as4 = as4;
    one.name = "one", other.name = "other", one.peer = &other, other.peer = &one, one.loud = other.loud = loud;
    make(&one.session, &local);
    make(&other.session, &remote);
    WANT(live == 2);
    try_configs(&local);
    WANT(ristulva_session_open(&one.session, open, 20, &len) == RISTULVA_ROOM && len > 20 && len <= 49);
    WANT(ristulva_session_open(&one.session, open, sizeof open, &len) == RISTULVA_OK && open[18] == 1);
    come_up(&one, &other, as4);
    exchange(&one, &other);
    come_down(&one, &other, end);
    WANT(ristulva_session_free(&one.session) == RISTULVA_OK && one.session.body == NULL);
    WANT(ristulva_session_free(&other.session) == RISTULVA_OK && live == 0);
}

static void *work(void *unused)
{
    int end;
    try_empty();
    live_once(1, STOPPED, 1);
    for (end = STOPPED; end <= WITHDRAWN; end++) {
        if (end != WITHDRAWN)
            live_once(1, (enum end)end, 0);
        live_once(0, (enum end)end, 0);
    }
    return unused;
}

int main(void)
{
    run_on_stack(work, STACK);
    return 0;
}
