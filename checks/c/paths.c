/* Path identifiers (RFC 7911): values by hand, and then random octets and terms.
 *
 *     paths SEED ROUNDS FILE..
 *
 * Each status of the calls, with what is written and what is unchanged. Then messages of the files, changed at random, by random terms: what
 * ristulva_without_paths writes is a message, no longer than it was, and ristulva_paths has a number for each route of it; where routes have no
 * identifiers it is the message itself, and each number is 0. UPDATEs whose routes get identifiers are what they were without them. Octets lie beside
 * memory that can't be read. Nothing allocates. It runs on 32 KB of stack, and again on 56 KB with ristulva_judge_paths, and ends with 1 at the first
 * answer that the header doesn't allow. */
#include "ristulva.h"
#include "trial.h"
#include "trial_changed.h"
#include "trial_message.h"
#include "trial_stack.h"

#ifndef STACK
#define STACK (32 * 1024)
#define JUDGING_STACK (56 * 1024)
#else
#define JUDGING_STACK STACK
#endif

/* The number of calls. */
static unsigned long calls;

static const ristulva_context all = {0, 1, 1, 1};

static ristulva_terms terms_by(uint8_t refresh, uint8_t paths4, uint8_t paths6)
{
    ristulva_terms terms = {all, refresh, 0, 0, paths4, paths6, 0};
    return terms;
}

/* What the calls write, with one element more than there is room for, which stays. */
static uint8_t written_octets[RISTULVA_MESSAGE + 1];
static uint32_t written_paths[RISTULVA_PATHS + 1];
static size_t count;

/* A call wrote the first `wrote` octets, and none after them, where its status is RISTULVA_OK; else none. */
static void writes(ristulva_status status, const void *at, size_t size, size_t wrote, size_t room)
{
    calls++;
    WANT(status == RISTULVA_OK || is_unwritten(at, size));
    WANT(status != RISTULVA_OK || (wrote <= room && is_unwritten((const uint8_t *)at + wrote, size - wrote)));
}

/* The same of a call that counts the elements of a list. */
static ristulva_status counted(ristulva_status status, const void *list, size_t size, size_t element, size_t room)
{
    writes(status, list, size, count * element, room * element);
    WANT(status == RISTULVA_OK || status == RISTULVA_ROOM || count == 77);
    return status;
}

static ristulva_status without(const ristulva_terms *terms, const uint8_t *octets, size_t len, size_t room)
{
    ristulva_status status;
    memset(written_octets, 0xa5, sizeof written_octets);
    count = 77;
    status = ristulva_without_paths(terms, len != 0 ? octets : NULL, len, room != 0 ? written_octets : NULL, room, &count);
    return counted(status, written_octets, sizeof written_octets, 1, room);
}

static ristulva_status paths(const ristulva_terms *terms, const uint8_t *octets, size_t len, size_t room)
{
    ristulva_status status;
    memset(written_paths, 0xa5, sizeof written_paths);
    count = 77;
    status = ristulva_paths(terms, len != 0 ? octets : NULL, len, room != 0 ? written_paths : NULL, room, &count);
    return counted(status, written_paths, sizeof written_paths, sizeof *written_paths, room);
}

/* Judges octets where routes may have path identifiers, in the second run. */
static int judges;
static ristulva_verdict reported;
static uint8_t said[RISTULVA_DATA + 1];

static ristulva_status judged(const ristulva_terms *terms, const uint8_t *octets, size_t len, size_t room)
{
    ristulva_status status;
    memset(said, 0xa5, sizeof said);
    memset(&reported, 0xa5, sizeof reported);
    status = ristulva_judge_paths(terms, len != 0 ? octets : NULL, len, room != 0 ? said : NULL, room, &reported);
    writes(status, said, sizeof said, reported.data_len, room);
    WANT(status == RISTULVA_OK || status == RISTULVA_ROOM || is_unwritten(&reported, sizeof reported));
    return status;
}

/* ---- by hand ---- */

#define ATTRIBUTES "40010100 40020602010000fde8 400304c0000201"

static void is_plain(ristulva_terms terms, uint8_t kind, const char *given, const char *plain)
{
    uint8_t octets[RISTULVA_MESSAGE], wanted[RISTULVA_MESSAGE];
    size_t len = message(kind, given, octets), size = message(kind, plain, wanted);
    /* What follows the message has no effect. */
    octets[len] = 1;
    WANT(without(&terms, octets, len + 1, RISTULVA_MESSAGE) == RISTULVA_OK && count == size && memcmp(written_octets, wanted, size) == 0);
    WANT(without(&terms, octets, len, size) == RISTULVA_OK && count == size);
    WANT(without(&terms, octets, len, size - 1) == RISTULVA_ROOM && count == size);
    WANT(without(&terms, octets, len, 0) == RISTULVA_ROOM && count == size);
    WANT(without(&terms, octets, len - 1, RISTULVA_MESSAGE) == RISTULVA_INCOMPLETE);
    terms.context.ip6 = terms.context.as4 = terms.context.internal = 0;
    WANT(without(&terms, octets, len, size) == RISTULVA_OK && memcmp(written_octets, wanted, size) == 0);
}

static void has_paths(ristulva_terms terms, uint8_t kind, const char *given, const uint32_t *wanted, size_t size)
{
    uint8_t octets[RISTULVA_MESSAGE];
    size_t len = message(kind, given, octets);
    octets[len] = 1;
    WANT(paths(&terms, octets, len + 1, RISTULVA_PATHS) == RISTULVA_OK && count == size);
    WANT(size == 0 || memcmp(written_paths, wanted, size * sizeof *wanted) == 0);
    WANT(paths(&terms, octets, len, size) == RISTULVA_OK && count == size);
    WANT(size == 0 || (paths(&terms, octets, len, size - 1) == RISTULVA_ROOM && count == size));
    WANT(size == 0 || (paths(&terms, octets, len, 0) == RISTULVA_ROOM && count == size));
    WANT(paths(&terms, octets, len - 1, RISTULVA_PATHS) == RISTULVA_INCOMPLETE);
}

static void by_hand_updates(void)
{
    static const uint32_t two[] = {9, 1}, five[] = {7, 1, 2, 3, 4294967295u}, none[] = {0, 0};
    const ristulva_terms four = terms_by(0, 1, 0), both = terms_by(0, 255, 2), plain = terms_by(2, 0, 0);
    const char *update = "0000 0014 " ATTRIBUTES " 00000001 080a", *withdrawn = "0009 00000007 18c00002 00 0000";
    const char *mixed = "0008 00000007 18c00002 0042 800f11 000201 00000001 2020010db8 00000002 00"
                        "40010100 40020602010000fde8 800e1e 000201 10 20010db8000000000000000000000001 00 00000003 2020010db8 ffffffff 080a";
    const char *treated = "0000 0035 40010103 40020602010000fde8 400304c0000201 800e1e 000201 10 20010db8000000000000000000000001 00"
                          "00000009 2020010db8 00000001 080a";
    is_plain(four, 2, update, "0000 0014 " ATTRIBUTES " 080a");
    is_plain(plain, 2, update, update);
    is_plain(terms_by(0, 0, 1), 2, update, update);
    is_plain(both, 2, treated,
             "0000 0031 40010103 40020602010000fde8 400304c0000201 800e1a 000201 10 20010db8000000000000000000000001 00 2020010db8 080a");
    /* What is left after the last route becomes one octet. */
    is_plain(four, 2, withdrawn, "0005 18c00002 ff 0000");
    is_plain(four, 2, "0000 0000 000000", "0000 0000 ff");
    /* No room for each other: it stays. */
    is_plain(four, 2, "0008 00000007 0000", "0008 00000007 0000");
    has_paths(both, 2, treated, two, 2);
    has_paths(plain, 2, "0000 0014 " ATTRIBUTES " 080a 080b", none, 2);
    has_paths(both, 2, "0000 0000", none, 0);
    has_paths(both, 2, mixed, five, 5);
}

/* An UPDATE is answered by this code and subcode, with these octets of it as data. */
static void is_answered(ristulva_terms terms, const char *given, uint8_t subcode, size_t at, size_t size)
{
    uint8_t octets[RISTULVA_MESSAGE];
    size_t len = message(2, given, octets);
    octets[len] = 1;
    WANT(judged(&terms, octets, len + 1, RISTULVA_DATA) == RISTULVA_OK && reported.verdict == RISTULVA_RESET && reported.kind == 2);
    WANT(reported.code == 3 && reported.subcode == subcode && reported.len == len && reported.data_len == size);
    WANT(memcmp(said, octets + at, size) == 0);
    WANT(judged(&terms, octets, len, size) == RISTULVA_OK);
    WANT(size == 0 || (judged(&terms, octets, len, size - 1) == RISTULVA_ROOM && reported.data_len == size));
    WANT(judged(&terms, octets, len - 1, RISTULVA_DATA) == RISTULVA_INCOMPLETE);
}

static void by_hand_resets(void)
{
    const ristulva_terms both = terms_by(0, 1, 1);
    /* Length 129, and an identifier without a prefix: the attribute is data as it was received. */
    is_answered(both, "0000 0031 40010100 40020602010000fde8 800e1a 000201 10 20010db8000000000000000000000001 00 00000001 81 40050400000064", 9, 36, 29);
    is_answered(both, "0000 000a 800f07 000201 00000001", 9, 23, 10);
    is_answered(both, "0006 00000001 080a 000a 800f07 000201 00000001", 9, 29, 10);
    is_answered(both, "0000 0014 " ATTRIBUTES " 00000001", 10, 0, 0);
    is_answered(both, "0000 0003 006300", 2, 23, 3);
}

static void by_hand_others(void)
{
    const ristulva_terms terms = terms_by(RISTULVA_REFRESH_PLAIN, 1, 1);
    is_plain(terms, 4, "", "");
    is_plain(terms, 3, "0602 6f6b", "0602 6f6b");
    is_plain(terms, 5, "0001 00 01 0000000108 0a", "0001 00 01 0000000108 0a");
    has_paths(terms, 4, "", NULL, 0);
    has_paths(terms, 5, "0001 00 01", NULL, 0);
}

static void by_hand_statuses(void)
{
    uint8_t octets[RISTULVA_MESSAGE];
    ristulva_terms terms = terms_by(0, 1, 1);
    size_t len = message(5, "0001 00 01", octets);
    unsigned refresh;
    WANT(without(&terms, octets, 0, RISTULVA_MESSAGE) == RISTULVA_INCOMPLETE && paths(&terms, octets, 0, RISTULVA_PATHS) == RISTULVA_INCOMPLETE);
    /* A header with a fault: a type that isn't offered. */
    WANT(without(&terms, octets, len, RISTULVA_MESSAGE) == RISTULVA_REFUSED && paths(&terms, octets, len, RISTULVA_PATHS) == RISTULVA_REFUSED);
    for (refresh = RISTULVA_REFRESH_ENHANCED + 1; refresh < 256; refresh++) {
        terms.refresh = (uint8_t)refresh;
        WANT(without(&terms, octets, len, RISTULVA_MESSAGE) == RISTULVA_RANGE && paths(&terms, octets, len, RISTULVA_PATHS) == RISTULVA_RANGE);
        WANT(without(&terms, octets, 0, 0) == RISTULVA_RANGE && paths(&terms, octets, 0, 0) == RISTULVA_RANGE);
        WANT(!judges || (judged(&terms, octets, len, RISTULVA_DATA) == RISTULVA_RANGE && judged(&terms, octets, 0, 0) == RISTULVA_RANGE));
    }
    /* An UPDATE that resets the session without identifiers: it is written, and has no paths. */
    terms.refresh = 0;
    len = message(2, "0000 0014 " ATTRIBUTES " 00000001", octets);
    WANT(without(&terms, octets, len, RISTULVA_MESSAGE) == RISTULVA_OK && paths(&terms, octets, len, RISTULVA_PATHS) == RISTULVA_REFUSED);
    WANT(paths(&terms, octets, len, 0) == RISTULVA_REFUSED);
}

/* ---- at random ---- */

static size_t routes_of(const ristulva_context *context, const uint8_t *octets, size_t len)
{
    ristulva_route_cursor cursor;
    ristulva_route route;
    size_t found = 0;
    WANT(ristulva_begin_routes(context, octets, len, &cursor) == RISTULVA_OK);
    while (ristulva_next_route(octets, len, &cursor, &route) == RISTULVA_OK)
        found++;
    return found;
}

/* A whole message is judged as it is without path identifiers, but for an attribute that is data. */
static void is_judged_as(const ristulva_terms *terms, const uint8_t *octets, size_t len, const ristulva_found *front, const ristulva_verdict *found,
                         const uint8_t *plain_said)
{
    WANT(judged(terms, octets, len, RISTULVA_DATA) == RISTULVA_OK && reported.len == front->len);
    WANT(reported.verdict == found->verdict && reported.kind == found->kind && reported.code == found->code && reported.subcode == found->subcode);
    WANT(reported.data_len == found->data_len || (said[1] == plain_said[1] && (said[1] == 14 || said[1] == 15)));
    WANT(terms->paths4 + terms->paths6 > 0 || (memcmp(&reported, found, sizeof *found) == 0 && memcmp(said, plain_said, found->data_len) == 0));
}

/* What both calls say of octets is what the calls for a context say of the message without path identifiers. */
static void try_octets(const ristulva_terms *terms, const uint8_t *octets, size_t len)
{
    static uint8_t plain[RISTULVA_MESSAGE], plain_said[RISTULVA_DATA];
    ristulva_verdict found;
    ristulva_found front;
    ristulva_terms bare = *terms;
    ristulva_status status = without(terms, octets, len, RISTULVA_MESSAGE), listed;
    size_t size = count, i;
    bare.paths4 = bare.paths6 = 0;
    WANT(ristulva_front_in(&bare, octets, len, &front) == RISTULVA_OK);
    WANT(status == (front.what == RISTULVA_FOUND ? RISTULVA_OK : front.what == RISTULVA_FAULT ? RISTULVA_REFUSED : RISTULVA_INCOMPLETE));
    if (status != RISTULVA_OK) {
        WANT(paths(terms, octets, len, RISTULVA_PATHS) == status);
        if (judges) {
            WANT(judged(terms, octets, len, RISTULVA_DATA) == ristulva_judge_in(&bare, octets, len, plain_said, RISTULVA_DATA, &found));
            WANT(status == RISTULVA_INCOMPLETE || memcmp(&reported, &found, sizeof found) == 0);
        }
        return;
    }
    memcpy(plain, written_octets, size);
    WANT(size <= front.len && (size == front.len || front.kind == 2));
    WANT(terms->paths4 + terms->paths6 > 0 || memcmp(plain, octets, size) == 0);
    WANT(ristulva_judge_in(&bare, plain, size, plain_said, RISTULVA_DATA, &found) == RISTULVA_OK && found.len == size);
    if (judges)
        is_judged_as(terms, octets, len, &front, &found, plain_said);
    listed = paths(terms, octets, len, RISTULVA_PATHS);
    WANT(listed == (front.kind == 2 && found.verdict == RISTULVA_RESET ? RISTULVA_REFUSED : RISTULVA_OK));
    if (listed != RISTULVA_OK)
        return;
    WANT(count == (front.kind == 2 ? routes_of(&terms->context, plain, size) : 0));
    for (i = 0; i < count; i++)
        WANT(terms->paths4 + terms->paths6 > 0 || written_paths[i] == 0);
}

/* Whether an UPDATE has MP_REACH_NLRI or MP_UNREACH_NLRI. */
static int is_multiprotocol(const uint8_t *octets, size_t len, const ristulva_span *attributes)
{
    ristulva_attributes cursor = {attributes->at, attributes->at + attributes->len};
    ristulva_attribute it;
    while (ristulva_next_attribute(octets, len, &cursor, &it) == RISTULVA_OK)
        if (it.kind == 14 || it.kind == 15)
            return 1;
    return 0;
}

/* Each route of the NLRI field of an UPDATE gets an identifier; without them it is what it was. */
static void try_identified(const uint8_t *octets, size_t len)
{
    static uint8_t longer[5 * RISTULVA_MESSAGE];
    const ristulva_terms terms = terms_by(0, 1, 0);
    ristulva_verdict verdict;
    ristulva_prefixes cursor;
    ristulva_prefix prefix;
    size_t at, wanted = 0, i;
    if (ristulva_judge(&all, octets, len, NULL, 0, &verdict) != RISTULVA_OK || verdict.verdict != RISTULVA_UPDATE || verdict.parts.withdrawn.len > 0 ||
        is_multiprotocol(octets, len, &verdict.parts.attributes))
        return;
    at = verdict.parts.nlri.at;
    memcpy(longer, octets, at);
    cursor.at = verdict.parts.nlri.at;
    cursor.end = verdict.parts.nlri.at + verdict.parts.nlri.len;
    cursor.afi = 1;
    for (;;) {
        size_t from = cursor.at;
        if (ristulva_next_prefix(octets, len, &cursor, &prefix) != RISTULVA_OK)
            break;
        longer[at] = longer[at + 1] = 0;
        longer[at + 2] = (uint8_t)(wanted >> 8);
        longer[at + 3] = (uint8_t)wanted++;
        memcpy(longer + at + 4, octets + from, cursor.at - from);
        at += 4 + cursor.at - from;
    }
    if (at > RISTULVA_MESSAGE)
        return;
    longer[16] = (uint8_t)(at >> 8);
    longer[17] = (uint8_t)at;
    WANT(without(&terms, longer, at, RISTULVA_MESSAGE) == RISTULVA_OK && count == verdict.len);
    /* Bits after the length of a prefix are 0 there. */
    WANT(memcmp(written_octets, octets, verdict.parts.nlri.at) == 0);
    WANT(routes_of(&all, written_octets, count) == wanted);
    WANT(paths(&terms, longer, at, RISTULVA_PATHS) == RISTULVA_OK && count == wanted);
    for (i = 0; i < wanted; i++)
        WANT(written_paths[i] == i);
}

static void *work(void *unused)
{
    static uint8_t octets[RISTULVA_MESSAGE];
    unsigned long i;
    refused = 1;
    by_hand_updates();
    if (judges)
        by_hand_resets();
    by_hand_others();
    by_hand_statuses();
    for (i = 0; i < rounds; i++) {
        size_t len = change(octets, some_message(octets), 4);
        const uint8_t *given = placed(octets, len);
        const ristulva_context context = {(uint8_t)below(2), (uint8_t)(below(3) * 100), (uint8_t)below(2), (uint8_t)below(2)};
        const ristulva_terms terms = {context, (uint8_t)below(3), 0, 0, (uint8_t)below(3), (uint8_t)below(3), 0};
        try_octets(&terms, given, len);
        try_identified(given, len);
    }
    WANT(allocations == 0);
    return unused;
}

int main(int argc, char **argv)
{
    begin(argc, argv);
    run_on_stack(work, STACK);
    judges = 1;
    run_on_stack(work, JUDGING_STACK);
    printf("%lu calls\n", calls);
    return 0;
}
