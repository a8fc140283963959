/* What everybody asks of UPDATEs and OPENs: values by hand, and then random octets and cursors.
 *
 *     asked SEED ROUNDS FILE..
 *
 * The files have streams of octets, of which some are changed at random; octets lie beside memory that can't be read. Nothing of this allocates:
 * the first allocation would fail. It runs on 32 KB of stack, and ends with 1 at the first answer that the header doesn't allow. */
#include "ristulva.h"
#include "trial.h"
#include "trial_changed.h"
#include "trial_message.h"
#include "trial_stack.h"

#ifndef STACK
#define STACK (32 * 1024)
#endif

/* ---- octets by hand ---- */

struct octets {
    uint8_t at[RISTULVA_MESSAGE];
    size_t len;
};

static void add(struct octets *to, const char *hex)
{
    to->len += octets_of(hex, to->at + to->len);
}

static void make(struct octets *to, uint8_t kind, const char *body)
{
    to->len = message(kind, body, to->at);
}

/* An UPDATE that withdraws 10.1.0.0/16, with these attributes, of this length, and 10.0.0.0/8 as its NLRI. */
static void update(struct octets *message, const char *attributes)
{
    struct octets field = {{0}, 0};
    char *body = malloc(64 + strlen(attributes));
    WANT(body != NULL);
    add(&field, attributes);
    sprintf(body, "0003 100a01 %04x %s 080a", (unsigned)field.len, attributes);
    make(message, 2, body);
    free(body);
}

#define PATHS "40020602 02fde9 5ba0 c0 11 06 0201 00030d40" /* 65001 23456, and 200000 of AS4_PATH */
#define ORIGIN "40010102"                                    /* INCOMPLETE */
#define HOPS "400304c0000201 80 0e 2a 0002 01 20 20010db8000000000000000000000001 fe800000000000000000000000000001 00 20 20010db8"
#define GONE "800f0a 0002 01 30 20010db80001"
#define OTHERS "80040400000007 40050400000064 400600 c007065ba0c0000209 c0120800030d40c0000209 c00808fde80001fde80002"
#define MORE "c0200c 0000fde8 00000001 00000002 c0c802abcd c0c900"

static const ristulva_context two = {1, 0, 1, 1}, four = {1, 1, 1, 1}, without = {1, 0, 1, 0};

static uint8_t prefix_is(const ristulva_prefix *prefix, uint16_t afi, uint8_t len, const char *hex)
{
    struct octets wanted = {{0}, 0};
    add(&wanted, hex);
    return prefix->afi == afi && prefix->len == len && memcmp(prefix->addr, wanted.at, 16) == 0;
}

static int octets_are(const struct octets *message, ristulva_span span, const char *hex)
{
    struct octets wanted = {{0}, 0};
    add(&wanted, hex);
    return span.len == wanted.len && memcmp(message->at + span.at, wanted.at, wanted.len) == 0;
}

static void by_hand_facts(void)
{
    static struct octets message;
    ristulva_update_facts facts;
    update(&message, ORIGIN PATHS HOPS GONE OTHERS MORE);
    WANT(ristulva_facts(&two, message.at, message.len, &facts) == RISTULVA_OK);
    WANT(facts.has_origin == 1 && facts.origin == RISTULVA_ORIGIN_INCOMPLETE);
    WANT(facts.hops.has_next_hop == 1 && memcmp(facts.hops.next_hop, "\300\0\2\1", 4) == 0);
    WANT(facts.hops.mp_afi == 2 && memcmp(facts.hops.mp_next_hop, "\40\1\15\270\0\0\0\0\0\0\0\0\0\0\0\1", 16) == 0);
    WANT(facts.hops.has_link_local == 1 && memcmp(facts.hops.link_local, "\376\200\0\0\0\0\0\0\0\0\0\0\0\0\0\1", 16) == 0);
    WANT(facts.has_med == 1 && facts.med == 7 && facts.has_local_pref == 1 && facts.local_pref == 100 && facts.atomic_aggregate == 1);
    WANT(facts.has_aggregator == 1 && facts.aggregator_as == 200000 && memcmp(facts.aggregator_address, "\300\0\2\11", 4) == 0);
    WANT(facts.paths.has_as_path == 1 && octets_are(&message, facts.paths.as_path, "0202fde95ba0"));
    WANT(facts.paths.has_as4_path == 1 && octets_are(&message, facts.paths.as4_path, "020100030d40"));
    WANT(facts.paths.has_communities == 1 && octets_are(&message, facts.paths.communities, "fde80001fde80002"));
    WANT(facts.paths.has_large_communities == 1 && octets_are(&message, facts.paths.large_communities, "0000fde80000000100000002"));
    WANT(facts.paths.has_origin_as == 1 && facts.paths.origin_as == 200000 && facts.unrecognised == 2);
    /* LOCAL_PREF is discarded on an external session, and AS4_PATH where AS numbers have four octets. */
    update(&message, ORIGIN "40020a0202 0000fde9 0000fdea" "c0110602 0100030d40" "400304c0000201" "40050400000064");
    {
        ristulva_context external = four;
        external.internal = 0;
        WANT(ristulva_facts(&external, message.at, message.len, &facts) == RISTULVA_OK);
    }
    WANT(facts.has_local_pref == 0 && facts.local_pref == 0 && facts.paths.has_as4_path == 0 && facts.paths.as4_path.at == 0);
    WANT(facts.paths.origin_as == 65002 && facts.hops.mp_afi == 0 && facts.has_aggregator == 0 && facts.has_med == 0 && facts.unrecognised == 0);
    /* A path that ends in a set, and an empty one. */
    update(&message, ORIGIN "40020c0201 0000fde9 0101 0000fdea" "400304c0000201");
    WANT(ristulva_facts(&four, message.at, message.len, &facts) == RISTULVA_OK && facts.paths.has_origin_as == 0 && facts.paths.origin_as == 0);
    update(&message, ORIGIN "400200" "400304c0000201");
    WANT(ristulva_facts(&four, message.at, message.len, &facts) == RISTULVA_OK && facts.paths.has_origin_as == 0 && facts.paths.origin_as == 0);
    WANT(facts.paths.has_as_path == 1 && facts.paths.as_path.len == 0 && facts.paths.as_path.at == 33);
    /* An ORIGIN without a meaning: treated as a withdrawal. */
    update(&message, "40010109" "400200" "400304c0000201");
    memset(&facts, 0xa5, sizeof facts);
    WANT(ristulva_facts(&four, message.at, message.len, &facts) == RISTULVA_REFUSED && facts.med == 0xa5a5a5a5u && facts.origin == 0xa5);
    make(&message, 4, "");
    WANT(ristulva_facts(&four, message.at, 18, &facts) == RISTULVA_INCOMPLETE && facts.med == 0xa5a5a5a5u);
    WANT(ristulva_facts(&four, message.at, 19, &facts) == RISTULVA_REFUSED && facts.med == 0xa5a5a5a5u);
    message.at[0] = 0;
    WANT(ristulva_facts(&four, message.at, 19, &facts) == RISTULVA_REFUSED && facts.med == 0xa5a5a5a5u);
}

struct wanted_route {
    uint8_t announced;
    uint16_t afi;
    uint8_t len;
    const char *address;
};

static void routes_are(const ristulva_context *context, const struct octets *message, uint8_t loses, const struct wanted_route *wanted, size_t count)
{
    ristulva_route_cursor cursor;
    ristulva_route route;
    size_t i;
    WANT(ristulva_begin_routes(context, message->at, message->len, &cursor) == RISTULVA_OK && cursor.loses_ip6 == loses);
    for (i = 0; i < count; i++) {
        WANT(ristulva_next_route(message->at, message->len, &cursor, &route) == RISTULVA_OK && route.announced == wanted[i].announced);
        WANT(prefix_is(&route.prefix, wanted[i].afi, wanted[i].len, wanted[i].address));
    }
    WANT(ristulva_next_route(message->at, message->len, &cursor, &route) == RISTULVA_END);
}

#define TEN "0a000000 000000000000000000000000"
#define TEN_ONE "0a010000 000000000000000000000000"
#define DOC "20010db8 000000000000000000000000"
#define DOC_ONE "20010db80001 00000000000000000000"

static void by_hand_routes(void)
{
    static const struct wanted_route taken[] = {{0, 1, 16, TEN_ONE}, {0, 2, 48, DOC_ONE}, {1, 2, 32, DOC}, {1, 1, 8, TEN}};
    static const struct wanted_route withdrawn[] = {{0, 1, 16, TEN_ONE}, {0, 2, 48, DOC_ONE}, {0, 2, 32, DOC}, {0, 1, 8, TEN}};
    static const struct wanted_route lost[] = {{0, 1, 16, TEN_ONE}, {1, 1, 8, TEN}};
    static struct octets message;
    ristulva_route_cursor cursor;
    update(&message, ORIGIN PATHS HOPS GONE);
    routes_are(&two, &message, 0, taken, 4);
    routes_are(&without, &message, 1, lost, 2);
    update(&message, "40010109" PATHS HOPS GONE);
    routes_are(&two, &message, 0, withdrawn, 4);
    /* An End-of-RIB of IPv6: no route is lost, and the family is. */
    make(&message, 2, "0000 0006 800f03 000201");
    routes_are(&two, &message, 0, taken, 0);
    routes_are(&without, &message, 1, taken, 0);
    /* ORIGIN twice: the first counts. MP_REACH_NLRI twice ends the session. */
    update(&message, ORIGIN ORIGIN PATHS HOPS GONE);
    routes_are(&two, &message, 0, taken, 4);
    update(&message, ORIGIN PATHS HOPS HOPS GONE);
    routes_are(&two, &message, 0, taken, 0);
    make(&message, 4, "");
    routes_are(&two, &message, 0, taken, 0);
    memset(&cursor, 0xa5, sizeof cursor);
    WANT(ristulva_begin_routes(&two, message.at, 18, &cursor) == RISTULVA_INCOMPLETE && cursor.loses_ip6 == 0xa5 && cursor.nlri.at == 0xa5a5a5a5u);
    message.at[0] = 0;
    routes_are(&two, &message, 0, taken, 0);
}

static void by_hand_agreement(void)
{
    static struct octets ours, theirs, other;
    ristulva_context context;
    uint16_t hold = 77;
    /* AS 65001, 180 s, IPv4 and IPv6 unicast, AS numbers of four octets; AS 200000, 90 s, IPv4 unicast and AS numbers of four octets. */
    make(&ours, 1, "04 fde9 00b4 c0000201 16 0214 010400010001 010400020001 41040000fde9 0200");
    make(&theirs, 1, "04 5ba0 005a c0000202 0e 020c 010400010001 410400030d40");
    WANT(ristulva_agree(ours.at, ours.len, theirs.at, theirs.len, &context, &hold) == RISTULVA_OK);
    WANT(context.internal == 0 && context.as4 == 1 && context.ip4 == 1 && context.ip6 == 0 && hold == 90);
    WANT(ristulva_agree(theirs.at, theirs.len, ours.at, ours.len, &context, &hold) == RISTULVA_OK);
    WANT(context.internal == 0 && context.as4 == 1 && context.ip4 == 1 && context.ip6 == 0 && hold == 90);
    /* The same AS: also where the identifier is the same, which a speaker would refuse. Nothing is offered. */
    WANT(ristulva_agree(ours.at, ours.len, ours.at, ours.len, &context, &hold) == RISTULVA_OK && context.internal == 1 && context.ip6 == 1 && hold == 180);
    make(&other, 1, "04 fde9 0000 c0000203 00");
    WANT(ristulva_agree(ours.at, ours.len, other.at, other.len, &context, &hold) == RISTULVA_OK);
    WANT(context.internal == 1 && context.as4 == 0 && context.ip4 == 0 && context.ip6 == 0 && hold == 0);
    /* My Autonomous System 65001 beside AS 65002 by the capability, which the other doesn't see (RFC 6793, section 4.1). */
    make(&theirs, 1, "04 fde9 005a c0000202 08 0206 41040000fdea");
    WANT(ristulva_agree(theirs.at, theirs.len, other.at, other.len, &context, &hold) == RISTULVA_OK && context.internal == 1 && context.as4 == 0);
    WANT(ristulva_agree(theirs.at, theirs.len, ours.at, ours.len, &context, &hold) == RISTULVA_OK && context.internal == 0 && context.as4 == 1);
    /* The status is that of the first that isn't an OPEN. */
    memset(&context, 0xa5, sizeof context);
    hold = 77;
    make(&other, 4, "");
    WANT(ristulva_agree(ours.at, ours.len, other.at, other.len, &context, &hold) == RISTULVA_REFUSED);
    WANT(ristulva_agree(ours.at, 18, other.at, other.len, &context, &hold) == RISTULVA_INCOMPLETE);
    WANT(ristulva_agree(other.at, other.len, ours.at, 18, &context, &hold) == RISTULVA_REFUSED);
    WANT(ristulva_agree(ours.at, ours.len, ours.at, 18, &context, &hold) == RISTULVA_INCOMPLETE);
    make(&other, 1, "03 fde9 0000 c0000203 00");
    WANT(ristulva_agree(other.at, other.len, ours.at, ours.len, &context, &hold) == RISTULVA_REFUSED);
    WANT(context.internal == 0xa5 && context.ip6 == 0xa5 && hold == 77);
}

/* ---- names ---- */

static void name_is(uint8_t kind, uint8_t number, uint8_t subcode, const char *wanted)
{
    char text[RISTULVA_NAME];
    size_t written = 77, len = strlen(wanted);
    memset(text, 1, sizeof text);
    WANT(ristulva_name(kind, number, subcode, text, sizeof text, &written) == RISTULVA_OK && written == len && memcmp(text, wanted, len) == 0);
    WANT(text[len] == 1);
    memset(text, 1, sizeof text);
    WANT(len == 0 || (ristulva_name(kind, number, subcode, text, len - 1, &written) == RISTULVA_ROOM && written == len && text[0] == 1));
}

static void by_hand_names(void)
{
    size_t written = 77;
    unsigned kind, number, subcode;
    name_is(RISTULVA_NAME_STATUS, RISTULVA_OK, 0, "OK");
    name_is(RISTULVA_NAME_STATUS, RISTULVA_MEMORY, 9, "an allocation failed");
    name_is(RISTULVA_NAME_STATUS, RISTULVA_MIXED, 0, "routes of several kinds");
    name_is(RISTULVA_NAME_STATUS, RISTULVA_MIXED + 1, 0, "");
    name_is(RISTULVA_NAME_WHY, 0, 0, "");
    name_is(RISTULVA_NAME_WHY, RISTULVA_WHY_FLAGS, 0, "Flags");
    name_is(RISTULVA_NAME_WHY, RISTULVA_WHY_SEGMENT_END, 0, "SegmentEnd");
    name_is(RISTULVA_NAME_WHY, RISTULVA_WHY_AS_ZERO, 0, "AsZero");
    name_is(RISTULVA_NAME_WHY, RISTULVA_WHY_AS_ZERO + 1, 0, "");
    name_is(RISTULVA_NAME_ATTRIBUTE, RISTULVA_ATTRIBUTE_MULTI_EXIT_DISC, 0, "MULTI_EXIT_DISC");
    name_is(RISTULVA_NAME_ATTRIBUTE, RISTULVA_ATTRIBUTE_COMMUNITIES, 0, "COMMUNITY");
    name_is(RISTULVA_NAME_ATTRIBUTE, RISTULVA_ATTRIBUTE_LARGE_COMMUNITY, 0, "LARGE_COMMUNITY");
    name_is(RISTULVA_NAME_ATTRIBUTE, RISTULVA_ATTRIBUTE_ONLY_TO_CUSTOMER, 0, "Only to Customer (OTC)");
    name_is(RISTULVA_NAME_CAPABILITY, RISTULVA_CAPABILITY_AS4, 0, "Support for 4-octet AS number capability");
    name_is(RISTULVA_NAME_CAPABILITY, RISTULVA_CAPABILITY_ADD_PATH, 0, "ADD-PATH Capability");
    name_is(RISTULVA_NAME_ERROR, RISTULVA_ERROR_CEASE, 7, "Cease");
    name_is(RISTULVA_NAME_SUBCODE, RISTULVA_ERROR_CEASE, RISTULVA_ERROR_CEASE_ADMINISTRATIVE_SHUTDOWN, "Administrative Shutdown");
    name_is(RISTULVA_NAME_SUBCODE, RISTULVA_ERROR_OPEN, RISTULVA_ERROR_OPEN_BAD_PEER_AS, "Bad Peer AS");
    name_is(RISTULVA_NAME_SUBCODE, RISTULVA_ERROR_UPDATE, RISTULVA_ERROR_UPDATE_MALFORMED_AS_PATH, "Malformed AS_PATH");
    name_is(RISTULVA_NAME_SUBCODE, RISTULVA_ERROR_CEASE, 0, "");
    WANT(ristulva_name(0, 1, 0, NULL, 0, &written) == RISTULVA_RANGE && written == 77);
    /* Room is enough for each, also where a null pointer is beside a length of 0. */
    for (kind = RISTULVA_NAME_STATUS; kind <= RISTULVA_NAME_SUBCODE; kind++)
        for (number = 0; number < 256; number++)
            for (subcode = 0; subcode < (kind == RISTULVA_NAME_SUBCODE ? 256u : 1u); subcode++) {
                WANT(ristulva_name((uint8_t)kind, (uint8_t)number, (uint8_t)subcode, NULL, 0, &written) == (written == 0 ? RISTULVA_OK : RISTULVA_ROOM));
                WANT(written <= RISTULVA_NAME);
            }
}

/* Where the length is 0, the pointer beside it can be null, in each call. */
static void by_hand_nothing(void)
{
    static const ristulva_context context = {0, 1, 1, 1};
    ristulva_found found;
    ristulva_verdict verdict;
    ristulva_update_facts facts;
    ristulva_attributes attributes = {0, 0};
    ristulva_attribute attribute;
    ristulva_prefixes prefixes = {0, 0, 1};
    ristulva_prefix prefix;
    ristulva_segments segments = {0, 0, 1, 0};
    ristulva_segment segment;
    ristulva_numbers numbers = {0, 0, 4};
    ristulva_large_communities large = {0, 0, 0};
    ristulva_large_community community;
    ristulva_capabilities capabilities = {0, 0, 0};
    ristulva_capability capability;
    ristulva_route_cursor cursor;
    ristulva_route route;
    ristulva_open_fields fields;
    ristulva_span span = {0, 0}, hop;
    ristulva_decoder decoder = {NULL};
    ristulva_stream stream = {NULL};
    ristulva_context agreed;
    struct octets keepalive;
    uint32_t number;
    uint16_t hold;
    size_t count = 77, left;
    memset(&cursor, 0, sizeof cursor);
    WANT(ristulva_front(NULL, 0, &found) == RISTULVA_OK && found.what == RISTULVA_MORE && found.len == 19);
    WANT(ristulva_judge(&context, NULL, 0, NULL, 0, &verdict) == RISTULVA_INCOMPLETE);
    WANT(ristulva_notes(&context, NULL, 0, NULL, 0, &count) == RISTULVA_INCOMPLETE && count == 77);
    WANT(ristulva_facts(&context, NULL, 0, &facts) == RISTULVA_INCOMPLETE && ristulva_begin_routes(&context, NULL, 0, &cursor) == RISTULVA_INCOMPLETE);
    WANT(ristulva_text(&context, 0, NULL, 0, NULL, 0, &count) == RISTULVA_INCOMPLETE);
    WANT(ristulva_encode(&context, NULL, 0, NULL, 0, &count) == RISTULVA_REFUSED && ristulva_narrow(&context, NULL, 0, NULL, 0, &count) == RISTULVA_REFUSED);
    WANT(ristulva_reconcile(&context, NULL, 0, NULL, 0, &count) == RISTULVA_REFUSED);
    WANT(ristulva_next_attribute(NULL, 0, &attributes, &attribute) == RISTULVA_END && ristulva_next_prefix(NULL, 0, &prefixes, &prefix) == RISTULVA_END);
    WANT(ristulva_count_prefixes(NULL, 0, &prefixes, &left) == RISTULVA_OK && left == 0);
    WANT(ristulva_reached(NULL, 0, &span, &hop, &prefixes) == RISTULVA_RANGE && ristulva_unreached(NULL, 0, &span, &prefixes) == RISTULVA_RANGE);
    WANT(ristulva_next_segment(NULL, 0, &segments, &segment) == RISTULVA_END && ristulva_next_number(NULL, 0, &numbers, &number) == RISTULVA_END);
    WANT(ristulva_next_large_community(NULL, 0, &large, &community) == RISTULVA_END);
    WANT(ristulva_next_route(NULL, 0, &cursor, &route) == RISTULVA_RANGE);
    WANT(ristulva_open(NULL, 0, &fields) == RISTULVA_INCOMPLETE && ristulva_agree(NULL, 0, NULL, 0, &agreed, &hold) == RISTULVA_INCOMPLETE);
    WANT(ristulva_next_capability(NULL, 0, &capabilities, &capability) == RISTULVA_END);
    WANT(ristulva_decoder_pull(&decoder, NULL, 0, NULL, 0, NULL, 0, &count, &verdict) != RISTULVA_OK);
    WANT(ristulva_stream_pull(&stream, NULL, 0, NULL, 0, NULL, 0, &count, &verdict) != RISTULVA_OK);
    make(&keepalive, 4, "");
    WANT(ristulva_judge(&context, keepalive.at, keepalive.len, NULL, 0, &verdict) == RISTULVA_OK && verdict.verdict == RISTULVA_KEEPALIVE);
    WANT(ristulva_notes(&context, keepalive.at, keepalive.len, NULL, 0, &count) == RISTULVA_OK && count == 0);
}

/* ---- octets and cursors at random ---- */

static int lies_in(ristulva_span span, uint8_t has, const ristulva_verdict *verdict)
{
    ristulva_span field = verdict->parts.attributes;
    return has == 0 ? span.at == 0 && span.len == 0 : has == 1 && span.at >= field.at + 3 && span.at + span.len <= field.at + field.len;
}

static void try_facts(const ristulva_context *context, const uint8_t *octets, size_t len, ristulva_status judged, const ristulva_verdict *verdict)
{
    ristulva_update_facts facts;
    ristulva_status status;
    memset(&facts, 0xa5, sizeof facts);
    status = ristulva_facts(context, octets, len, &facts);
    WANT(status == (judged == RISTULVA_INCOMPLETE ? RISTULVA_INCOMPLETE : verdict->verdict == RISTULVA_UPDATE ? RISTULVA_OK : RISTULVA_REFUSED));
    if (status != RISTULVA_OK) {
        WANT(is_unwritten(&facts, sizeof facts));
        return;
    }
    WANT(lies_in(facts.paths.as_path, facts.paths.has_as_path, verdict) && lies_in(facts.paths.as4_path, facts.paths.has_as4_path, verdict));
    WANT(lies_in(facts.paths.communities, facts.paths.has_communities, verdict));
    WANT(lies_in(facts.paths.large_communities, facts.paths.has_large_communities, verdict));
    WANT(facts.paths.communities.len % 4 == 0 && facts.paths.large_communities.len % 12 == 0);
    WANT(facts.paths.has_origin_as <= 1 && (facts.paths.origin_as != 0) == facts.paths.has_origin_as && facts.hops.mp_afi <= 2 && facts.origin <= 2);
    WANT(facts.has_local_pref == 0 || context->internal != 0);
    WANT(facts.hops.mp_afi != 1 || context->ip4 != 0);
    WANT(facts.hops.mp_afi != 2 || context->ip6 != 0);
}

/* Each route that a cursor gives; where it isn't one of these octets, nothing. */
static size_t walk_routes(const uint8_t *octets, size_t len, ristulva_route_cursor cursor)
{
    size_t given = 0;
    for (;;) {
        ristulva_route_cursor old = cursor;
        ristulva_route route;
        ristulva_status status = ristulva_next_route(octets, len, &cursor, &route);
        if (status != RISTULVA_OK) {
            WANT((status == RISTULVA_END || (status == RISTULVA_RANGE && given == 0)) && memcmp(&old, &cursor, sizeof old) == 0);
            return given;
        }
        WANT(route.announced <= 1 && (route.prefix.afi == 1 || route.prefix.afi == 2) && route.prefix.len <= (route.prefix.afi == 1 ? 32 : 128));
        WANT(cursor.announces == old.announces && cursor.loses_ip6 == old.loses_ip6);
        WANT(cursor.withdrawn.at + cursor.unreached.at + cursor.reached.at + cursor.nlri.at > old.withdrawn.at + old.unreached.at + old.reached.at + old.nlri.at);
        given++;
    }
}

static void try_routes(const ristulva_context *context, const uint8_t *octets, size_t len, ristulva_status judged, const ristulva_verdict *verdict)
{
    ristulva_route_cursor cursor;
    ristulva_status status;
    size_t count = 0, left = 0, i;
    memset(&cursor, 0xa5, sizeof cursor);
    status = ristulva_begin_routes(context, octets, len, &cursor);
    WANT(status == (judged == RISTULVA_INCOMPLETE ? RISTULVA_INCOMPLETE : RISTULVA_OK));
    if (status != RISTULVA_OK) {
        WANT(is_unwritten(&cursor, sizeof cursor));
        return;
    }
    WANT(cursor.announces == (verdict->verdict == RISTULVA_UPDATE) && cursor.loses_ip6 <= (context->ip6 == 0));
    count = walk_routes(octets, len, cursor);
    if (verdict->verdict == RISTULVA_UPDATE || verdict->verdict == RISTULVA_WITHDRAW) {
        const ristulva_prefixes *fields[] = {&cursor.withdrawn, &cursor.unreached, &cursor.reached, &cursor.nlri};
        for (i = 0; i < 4; i++) {
            WANT(ristulva_count_prefixes(octets, len, fields[i], &left) == RISTULVA_OK);
            count -= left;
        }
        WANT(cursor.withdrawn.at == verdict->parts.withdrawn.at && cursor.nlri.at == verdict->parts.nlri.at);
    }
    WANT(count == 0);
}

static ristulva_prefixes some_cursor(size_t len)
{
    ristulva_prefixes cursor = {below((uint32_t)len + 3), below((uint32_t)len + 3), (uint16_t)(1 + below(2) + (below(20) == 0))};
    return cursor;
}

static void try_all(const uint8_t *from, size_t len)
{
    static uint8_t data[RISTULVA_DATA];
    static struct octets open;
    ristulva_context context = {(uint8_t)below(2), (uint8_t)below(2), (uint8_t)(below(3) * 100), (uint8_t)below(2)}, agreed;
    ristulva_route_cursor cursor;
    ristulva_open_fields fields;
    ristulva_verdict verdict;
    ristulva_status judged, opened;
    const uint8_t *octets = placed(from, len);
    uint16_t hold = 1; /* which no OPEN that is accepted has */
    judged = ristulva_judge(&context, octets, len, data, sizeof data, &verdict);
    try_facts(&context, octets, len, judged, &verdict);
    try_routes(&context, octets, len, judged, &verdict);
    memset(&cursor, 0, sizeof cursor);
    cursor.withdrawn = some_cursor(len);
    cursor.unreached = some_cursor(len);
    cursor.reached = some_cursor(len);
    cursor.nlri = some_cursor(len);
    cursor.announces = (uint8_t)below(3);
    (void)walk_routes(octets, len, cursor);
    make(&open, 1, "04 fde9 00b4 c0000201 16 0214 010400010001 010400020001 41040000fde9 0200");
    opened = ristulva_open(octets, len, &fields);
    WANT(ristulva_agree(octets, len, open.at, open.len, &agreed, &hold) == opened && (opened == RISTULVA_OK) == (hold != 1));
    if (opened == RISTULVA_OK)
        WANT(agreed.as4 == fields.as4 && agreed.ip4 == fields.ip4 && agreed.ip6 == fields.ip6 && agreed.internal == (fields.as_number == 65001)
             && hold == (fields.hold < 180 ? fields.hold : 180));
}

static void *work(void *unused)
{
    static uint8_t octets[RISTULVA_MESSAGE];
    unsigned long i;
    refused = 1;
    by_hand_facts();
    by_hand_routes();
    by_hand_agreement();
    by_hand_names();
    by_hand_nothing();
    for (i = 0; i < rounds; i++)
        try_all(octets, change(octets, some_message(octets), 0));
    WANT(allocations == 0);
    return unused;
}

int main(int argc, char **argv)
{
    begin(argc, argv);
    run_on_stack(work, STACK);
    return 0;
}
