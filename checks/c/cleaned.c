/* What is passed on of messages: an UPDATE that is treated as a withdrawal, attributes that are discarded or left out by type, an OPEN with
 * capabilities of all kinds, where a stream ends, and little room; each with each allocation failing in turn. It ends with 1 at the first answer
 * that the header doesn't allow. */
#include "ristulva.h"
#include "trial.h"
#include "trial_message.h"
#include <string.h>

/* ---- octets ---- */

#define ORIGIN "40010100 "
#define PATH "40020a02020000fde800030d40 "
#define NEXT_HOP "400304c0000201 "
/* ORIGIN as above, but with a value that has no meaning. */
#define BAD_ORIGIN "40010109 "
/* An AGGREGATOR of which an octet is missing: it is discarded (RFC 7606, section 7.7). */
#define BAD_AGGREGATOR "c0070700010d40c00002 "
/* Optional transitive attributes of the types 20 and 30, which aren't recognised. */
#define OTHERS "c0140101 c01e0102 "

/* ---- calls ---- */

static const ristulva_context context = {0, 1, 1, 1};
static uint8_t octets[RISTULVA_MESSAGE], wanted[RISTULVA_PARTS], handed[RISTULVA_PARTS + 1];

/* What is passed on of the first octets, with each allocation failing in turn: nothing is written or leaked then. */
static ristulva_status clean(const uint8_t *types, size_t count, uint8_t first, size_t len, size_t room, size_t *written, ristulva_cleaned *out)
{
    ristulva_status status;
    refused = 0;
    do {
        size_t i;
        *written = 77;
        memset(handed, 0x5a, sizeof handed);
        memset(out, 0xa5, sizeof *out);
        allocations = 0;
        refused++;
        status = ristulva_clean(&context, types, count, first, octets, len, handed, room, written, out);
        WANT(live == 0);
        for (i = status == RISTULVA_OK ? *written : 0; i < sizeof handed; i++)
            WANT(handed[i] == 0x5a);
        if (status == RISTULVA_MEMORY)
            WANT(*written == 77 && out->ends == 0xa5 && out->len == 0xa5a5a5a5u);
    } while (status == RISTULVA_MEMORY);
    refused = 0;
    return status;
}

/* Cleaning the octets gives what is wanted, and cleaning that leaves it unchanged. */
static void becomes(const uint8_t *types, size_t count, size_t len, size_t wanted_len, ristulva_cleaned told)
{
    size_t written;
    ristulva_cleaned out;
    WANT(clean(types, count, 1, len, RISTULVA_PARTS, &written, &out) == RISTULVA_OK);
    WANT(written == wanted_len && memcmp(handed, wanted, written) == 0);
    WANT(out.ends == RISTULVA_HANDED_ON && out.verdict == told.verdict && out.code == 0 && out.subcode == 0 && out.len == len);
    WANT(out.discarded == told.discarded && out.left_out == told.left_out && out.capabilities == told.capabilities);
    WANT(clean(types, count, 1, len, written - 1, &written, &out) == RISTULVA_ROOM && written == wanted_len && out.len == len);
    memcpy(octets, wanted, wanted_len);
    WANT(clean(types, count, 1, wanted_len, wanted_len, &written, &out) == RISTULVA_OK && written == wanted_len);
    WANT(memcmp(handed, wanted, written) == 0 && out.discarded == 0 && out.left_out == 0 && out.capabilities == 0);
}

/* The stream ends before the octets. */
static void ends(uint8_t first, size_t len, ristulva_cleaned told)
{
    size_t written;
    ristulva_cleaned out;
    WANT(clean(wanted, 0, first, len, 0, &written, &out) == RISTULVA_OK && written == 0);
    WANT(out.ends == told.ends && out.verdict == told.verdict && out.code == told.code && out.subcode == told.subcode && out.len == told.len);
    WANT(out.discarded == 0 && out.left_out == 0 && out.capabilities == 0);
}

/* ---- messages ---- */

static void updates(void)
{
    static const uint8_t types[] = {30, 200, 20, 30};
    ristulva_cleaned told = {0};
    size_t len, wanted_len;
    /* A bad ORIGIN, and 10.0.0.0/8 in NLRI and 11.0.0.0/8 in Withdrawn Routes: both are withdrawn. */
    len = message(2, "0002080b 0018" BAD_ORIGIN PATH NEXT_HOP "080a", octets);
    wanted_len = message(2, "0004080b080a 0000", wanted);
    told.verdict = RISTULVA_WITHDRAW;
    becomes(types, 0, len, wanted_len, told);
    /* AGGREGATOR is discarded. */
    len = message(2, "0000 0022" ORIGIN PATH NEXT_HOP BAD_AGGREGATOR "080a", octets);
    wanted_len = message(2, "0000 0018" ORIGIN PATH NEXT_HOP "080a", wanted);
    told.verdict = RISTULVA_UPDATE;
    told.discarded = 1;
    becomes(types, 0, len, wanted_len, told);
    /* The types 20 and 30 are left out, and then only 20. */
    told.discarded = 0;
    told.left_out = 2;
    len = message(2, "0000 0020" ORIGIN PATH NEXT_HOP OTHERS "080a", octets);
    becomes(types, 4, len, wanted_len, told);
    told.left_out = 1;
    len = message(2, "0000 0020" ORIGIN PATH NEXT_HOP OTHERS "080a", octets);
    wanted_len = message(2, "0000 001c" ORIGIN PATH NEXT_HOP "c01e0102 080a", wanted);
    becomes(types + 1, 2, len, wanted_len, told);
    /* Nothing remains of attributes without routes: that is a KEEPALIVE, and not an End-of-RIB. */
    told.left_out = 2;
    len = message(2, "0000 0008" OTHERS, octets);
    wanted_len = message(4, "", wanted);
    becomes(types, 4, len, wanted_len, told);
    /* An End-of-RIB stays one. */
    told.left_out = 0;
    len = message(2, "0000 0000", octets);
    wanted_len = message(2, "0000 0000", wanted);
    becomes(types, 4, len, wanted_len, told);
}

static void opens(void)
{
    ristulva_cleaned told = {0};
    size_t len, wanted_len;
    /* IPv4 unicast, route refresh, AS 200000, IPv4 unicast once more, and IPv4 multicast: two are passed on, in one parameter. */
    len = message(1, "04 5ba0 005a c0000202 1c 021a 010400010001 0200 410400030d40 010400010001 010400010002", octets);
    wanted_len = message(1, "04 5ba0 005a c0000202 0e 020c 010400010001 410400030d40", wanted);
    told.verdict = RISTULVA_OPEN;
    told.capabilities = 3;
    becomes(octets, 0, len, wanted_len, told);
    /* It isn't the first message of its stream. */
    len = message(1, "04 5ba0 005a c0000202 08 0206 410400030d40", octets);
    told.ends = RISTULVA_ENDS_LATE_OPEN;
    told.capabilities = 0;
    told.len = (uint32_t)len;
    ends(0, len, told);
    /* It offers only IPv4 multicast. */
    len = message(1, "04 5ba0 005a c0000202 08 0206 010400010002", octets);
    told.ends = RISTULVA_ENDS_NO_FAMILY;
    ends(1, len, told);
}

static void others(void)
{
    ristulva_cleaned told = {0}, out;
    size_t len, wanted_len, written;
    len = message(4, "", octets);
    wanted_len = message(4, "", wanted);
    told.verdict = RISTULVA_KEEPALIVE;
    becomes(octets, 0, len, wanted_len, told);
    len = message(3, "0602 03627965", octets);
    wanted_len = message(3, "0602 03627965", wanted);
    told.verdict = RISTULVA_NOTIFICATION;
    becomes(octets, 0, len, wanted_len, told);
    /* A length that leaves no room: 3/1. */
    len = message(2, "0003 080a 0000", octets);
    told.ends = RISTULVA_ENDS_RESET;
    told.verdict = RISTULVA_RESET;
    told.code = 3;
    told.subcode = 1;
    told.len = (uint32_t)len;
    ends(1, len, told);
    /* An incomplete message, and a header with a fault. */
    WANT(clean(octets, 0, 1, len - 1, RISTULVA_MESSAGE, &written, &out) == RISTULVA_INCOMPLETE && written == 77 && out.ends == 0xa5);
    octets[16] = 0;
    octets[17] = 18;
    told.code = 1;
    told.subcode = 2;
    told.len = 0;
    ends(1, len, told);
}

int main(void)
{
    updates();
    opens();
    others();
    return 0;
}
