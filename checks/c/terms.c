/* What two OPENs agree on beyond a context, and ROUTE-REFRESH by it: values by hand, and then random octets and terms.
 *
 *     terms SEED ROUNDS FILE..
 *
 * Each status of each call, with what is written and what is unchanged, at both ends of each number and length. Then messages of the files, changed at
 * random and made ROUTE-REFRESH by chance, by random terms: a ROUTE-REFRESH has the outcome that its octets say, and each other message that of
 * ristulva_judge, and the lines of ristulva_text. Octets lie beside memory that can't be read. Only ristulva_text_in allocates, and lets each allocation
 * fail in turn; in the other calls the first one would fail. It runs on 32 KB of stack, and ends with 1 at the first answer that the header doesn't
 * allow. */
#include "ristulva.h"
#include "trial.h"
#include "trial_changed.h"
#include "trial_message.h"
#include "trial_stack.h"

#ifndef STACK
#define STACK (32 * 1024)
#endif

/* The number of calls. */
static unsigned long calls;

static const ristulva_context all = {0, 1, 1, 1};

static ristulva_terms terms_by(uint8_t refresh)
{
    ristulva_terms terms = {all, refresh, 0, 0, 0, 0, 0};
    return terms;
}

/* ---- lines ---- */

/* Room for the lines of any message: what a call writes, with its length, and the same room where nothing is written. */
#define LINES 100000u
static char text[LINES + 1], blank[LINES + 1];
static size_t written_len;

/* Writes the lines of a message by these terms. Where `fails`, each allocation fails first, in turn, and nothing is written; but there is none where
 * terms are out of their range, or a message is incomplete. Nothing is left allocated. */
static ristulva_status lines_in(const ristulva_terms *terms, uint64_t offset, const uint8_t *octets, size_t len, size_t room, int fails)
{
    ristulva_status status;
    size_t end;
    WANT(allocations == 0);
    memset(text, 0xa5, room + 1);
    written_len = 77;
    refused = fails;
    for (;;) {
        allocations = 0;
        status = ristulva_text_in(terms, offset, octets, len, room != 0 ? text : NULL, room, &written_len);
        calls++;
        WANT(live == 0);
        if (status != RISTULVA_MEMORY)
            break;
        WANT(refused != 0 && written_len == 77 && memcmp(text, blank, room + 1) == 0);
        refused++;
    }
    if (status == RISTULVA_RANGE || status == RISTULVA_INCOMPLETE)
        WANT(refused == fails && written_len == 77);
    else
        WANT(status == (written_len <= room ? RISTULVA_OK : RISTULVA_ROOM) && (!fails || refused > 1));
    end = status == RISTULVA_OK ? written_len : 0;
    WANT(memcmp(text + end, blank, room + 1 - end) == 0);
    refused = 1;
    allocations = 0;
    return status;
}

/* A message has these lines: with room for them, for more, for one octet less, and for none; and an incomplete one has none. */
static void prints(uint8_t refreshes, uint64_t offset, const uint8_t *octets, size_t len, const char *wanted)
{
    const ristulva_terms terms = terms_by(refreshes);
    size_t size = strlen(wanted), rooms[] = {size, LINES, size - 1, 0}, i;
    for (i = 0; i < 4; i++) {
        WANT(lines_in(&terms, offset, octets, len, rooms[i], 1) == (rooms[i] < size ? RISTULVA_ROOM : RISTULVA_OK) && written_len == size);
        WANT(rooms[i] < size || memcmp(text, wanted, size) == 0);
    }
    WANT(lines_in(&terms, offset, octets, len - 1, LINES, 1) == RISTULVA_INCOMPLETE);
    WANT(lines_in(&terms, offset, octets, len - 1, 0, 1) == RISTULVA_INCOMPLETE);
    WANT(lines_in(&terms, offset, NULL, 0, LINES, 1) == RISTULVA_INCOMPLETE);
}

/* The line of a mark of this length, of which `told` octets are in the NOTIFICATION. */
static const char *reset_line(const uint8_t *octets, size_t len, size_t told)
{
    static char line[64 + 2 * RISTULVA_DATA];
    char *at = line + sprintf(line, "0 %zu ROUTE-REFRESH reset 7/1 ", len);
    size_t i;
    for (i = 0; i < told; i++)
        at += sprintf(at, "%02x", octets[i]);
    strcpy(at, "\n");
    return line;
}

static void by_hand_lines(void)
{
    static uint8_t octets[RISTULVA_MESSAGE];
    size_t len = message(5, "0001 00 01", octets);
    prints(RISTULVA_REFRESH_PLAIN, 0, octets, len, "0 23 ROUTE-REFRESH request 1 1\n");
    prints(RISTULVA_REFRESH_ENHANCED, 4096, octets, len, "4096 23 ROUTE-REFRESH request 1 1\n");
    prints(RISTULVA_REFRESH_NONE, 0, octets, 19, "0 0 HEADER reset 1/3 05\n");
    octets[21] = 1;
    prints(RISTULVA_REFRESH_PLAIN, 0, octets, len, "0 23 ROUTE-REFRESH request 1 1\n");
    prints(RISTULVA_REFRESH_ENHANCED, 0, octets, len, "0 23 ROUTE-REFRESH begin 1 1\n");
    octets[21] = 2;
    prints(RISTULVA_REFRESH_ENHANCED, 0, octets, len, "0 23 ROUTE-REFRESH end 1 1\n");
    octets[21] = 3;
    prints(RISTULVA_REFRESH_ENHANCED, 0, octets, len, "0 23 ROUTE-REFRESH ignored 3 1 1\n");
    /* The greatest number of each kind, and the longest message. */
    len = message(5, "ffff ff ff", octets);
    prints(RISTULVA_REFRESH_ENHANCED, UINT64_MAX, octets, len, "18446744073709551615 23 ROUTE-REFRESH ignored 255 65535 255\n");
    memset(octets + len, 0, sizeof octets - len);
    octets[16] = 16;
    octets[17] = 0;
    prints(RISTULVA_REFRESH_PLAIN, 0, octets, RISTULVA_MESSAGE, "0 4096 ROUTE-REFRESH request 65535 255\n");
    octets[21] = 2;
    prints(RISTULVA_REFRESH_ENHANCED, 0, octets, RISTULVA_MESSAGE, reset_line(octets, RISTULVA_MESSAGE, RISTULVA_DATA));
    len = message(5, "0001 01 01 00", octets);
    prints(RISTULVA_REFRESH_PLAIN, 0, octets, len, "0 24 ROUTE-REFRESH request 1 1\n");
    prints(RISTULVA_REFRESH_ENHANCED, 0, octets, len, reset_line(octets, len, len));
    len = message(5, "0001 01", octets);
    prints(RISTULVA_REFRESH_PLAIN, 0, octets, len, "0 22 HEADER reset 1/2 0016\n");
    prints(RISTULVA_REFRESH_ENHANCED, 0, octets, len, reset_line(octets, len, len));
    len = message(5, "", octets);
    prints(RISTULVA_REFRESH_ENHANCED, 77, octets, len, "77 19 HEADER reset 1/2 0013\n");
    octets[17] = 18;
    prints(RISTULVA_REFRESH_ENHANCED, 77, octets, len, "77 0 HEADER reset 1/2 0012\n");
    octets[0] = 0;
    prints(RISTULVA_REFRESH_ENHANCED, 0, octets, len, "0 0 HEADER reset 1/1 -\n");
    /* Another message, whatever is accepted. */
    len = message(4, "", octets);
    prints(RISTULVA_REFRESH_NONE, 1, octets, len, "1 19 KEEPALIVE\n");
    prints(RISTULVA_REFRESH_ENHANCED, 1, octets, len, "1 19 KEEPALIVE\n");
}

/* ---- what two OPENs agree on ---- */

/* AS 65001 and 180 seconds, with IPv4 unicast, 2, 70, 6, and path identifiers of both families, sent and received; AS 65002 and 90 seconds, with IPv4
 * unicast, 70, an IPv6 next hop, and path identifiers of IPv4 unicast, sent. */
#define READER "04 fde9 00b4 c0000201 18 0216 010400010001 0200 4600 0600 4508 00010103 00020103"
#define SENDER "04 fdea 005a c0000202 18 0216 010400010001 4600 0506 000100010002 4504 00010102"

static void by_hand_terms(void)
{
    static uint8_t reader[RISTULVA_MESSAGE], sender[RISTULVA_MESSAGE], other[RISTULVA_MESSAGE];
    size_t reads = message(1, READER, reader), sends = message(1, SENDER, sender), others = message(4, "", other);
    ristulva_terms terms;
    uint16_t hold = 77;
    WANT(ristulva_terms_of(reader, reads, sender, sends, &terms, &hold) == RISTULVA_OK && hold == 90);
    WANT(terms.context.internal == 0 && terms.context.as4 == 0 && terms.context.ip4 == 1 && terms.context.ip6 == 0);
    WANT(terms.refresh == RISTULVA_REFRESH_ENHANCED && terms.long_messages == 1 && terms.long_back == 0);
    WANT(terms.paths4 == 1 && terms.paths6 == 0 && terms.hop6 == 0);
    /* The other direction: who reads there offers neither ROUTE-REFRESH nor long messages, and receives no path identifiers. */
    WANT(ristulva_terms_of(sender, sends, reader, reads, &terms, &hold) == RISTULVA_OK && hold == 90);
    WANT(terms.refresh == RISTULVA_REFRESH_NONE && terms.long_messages == 0 && terms.long_back == 1);
    WANT(terms.paths4 == 0 && terms.paths6 == 0 && terms.hop6 == 1);
    /* One OPEN is both, also where its octets are the same ones. */
    WANT(ristulva_terms_of(reader, reads, reader, reads, &terms, &hold) == RISTULVA_OK && hold == 180);
    WANT(terms.context.internal == 1 && terms.long_messages == 1 && terms.long_back == 1 && terms.paths4 == 1 && terms.paths6 == 1);
    /* The status is that of the first that isn't an OPEN, and nothing is written. */
    memset(&terms, 0xa5, sizeof terms);
    hold = 77;
    WANT(ristulva_terms_of(reader, reads, other, others, &terms, &hold) == RISTULVA_REFUSED);
    WANT(ristulva_terms_of(other, others, sender, sends - 1, &terms, &hold) == RISTULVA_REFUSED);
    WANT(ristulva_terms_of(reader, reads - 1, other, others, &terms, &hold) == RISTULVA_INCOMPLETE);
    WANT(ristulva_terms_of(reader, reads, sender, sends - 1, &terms, &hold) == RISTULVA_INCOMPLETE);
    WANT(ristulva_terms_of(NULL, 0, sender, sends, &terms, &hold) == RISTULVA_INCOMPLETE);
    WANT(ristulva_terms_of(reader, reads, NULL, 0, &terms, &hold) == RISTULVA_INCOMPLETE);
    WANT(ristulva_terms_of(NULL, 0, NULL, 0, &terms, &hold) == RISTULVA_INCOMPLETE);
    WANT(is_unwritten(&terms, sizeof terms) && hold == 77);
    calls += 10;
}

/* ---- numbers out of their range ---- */

/* All calls that take terms answer this, of a whole message, of an incomplete one, and of no octets; where that is RISTULVA_RANGE, nothing is written. */
static void range_is(ristulva_terms terms, int is_out)
{
    uint8_t octets[23], data[8];
    size_t lens[] = {23, 22, 0}, len = message(5, "0001 00 01", octets), i;
    ristulva_found found;
    ristulva_verdict verdict;
    ristulva_refresh refresh;
    for (i = 0; i < 3; i++) {
        const uint8_t *given = lens[i] != 0 ? octets : NULL;
        ristulva_status judged = lens[i] == len ? RISTULVA_OK : RISTULVA_INCOMPLETE;
        memset(&found, 0xa5, sizeof found);
        memset(&verdict, 0xa5, sizeof verdict);
        memset(&refresh, 0xa5, sizeof refresh);
        memset(data, 0xa5, sizeof data);
        WANT(ristulva_front_in(&terms, given, lens[i], &found) == (is_out ? RISTULVA_RANGE : RISTULVA_OK));
        WANT(ristulva_judge_in(&terms, given, lens[i], data, sizeof data, &verdict) == (is_out ? RISTULVA_RANGE : judged));
        WANT(ristulva_judge_in(&terms, given, lens[i], NULL, 0, &verdict) == (is_out ? RISTULVA_RANGE : judged));
        WANT(ristulva_refresh_in(&terms, given, lens[i], &refresh) == (is_out ? RISTULVA_RANGE : judged));
        WANT(lines_in(&terms, 0, given, lens[i], 64, 1) == (is_out ? RISTULVA_RANGE : judged));
        WANT(lines_in(&terms, 0, given, lens[i], 0, 1) == (is_out ? RISTULVA_RANGE : judged == RISTULVA_OK ? RISTULVA_ROOM : judged));
        WANT(is_unwritten(&found, sizeof found) == is_out);
        WANT(is_unwritten(&verdict, sizeof verdict) == (is_out || judged != RISTULVA_OK) && is_unwritten(data, sizeof data));
        WANT(is_unwritten(&refresh, sizeof refresh) == (is_out || judged != RISTULVA_OK));
        calls += 4;
    }
}

static void by_hand_ranges(void)
{
    static const uint8_t flags[] = {1, 2, 128, 255};
    ristulva_terms terms = terms_by(0);
    unsigned refresh;
    size_t i;
    for (refresh = RISTULVA_REFRESH_PLAIN; refresh < 256; refresh++) {
        terms.refresh = (uint8_t)refresh;
        range_is(terms, refresh > RISTULVA_REFRESH_ENHANCED);
    }
    for (i = 0; i < sizeof flags; i++) {
        terms = terms_by(RISTULVA_REFRESH_PLAIN);
        terms.paths4 = flags[i];
        range_is(terms, 1);
        terms.paths4 = 0;
        terms.paths6 = flags[i];
        range_is(terms, 1);
        /* Each other flag may be any number. */
        terms.paths6 = 0;
        terms.long_messages = terms.long_back = terms.hop6 = terms.context.internal = flags[i];
        range_is(terms, 0);
    }
}

/* ---- the first message ---- */

static void front_is(uint8_t refresh, const uint8_t *octets, size_t len, uint8_t what, uint8_t kind, uint8_t subcode, uint32_t wanted, uint32_t data_len)
{
    const ristulva_terms terms = terms_by(refresh);
    ristulva_found found;
    memset(&found, 0xa5, sizeof found);
    WANT(ristulva_front_in(&terms, octets, len, &found) == RISTULVA_OK);
    WANT(found.what == what && found.kind == kind && found.code == (what == RISTULVA_FAULT) && found.subcode == subcode && found.len == wanted);
    WANT(found.data.len == data_len);
    calls++;
}

static void by_hand_fronts(void)
{
    static uint8_t octets[RISTULVA_MESSAGE + 1];
    size_t len = message(5, "0001 00 01", octets);
    uint8_t refresh;
    for (refresh = RISTULVA_REFRESH_NONE; refresh <= RISTULVA_REFRESH_ENHANCED; refresh++)
        front_is(refresh, NULL, 0, RISTULVA_MORE, 0, 0, 19, 0);
    for (refresh = RISTULVA_REFRESH_PLAIN; refresh <= RISTULVA_REFRESH_ENHANCED; refresh++) {
        front_is(refresh, octets, 18, RISTULVA_MORE, 0, 0, 19, 0);
        front_is(refresh, octets, 19, RISTULVA_MORE, 0, 0, 23, 0);
        front_is(refresh, octets, len - 1, RISTULVA_MORE, 0, 0, 23, 0);
        front_is(refresh, octets, len, RISTULVA_FOUND, 5, 0, 23, 0);
        front_is(refresh, octets, sizeof octets, RISTULVA_FOUND, 5, 0, 23, 0);
    }
    front_is(RISTULVA_REFRESH_NONE, octets, 18, RISTULVA_MORE, 0, 0, 19, 0);
    front_is(RISTULVA_REFRESH_NONE, octets, 19, RISTULVA_FAULT, 0, 3, 0, 1);
    /* The least and the greatest Length, which is tested with the body; one less, and one more, also where long messages are agreed on. */
    octets[17] = 19;
    front_is(RISTULVA_REFRESH_PLAIN, octets, 19, RISTULVA_FOUND, 5, 0, 19, 0);
    octets[17] = 18;
    front_is(RISTULVA_REFRESH_PLAIN, octets, 19, RISTULVA_FAULT, 0, 2, 0, 2);
    octets[16] = 16;
    octets[17] = 0;
    front_is(RISTULVA_REFRESH_PLAIN, octets, RISTULVA_MESSAGE, RISTULVA_FOUND, 5, 0, 4096, 0);
    front_is(RISTULVA_REFRESH_PLAIN, octets, RISTULVA_MESSAGE - 1, RISTULVA_MORE, 0, 0, 4096, 0);
    octets[17] = 1;
    front_is(RISTULVA_REFRESH_PLAIN, octets, RISTULVA_MESSAGE + 1, RISTULVA_FAULT, 0, 2, 0, 2);
    octets[18] = 2;
    {
        ristulva_terms terms = terms_by(RISTULVA_REFRESH_ENHANCED);
        ristulva_found found;
        terms.long_messages = terms.long_back = 1;
        WANT(ristulva_front_in(&terms, octets, RISTULVA_MESSAGE + 1, &found) == RISTULVA_OK && found.what == RISTULVA_FAULT && found.subcode == 2);
    }
    octets[16] = 0;
    octets[17] = 23;
    octets[18] = 6;
    front_is(RISTULVA_REFRESH_ENHANCED, octets, len, RISTULVA_FAULT, 0, 3, 0, 1);
    octets[15] = 254;
    front_is(RISTULVA_REFRESH_ENHANCED, octets, len, RISTULVA_FAULT, 0, 1, 0, 0);
    calls++;
}

/* ---- the outcome, and what a ROUTE-REFRESH says ---- */

/* A ROUTE-REFRESH is accepted, and says this, by both calls; of an octet less both report an incomplete message, and write nothing. */
static void says(uint8_t refreshes, const uint8_t *octets, size_t len, uint16_t afi, uint8_t safi, uint8_t subtype)
{
    const ristulva_terms terms = terms_by(refreshes);
    ristulva_verdict verdict;
    ristulva_refresh refresh;
    uint8_t data[2];
    memset(data, 0xa5, sizeof data);
    memset(&verdict, 0xa5, sizeof verdict);
    memset(&refresh, 0xa5, sizeof refresh);
    WANT(ristulva_judge_in(&terms, octets, len, data, sizeof data, &verdict) == RISTULVA_OK && is_unwritten(data, sizeof data));
    WANT(verdict.verdict == RISTULVA_REFRESH && verdict.kind == 5 && verdict.code == 0 && verdict.subcode == 0 && verdict.len == len && verdict.data_len == 0);
    WANT(verdict.parts.withdrawn.at == 0 && verdict.parts.withdrawn.len == 0 && verdict.parts.attributes.at == 0 && verdict.parts.attributes.len == 0);
    WANT(verdict.parts.nlri.at == 0 && verdict.parts.nlri.len == 0);
    WANT(ristulva_refresh_in(&terms, octets, len, &refresh) == RISTULVA_OK);
    WANT(refresh.afi == afi && refresh.safi == safi && refresh.subtype == subtype);
    WANT(refresh.rest.at + refresh.rest.len == len && (refresh.rest.at == 23 || refresh.rest.len == 0));
    memset(&refresh, 0xa5, sizeof refresh);
    memset(&verdict, 0xa5, sizeof verdict);
    WANT(ristulva_refresh_in(&terms, octets, len - 1, &refresh) == RISTULVA_INCOMPLETE && is_unwritten(&refresh, sizeof refresh));
    WANT(ristulva_judge_in(&terms, octets, len - 1, data, sizeof data, &verdict) == RISTULVA_INCOMPLETE && is_unwritten(&verdict, sizeof verdict));
    calls += 4;
}

/* A message is answered by a reset with this data: with room for it, for more, for one octet less, and for none. */
static void resets(uint8_t refreshes, const uint8_t *octets, size_t len, uint8_t kind, uint8_t code, uint8_t subcode, const uint8_t *wanted, size_t size)
{
    const ristulva_terms terms = terms_by(refreshes);
    static uint8_t data[RISTULVA_DATA + 1];
    ristulva_verdict verdict, again;
    ristulva_refresh refresh;
    size_t rooms[] = {size, RISTULVA_DATA + 1, size - 1, 0}, i;
    memset(&refresh, 0xa5, sizeof refresh);
    for (i = 0; i < (size == 0 ? 2u : 4u); i++) {
        size_t wrote = rooms[i] >= size ? size : 0;
        memset(data, 0xa5, sizeof data);
        memset(&verdict, 0xa5, sizeof verdict);
        WANT(ristulva_judge_in(&terms, octets, len, rooms[i] != 0 ? data : NULL, rooms[i], &verdict) == (rooms[i] < size ? RISTULVA_ROOM : RISTULVA_OK));
        WANT(memcmp(data, wanted, wrote) == 0 && is_unwritten(data + wrote, sizeof data - wrote));
        WANT(verdict.verdict == RISTULVA_RESET && verdict.kind == kind && verdict.code == code && verdict.subcode == subcode && verdict.data_len == size);
        WANT(verdict.len == (kind == 0 ? 0 : len) && verdict.parts.nlri.len == 0);
        WANT(i == 0 || memcmp(&verdict, &again, sizeof verdict) == 0);
        again = verdict;
    }
    WANT(ristulva_refresh_in(&terms, octets, len, &refresh) == RISTULVA_REFUSED && is_unwritten(&refresh, sizeof refresh));
    calls += 5;
}

static void by_hand_outcomes(void)
{
    static uint8_t octets[RISTULVA_MESSAGE];
    size_t len = message(5, "fffe 01 80", octets);
    ristulva_terms terms = terms_by(RISTULVA_REFRESH_ENHANCED);
    ristulva_refresh refresh;
    says(RISTULVA_REFRESH_PLAIN, octets, len, 65534, 128, RISTULVA_SUBTYPE_REQUEST);
    says(RISTULVA_REFRESH_ENHANCED, octets, len, 65534, 128, RISTULVA_SUBTYPE_BEGIN);
    resets(RISTULVA_REFRESH_NONE, octets, len, 0, 1, 3, (const uint8_t *)"\5", 1);
    octets[21] = 2;
    says(RISTULVA_REFRESH_ENHANCED, octets, len, 65534, 128, RISTULVA_SUBTYPE_END);
    octets[21] = 0;
    says(RISTULVA_REFRESH_ENHANCED, octets, len, 65534, 128, RISTULVA_SUBTYPE_REQUEST);
    octets[21] = 3;
    says(RISTULVA_REFRESH_ENHANCED, octets, len, 65534, 128, 3);
    octets[21] = 255;
    says(RISTULVA_REFRESH_ENHANCED, octets, len, 65534, 128, 255);
    says(RISTULVA_REFRESH_PLAIN, octets, len, 65534, 128, RISTULVA_SUBTYPE_REQUEST);
    /* What follows the four octets is without effect, but after a mark; so it is in the longest message. */
    len = message(5, "0001 00 01 40", octets);
    says(RISTULVA_REFRESH_ENHANCED, octets, len, 1, 1, RISTULVA_SUBTYPE_REQUEST);
    octets[21] = 1;
    says(RISTULVA_REFRESH_PLAIN, octets, len, 1, 1, RISTULVA_SUBTYPE_REQUEST);
    resets(RISTULVA_REFRESH_ENHANCED, octets, len, 5, 7, 1, octets, len);
    octets[16] = 16;
    octets[17] = 0;
    says(RISTULVA_REFRESH_PLAIN, octets, RISTULVA_MESSAGE, 1, 1, RISTULVA_SUBTYPE_REQUEST);
    resets(RISTULVA_REFRESH_ENHANCED, octets, RISTULVA_MESSAGE, 5, 7, 1, octets, RISTULVA_DATA);
    octets[16] = RISTULVA_DATA >> 8;
    octets[17] = RISTULVA_DATA & 255;
    resets(RISTULVA_REFRESH_ENHANCED, octets, RISTULVA_DATA, 5, 7, 1, octets, RISTULVA_DATA);
    /* Three octets: of a mark, of a request, and of each where no subtype has a meaning; and none. */
    len = message(5, "0001 02", octets);
    resets(RISTULVA_REFRESH_ENHANCED, octets, len, 5, 7, 1, octets, len);
    resets(RISTULVA_REFRESH_PLAIN, octets, len, 5, 1, 2, (const uint8_t *)"\0\26", 2);
    octets[21] = 0;
    resets(RISTULVA_REFRESH_ENHANCED, octets, len, 5, 1, 2, (const uint8_t *)"\0\26", 2);
    octets[21] = 255;
    resets(RISTULVA_REFRESH_ENHANCED, octets, len, 5, 1, 2, (const uint8_t *)"\0\26", 2);
    len = message(5, "0001", octets);
    resets(RISTULVA_REFRESH_ENHANCED, octets, len, 5, 1, 2, (const uint8_t *)"\0\25", 2);
    len = message(5, "", octets);
    resets(RISTULVA_REFRESH_ENHANCED, octets, len, 5, 1, 2, (const uint8_t *)"\0\23", 2);
    octets[0] = 0;
    resets(RISTULVA_REFRESH_ENHANCED, octets, len, 0, 1, 1, octets, 0);
    /* Another message isn't a ROUTE-REFRESH, whatever it is. */
    memset(&refresh, 0xa5, sizeof refresh);
    len = message(4, "", octets);
    WANT(ristulva_refresh_in(&terms, octets, len, &refresh) == RISTULVA_REFUSED);
    len = message(2, "0000 0000", octets);
    WANT(ristulva_refresh_in(&terms, octets, len, &refresh) == RISTULVA_REFUSED && is_unwritten(&refresh, sizeof refresh));
    calls += 2;
}

/* ---- writing ---- */

static void by_hand_writing(void)
{
    static const uint8_t families[][4] = {{0, 1, 0, 1}, {0, 2, 1, 1}, {0, 2, 2, 128}, {255, 255, 255, 255}, {0, 0, 3, 0}};
    uint8_t octets[RISTULVA_REFRESH_MESSAGE + 1], wanted[RISTULVA_REFRESH_MESSAGE];
    size_t rooms[] = {RISTULVA_REFRESH_MESSAGE, sizeof octets, RISTULVA_REFRESH_MESSAGE - 1, 1, 0}, i, at;
    for (at = 0; at < sizeof families / sizeof *families; at++) {
        const uint8_t *it = families[at];
        uint16_t afi = (uint16_t)(it[0] << 8 | it[1]);
        WANT(message(5, "", wanted) == 19);
        wanted[17] = RISTULVA_REFRESH_MESSAGE;
        memcpy(wanted + 19, it, 4);
        for (i = 0; i < 5; i++) {
            size_t written = 77, wrote = rooms[i] < RISTULVA_REFRESH_MESSAGE ? 0 : RISTULVA_REFRESH_MESSAGE;
            ristulva_status status;
            memset(octets, 0xa5, sizeof octets);
            status = ristulva_encode_refresh(afi, it[3], it[2], rooms[i] != 0 ? octets : NULL, rooms[i], &written);
            WANT(status == (wrote == 0 ? RISTULVA_ROOM : RISTULVA_OK) && written == RISTULVA_REFRESH_MESSAGE);
            WANT(memcmp(octets, wanted, wrote) == 0 && is_unwritten(octets + wrote, sizeof octets - wrote));
            calls++;
        }
        says(RISTULVA_REFRESH_ENHANCED, wanted, sizeof wanted, afi, it[3], it[2]);
    }
}

/* ---- at random ---- */

/* What a whole ROUTE-REFRESH says of itself: the code and subcode of the NOTIFICATION that answers it, code 0 for none. */
static unsigned answer_to(uint8_t refreshes, const uint8_t *octets, size_t len)
{
    int is_mark = refreshes == RISTULVA_REFRESH_ENHANCED && len > 21 && (octets[21] == 1 || octets[21] == 2);
    if (is_mark)
        return len == 23 ? 0 : 0x701;
    return len < 23 ? 0x102 : 0;
}

/* The line of a whole ROUTE-REFRESH, as its octets say. */
static const char *line_of(uint8_t refreshes, uint64_t offset, const uint8_t *octets, size_t len)
{
    static const char *const marks[] = {"request", "begin", "end"};
    static char line[64 + 2 * RISTULVA_DATA];
    unsigned answer = answer_to(refreshes, octets, len), subtype = 0;
    char *at = line + sprintf(line, "%llu ", (unsigned long long)offset);
    if (answer == 0x701) {
        strcpy(at, reset_line(octets, len, len < RISTULVA_DATA ? len : RISTULVA_DATA) + 2);
        return line;
    }
    at += sprintf(at, "%zu ", len);
    if (answer == 0x102) {
        sprintf(at, "HEADER reset 1/2 %02x%02x\n", octets[16], octets[17]);
        return line;
    }
    if (refreshes == RISTULVA_REFRESH_ENHANCED)
        subtype = octets[21];
    at += subtype <= RISTULVA_SUBTYPE_END ? sprintf(at, "ROUTE-REFRESH %s ", marks[subtype]) : sprintf(at, "ROUTE-REFRESH ignored %u ", subtype);
    sprintf(at, "%u %u\n", (unsigned)(octets[19] << 8 | octets[20]), (unsigned)octets[22]);
    return line;
}

/* The lines of a ROUTE-REFRESH are what its octets say, and those of another message what ristulva_text writes. */
static void try_lines(const ristulva_terms *terms, const uint8_t *octets, size_t len, const ristulva_found *found)
{
    static char plain[LINES + 1];
    size_t room = below(4) == 0 ? LINES : below(2) == 0 ? below(9000) : below(80), plain_len = 77;
    uint64_t offset = (uint64_t)below(100000) << below(48);
    ristulva_status status = lines_in(terms, offset, octets, len, room, below(4) == 0);
    WANT((status == RISTULVA_INCOMPLETE) == (found->what == RISTULVA_MORE) && status != RISTULVA_RANGE);
    if (found->what == RISTULVA_MORE)
        return;
    if (found->what == RISTULVA_FOUND && found->kind == 5) {
        const char *wanted = line_of(terms->refresh, offset, octets, found->len);
        WANT(written_len == strlen(wanted) && (status != RISTULVA_OK || memcmp(text, wanted, written_len) == 0));
        return;
    }
    refused = 0;
    memset(plain, 0xa5, room + 1);
    WANT(ristulva_text(&terms->context, offset, octets, len, plain, room, &plain_len) == status && plain_len == written_len);
    WANT(memcmp(plain, text, room + 1) == 0);
    refused = 1;
    allocations = 0;
    calls++;
}

static void try_refresh(const ristulva_terms *terms, const uint8_t *octets, size_t len, const ristulva_verdict *verdict, const uint8_t *data)
{
    unsigned answer = answer_to(terms->refresh, octets, verdict->len);
    ristulva_refresh refresh;
    uint8_t again[RISTULVA_REFRESH_MESSAGE];
    size_t written;
    memset(&refresh, 0xa5, sizeof refresh);
    WANT(verdict->verdict == (answer == 0 ? RISTULVA_REFRESH : RISTULVA_RESET) && verdict->code == answer >> 8 && verdict->subcode == (answer & 255));
    WANT(ristulva_refresh_in(terms, octets, len, &refresh) == (answer == 0 ? RISTULVA_OK : RISTULVA_REFUSED));
    if (answer != 0) {
        WANT(is_unwritten(&refresh, sizeof refresh));
        WANT(answer == 0x102 ? verdict->data_len == 2 && memcmp(data, octets + 16, 2) == 0
                             : verdict->data_len == (verdict->len < RISTULVA_DATA ? verdict->len : RISTULVA_DATA)
                                   && memcmp(data, octets, verdict->data_len) == 0);
        return;
    }
    WANT(refresh.afi == (octets[19] << 8 | octets[20]) && refresh.safi == octets[22] && verdict->data_len == 0);
    WANT(refresh.subtype == (terms->refresh == RISTULVA_REFRESH_ENHANCED ? octets[21] : 0));
    WANT(refresh.rest.len == verdict->len - 23 && (refresh.rest.at == 23 || refresh.rest.len == 0));
    WANT(ristulva_encode_refresh(refresh.afi, refresh.safi, octets[21], again, sizeof again, &written) == RISTULVA_OK && written == sizeof again);
    WANT(memcmp(again + 18, octets + 18, 5) == 0);
    calls += 2;
}

/* By terms, and in their context: all but a ROUTE-REFRESH is the same. */
static void try_terms(const ristulva_terms *terms, const uint8_t *octets, size_t len)
{
    static uint8_t data[RISTULVA_DATA], plain_data[RISTULVA_DATA];
    size_t room = below(3) == 0 ? below(64) : RISTULVA_DATA;
    ristulva_found found, plain_found;
    ristulva_verdict verdict, plain;
    ristulva_refresh refresh;
    ristulva_status status;
    memset(&verdict, 0xa5, sizeof verdict);
    memset(data, 0xa5, sizeof data);
    memset(&plain, 0xa5, sizeof plain);
    memset(plain_data, 0xa5, sizeof plain_data);
    memset(&refresh, 0xa5, sizeof refresh);
    status = ristulva_judge_in(terms, octets, len, data, room, &verdict);
    WANT(ristulva_front_in(terms, octets, len, &found) == RISTULVA_OK);
    WANT((found.what == RISTULVA_MORE) == (status == RISTULVA_INCOMPLETE));
    calls += 3;
    try_lines(terms, octets, len, &found);
    if (found.what == RISTULVA_FOUND && found.kind == 5) {
        WANT(terms->refresh != RISTULVA_REFRESH_NONE && octets[18] == 5 && verdict.kind == 5 && verdict.len == found.len && found.len <= len);
        WANT(status == (verdict.data_len <= room ? RISTULVA_OK : RISTULVA_ROOM));
        WANT(status == RISTULVA_OK || is_unwritten(data, sizeof data));
        (void)ristulva_judge_in(terms, octets, len, data, RISTULVA_DATA, &verdict);
        try_refresh(terms, octets, len, &verdict, data);
        return;
    }
    WANT(ristulva_refresh_in(terms, octets, len, &refresh) == (status == RISTULVA_INCOMPLETE ? RISTULVA_INCOMPLETE : RISTULVA_REFUSED));
    WANT(is_unwritten(&refresh, sizeof refresh));
    WANT(ristulva_front(octets, len, &plain_found) == RISTULVA_OK);
    /* An incomplete ROUTE-REFRESH is no fault of its header. */
    if (found.what == RISTULVA_MORE && found.len > 19 && octets[18] == 5) {
        WANT(terms->refresh != RISTULVA_REFRESH_NONE && plain_found.what == RISTULVA_FAULT && plain_found.subcode == 3);
        WANT(found.len > len && found.len <= RISTULVA_MESSAGE);
        return;
    }
    WANT(memcmp(&found, &plain_found, sizeof found) == 0);
    WANT(ristulva_judge(&terms->context, octets, len, plain_data, room, &plain) == status);
    WANT(memcmp(&verdict, &plain, sizeof plain) == 0 && memcmp(data, plain_data, sizeof data) == 0);
    calls += 2;
}

/* The terms of octets and an OPEN have the context and the Hold Time that they agree on, and the same status. */
static void try_agreement(const uint8_t *octets, size_t len)
{
    static uint8_t open[RISTULVA_MESSAGE];
    size_t size = message(1, READER, open);
    ristulva_terms terms;
    ristulva_context context;
    uint16_t hold = 1, wanted = 1; /* which no OPEN that is accepted has */
    int reads = below(2) == 0;
    ristulva_status status;
    memset(&terms, 0xa5, sizeof terms);
    status = reads ? ristulva_terms_of(octets, len, open, size, &terms, &hold) : ristulva_terms_of(open, size, octets, len, &terms, &hold);
    WANT(ristulva_agree(octets, len, open, size, &context, &wanted) == status && hold == wanted);
    calls += 2;
    if (status != RISTULVA_OK) {
        WANT(is_unwritten(&terms, sizeof terms));
        return;
    }
    WANT(memcmp(&terms.context, &context, sizeof context) == 0);
    WANT(terms.refresh <= RISTULVA_REFRESH_ENHANCED && terms.long_messages <= 1 && terms.long_back <= 1 && terms.hop6 <= 1);
    WANT(terms.paths4 <= 1 && terms.paths6 <= 1 && (reads ? terms.long_back == 1 : terms.long_messages == 1 && terms.refresh >= RISTULVA_REFRESH_PLAIN));
    WANT(reads || terms.hop6 == 0);
}

/* A message of a stream, changed at some offsets, and often a ROUTE-REFRESH, whose length is one of many or close to that of its header. */
static size_t some_octets(uint8_t *octets)
{
    size_t len = some_message(octets);
    if (below(2) == 0 && len > 22) {
        size_t size = below(3) == 0 ? 19 + below(4078) : 19 + below(8);
        octets[18] = 5;
        octets[16] = (uint8_t)(size >> 8);
        octets[17] = (uint8_t)size;
        octets[21] = (uint8_t)below(4);
    }
    return change(octets, len, 2);
}

static void *work(void *unused)
{
    static uint8_t octets[RISTULVA_MESSAGE];
    unsigned long i;
    refused = 1;
    memset(blank, 0xa5, sizeof blank);
    by_hand_lines();
    by_hand_terms();
    by_hand_ranges();
    by_hand_fronts();
    by_hand_outcomes();
    by_hand_writing();
    for (i = 0; i < rounds; i++) {
        size_t len = some_octets(octets);
        const uint8_t *given = placed(octets, len);
        const ristulva_context context = {(uint8_t)below(2), (uint8_t)(below(3) * 100), (uint8_t)below(2), (uint8_t)below(2)};
        const ristulva_terms terms = {context, (uint8_t)below(3), (uint8_t)below(2), (uint8_t)below(256), 0, 0, (uint8_t)below(2)};
        try_terms(&terms, given, len);
        try_agreement(given, len);
    }
    WANT(allocations == 0);
    return unused;
}

int main(int argc, char **argv)
{
    begin(argc, argv);
    run_on_stack(work, STACK);
    printf("%lu calls\n", calls);
    return 0;
}
