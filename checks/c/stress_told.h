/* What calls report of octets, for stress.c: names, fields, faults, facts, routes, what OPENs agree on, and batches. None of them allocates. */
#ifndef STRESS_TOLD_H
#define STRESS_TOLD_H

#include "ristulva.h"
#include "stress_place.h"

/* Whether a call wrote nothing of what was filled with 0xa5. */
static int is_unwritten(const void *told, size_t size)
{
    const uint8_t *octets = told;
    while (size > 0 && octets[size - 1] == 0xa5)
        size--;
    return size == 0;
}

static void try_names(void)
{
    size_t room = below(RISTULVA_NAME + 1), written = 77;
    uint32_t kind = below(8), field = below(20) == 0 ? (uint32_t)state : below(50);
    char *name = list_of(room);
    ristulva_status status = ristulva_name((uint8_t)kind, (uint8_t)below(256), (uint8_t)below(12), name, room, &written);
    WANT((status == RISTULVA_RANGE) == (kind < RISTULVA_NAME_STATUS || kind > RISTULVA_NAME_SUBCODE));
    WANT(status == RISTULVA_RANGE ? written == 77 : written <= RISTULVA_NAME && status == (written <= room ? RISTULVA_OK : RISTULVA_ROOM));
    WANT(is_rest_unchanged(name, status == RISTULVA_OK ? written : 0));
    written = 77;
    name = list_of(room);
    status = ristulva_field_name(field, name, room, &written);
    WANT((status == RISTULVA_RANGE) == (field < RISTULVA_FIELD_MARKER || field > RISTULVA_FIELD_PATH_IDENTIFIER));
    WANT(status == RISTULVA_RANGE ? written == 77 : written <= RISTULVA_FIELD_NAME && status == (written <= room ? RISTULVA_OK : RISTULVA_ROOM));
    WANT(is_rest_unchanged(name, status == RISTULVA_OK ? written : 0));
    calls += 2;
}

/* Joined the fields are the message, of `size` octets. */
static void try_fields(const ristulva_context *context, const uint8_t *octets, size_t len, const ristulva_found *found, size_t size)
{
    size_t room = below(2) == 0 ? below(64) : size, written = 77, at = 0, i;
    ristulva_field *fields = list_of(room * sizeof *fields);
    ristulva_status status = ristulva_fields(context, octets, len, fields, room, &written);
    calls++;
    WANT((status == RISTULVA_INCOMPLETE) == (found->what == RISTULVA_MORE));
    if (status != RISTULVA_OK) {
        WANT(status == RISTULVA_INCOMPLETE || (status == RISTULVA_ROOM && room < size));
        WANT(written == 77 && is_rest_unchanged(fields, 0));
        return;
    }
    WANT(written <= room);
    for (i = 0; i < written; i++) {
        WANT(fields[i].at == at && fields[i].len > 0 && fields[i].group <= at);
        WANT(fields[i].kind >= RISTULVA_FIELD_MARKER && fields[i].kind <= RISTULVA_FIELD_UNREAD);
        at += fields[i].len;
    }
    WANT(at == size && is_rest_unchanged(fields, written * sizeof *fields));
}

/* Of a fault, and of any note. */
static void try_spans(const ristulva_context *context, const uint8_t *octets, size_t len, const ristulva_verdict *verdict, size_t size)
{
    ristulva_note_found note = {some_offset(len), (uint8_t)below(256), (uint8_t)below(17)};
    ristulva_span fault = {77, 78}, noted = {77, 78};
    ristulva_status wanted = size == 0 ? RISTULVA_INCOMPLETE : RISTULVA_OK;
    WANT(ristulva_fault(context, octets, len, &fault) == wanted && ristulva_note_span(octets, len, &note, &noted) == wanted);
    calls += 2;
    if (wanted != RISTULVA_OK) {
        WANT(fault.at == 77 && fault.len == 78 && noted.at == 77 && noted.len == 78);
        return;
    }
    WANT((fault.len > 0) == (verdict->verdict == RISTULVA_RESET));
    WANT((size_t)fault.at + fault.len <= size && (size_t)noted.at + noted.len <= size);
}

static int is_within(ristulva_span span, uint8_t has, size_t len)
{
    return has == 0 ? span.at == 0 && span.len == 0 : has == 1 && (size_t)span.at + span.len <= len;
}

static void try_facts(const ristulva_context *context, const uint8_t *octets, size_t len, const ristulva_found *found, const ristulva_verdict *verdict)
{
    ristulva_update_facts facts;
    ristulva_status status;
    memset(&facts, 0xa5, sizeof facts);
    status = ristulva_facts(context, octets, len, &facts);
    calls++;
    WANT(status == (found->what == RISTULVA_MORE ? RISTULVA_INCOMPLETE : verdict->verdict == RISTULVA_UPDATE ? RISTULVA_OK : RISTULVA_REFUSED));
    if (status != RISTULVA_OK) {
        WANT(is_unwritten(&facts, sizeof facts));
        return;
    }
    WANT(is_within(facts.paths.as_path, facts.paths.has_as_path, found->len) && is_within(facts.paths.as4_path, facts.paths.has_as4_path, found->len));
    WANT(is_within(facts.paths.communities, facts.paths.has_communities, found->len));
    WANT(is_within(facts.paths.large_communities, facts.paths.has_large_communities, found->len));
    WANT(facts.paths.has_origin_as == (facts.paths.origin_as != 0) && facts.hops.mp_afi <= 2 && facts.origin <= RISTULVA_ORIGIN_INCOMPLETE);
}

/* ---- routes ---- */

static int is_cursor(const ristulva_prefixes *cursor, size_t len)
{
    return cursor->at <= cursor->end && cursor->end <= len && (cursor->afi == 1 || cursor->afi == 2);
}

static void walk_routes(const uint8_t *octets, size_t len, ristulva_route_cursor cursor)
{
    int is_whole = is_cursor(&cursor.withdrawn, len) && is_cursor(&cursor.unreached, len) && is_cursor(&cursor.reached, len) && is_cursor(&cursor.nlri, len);
    for (;;) {
        ristulva_route_cursor old = cursor;
        ristulva_route route;
        ristulva_status status;
        memset(&route, 0xa5, sizeof route);
        status = ristulva_next_route(octets, len, &cursor, &route);
        calls++;
        WANT((status == RISTULVA_RANGE) == !is_whole);
        if (status != RISTULVA_OK) {
            WANT(status == RISTULVA_RANGE || status == RISTULVA_END);
            WANT(is_unwritten(&route, sizeof route) && memcmp(&old, &cursor, sizeof old) == 0);
            return;
        }
        WANT(route.announced <= 1 && (route.prefix.afi == 1 || route.prefix.afi == 2) && route.prefix.len <= (route.prefix.afi == 1 ? 32 : 128));
        WANT(is_cursor(&cursor.withdrawn, len) && is_cursor(&cursor.unreached, len) && is_cursor(&cursor.reached, len) && is_cursor(&cursor.nlri, len));
        WANT(cursor.withdrawn.at + cursor.unreached.at + cursor.reached.at + cursor.nlri.at > old.withdrawn.at + old.unreached.at + old.reached.at + old.nlri.at);
    }
}

static ristulva_prefixes some_prefixes(size_t len)
{
    uint32_t at = some_offset(len), end = some_offset(len);
    ristulva_prefixes cursor = {at < end ? at : end, at < end ? end : at, (uint16_t)(1 + below(2) + (below(30) == 0))};
    return cursor;
}

static void try_routes(const ristulva_context *context, const uint8_t *octets, size_t len, const ristulva_found *found)
{
    ristulva_route_cursor cursor;
    ristulva_status status;
    memset(&cursor, 0xa5, sizeof cursor);
    status = ristulva_begin_routes(context, octets, len, &cursor);
    calls++;
    WANT(status == (found->what == RISTULVA_MORE ? RISTULVA_INCOMPLETE : RISTULVA_OK));
    if (status == RISTULVA_OK)
        walk_routes(octets, len, cursor);
    else
        WANT(is_unwritten(&cursor, sizeof cursor));
    memset(&cursor, 0, sizeof cursor);
    cursor.withdrawn = some_prefixes(len);
    cursor.unreached = some_prefixes(len);
    cursor.reached = some_prefixes(len);
    cursor.nlri = some_prefixes(len);
    cursor.announces = (uint8_t)below(3);
    walk_routes(octets, len, cursor);
}

/* ---- OPENs ---- */

/* The octets as our OPEN, as the peer's, or as both. */
static void try_agree(const uint8_t *octets, size_t len)
{
    static const uint8_t open[] = {255, 255, 255, 255, 255, 255, 255, 255, 255, 255, 255, 255, 255, 255, 255, 255, 0, 51, 1, 4, 253, 233, 0, 180, 192, 0, 2, 1,
                                   22, 2, 20, 1, 4, 0, 1, 0, 1, 1, 4, 0, 2, 0, 1, 65, 4, 0, 0, 253, 233, 2, 0};
    uint32_t which = below(3);
    uint16_t hold = 1; /* which no OPEN that is accepted has */
    ristulva_open_fields fields;
    ristulva_context agreed;
    ristulva_status status, opened = ristulva_open(octets, len, &fields);
    memset(&agreed, 0xa5, sizeof agreed);
    if (which == 0)
        status = ristulva_agree(octets, len, open, sizeof open, &agreed, &hold);
    else
        status = ristulva_agree(which == 1 ? open : octets, which == 1 ? sizeof open : len, octets, len, &agreed, &hold);
    calls += 2;
    WANT(status == opened && (status == RISTULVA_OK) == (hold != 1));
    if (status != RISTULVA_OK)
        WANT(is_unwritten(&agreed, sizeof agreed));
    else
        WANT(agreed.as4 == fields.as4 && agreed.ip4 == fields.ip4 && agreed.ip6 == fields.ip6 && agreed.internal == (which == 2 || fields.as_number == 65001));
}

/* ---- batches ---- */

static const size_t row_sizes[] = {sizeof(ristulva_route_row), sizeof(ristulva_number_row), sizeof(ristulva_community_row), sizeof(ristulva_large_community_row)};

static ristulva_status batch(uint32_t which, const ristulva_context *context, const uint8_t *octets, size_t len, void *rows, size_t room, size_t *written, size_t *taken)
{
    if (which == 0)
        return ristulva_routes(context, octets, len, rows, room, written, taken);
    if (which == 1)
        return ristulva_path_numbers(context, octets, len, rows, room, written, taken);
    if (which == 2)
        return ristulva_communities_of(context, octets, len, rows, room, written, taken);
    return ristulva_large_communities_of(context, octets, len, rows, room, written, taken);
}

static int is_route(const ristulva_route_row *row, const ristulva_route *route, uint8_t verdict)
{
    return row->announced == route->announced && row->verdict == verdict && row->prefix.afi == route->prefix.afi && row->prefix.len == route->prefix.len
           && memcmp(row->prefix.addr, route->prefix.addr, route->prefix.afi == 1 ? 4 : 16) == 0;
}

/* Whether the rows are those of the first message: its routes, its communities and its large communities, as cursors give them; or of the AS
 * numbers the last one, where the path doesn't end in a set. */
static int are_rows(uint32_t which, const ristulva_context *context, const uint8_t *octets, size_t len, const void *rows, size_t count, uint8_t verdict)
{
    ristulva_route_cursor routes;
    ristulva_route route;
    ristulva_update_facts facts;
    ristulva_large_community large;
    uint32_t number;
    size_t i = 0;
    if (which == 0) {
        WANT(ristulva_begin_routes(context, octets, len, &routes) == RISTULVA_OK);
        while (i < count && ristulva_next_route(octets, len, &routes, &route) == RISTULVA_OK && is_route((const ristulva_route_row *)rows + i, &route, verdict))
            i++;
        return i == count && ristulva_next_route(octets, len, &routes, &route) == RISTULVA_END;
    }
    if (ristulva_facts(context, octets, len, &facts) != RISTULVA_OK)
        return count == 0;
    if (which == 1) {
        const ristulva_number_row *last = (const ristulva_number_row *)rows + count - 1;
        return facts.paths.has_origin_as == (count > 0 && last->set == 0) && (facts.paths.has_origin_as == 0 || facts.paths.origin_as == last->number);
    }
    if (which == 2) {
        ristulva_numbers cursor = {facts.paths.communities.at, facts.paths.communities.at + facts.paths.communities.len, 4};
        while (i < count && ristulva_next_number(octets, len, &cursor, &number) == RISTULVA_OK && ((const ristulva_community_row *)rows)[i].value == number)
            i++;
        return i == count && cursor.at == cursor.end;
    } else {
        uint32_t at = facts.paths.large_communities.at;
        ristulva_large_communities cursor = {at, at, at + facts.paths.large_communities.len};
        const ristulva_large_community_row *row = rows;
        while (i < count && ristulva_next_large_community(octets, len, &cursor, &large) == RISTULVA_OK && row[i].global == large.numbers[0]
               && row[i].local1 == large.numbers[1] && row[i].local2 == large.numbers[2])
            i++;
        return i == count && ristulva_next_large_community(octets, len, &cursor, &large) == RISTULVA_END;
    }
}

/* The messages that a batch has processed, one by one, and why it has processed no more. */
static void check_batch(uint32_t which, const ristulva_context *context, const uint8_t *octets, size_t len, const uint8_t *rows, size_t left, size_t taken,
                        ristulva_status status, size_t unused)
{
    static uint8_t data[RISTULVA_DATA];
    ristulva_status judged = RISTULVA_OK;
    ristulva_verdict verdict;
    size_t at, count;
    for (at = 0; at < taken; at += verdict.len) {
        uint64_t message = at;
        WANT(ristulva_judge(context, octets + at, len - at, data, sizeof data, &verdict) == RISTULVA_OK && verdict.verdict != RISTULVA_RESET);
        for (count = 0; count < left && memcmp(rows + count * row_sizes[which], &message, sizeof message) == 0; count++)
            continue;
        WANT(are_rows(which, context, octets + at, len - at, rows, count, verdict.verdict));
        rows += count * row_sizes[which];
        left -= count;
    }
    WANT(at == taken && left == 0);
    if (at < len)
        judged = ristulva_judge(context, octets + at, len - at, data, sizeof data, &verdict);
    if (at == len)
        WANT(status == RISTULVA_OK);
    else if (judged == RISTULVA_INCOMPLETE || verdict.verdict == RISTULVA_RESET)
        WANT(status == (judged == RISTULVA_INCOMPLETE ? RISTULVA_INCOMPLETE : RISTULVA_REFUSED));
    else
        WANT(status == RISTULVA_OK && unused < verdict.len);
}

static void try_batch(uint32_t which, const ristulva_context *context, const uint8_t *octets, size_t len)
{
    size_t room = below(8) == 0 ? below(RISTULVA_BATCH) : RISTULVA_BATCH + below(below(2) == 0 ? 2 : RISTULVA_BATCH), written = 77, taken = 78;
    uint8_t *rows = list_of(room * row_sizes[which]);
    ristulva_status status = batch(which, context, octets, len, rows, room, &written, &taken);
    calls++;
    if (room < RISTULVA_BATCH) {
        WANT(status == RISTULVA_ROOM && written == 77 && taken == 78 && is_rest_unchanged(rows, 0));
        return;
    }
    WANT(written <= room && taken <= len);
    check_batch(which, context, octets, len, rows, written, taken, status, room - written);
    WANT(is_rest_unchanged(rows, written * row_sizes[which]));
}

/* The octets, and the same twice. */
static void try_batches(const ristulva_context *context, const uint8_t *from, size_t len)
{
    static uint8_t twice[2 * RISTULVA_MESSAGE];
    const uint8_t *octets;
    uint32_t which;
    memcpy(twice, from, len);
    memcpy(twice + len, from, len);
    if (below(2) == 0)
        len *= 2;
    octets = placed(twice, len);
    for (which = 0; which < 4; which++)
        try_batch(which, context, octets, len);
}

/* The message with the most routes: 4073 times the prefix of no octets, withdrawn or, with missing attributes, treated so. */
static void try_most_routes(uint8_t *octets)
{
    const ristulva_context context = {0, 1, 1, 1};
    int i;
    memset(octets, 255, 16);
    memset(octets + 16, 0, RISTULVA_MESSAGE - 16);
    octets[16] = RISTULVA_MESSAGE >> 8;
    octets[18] = 2;
    for (i = 0; i < 40; i++) {
        uint32_t withdrawn = i % 2 == 0 ? RISTULVA_BATCH : 0;
        octets[19] = (uint8_t)(withdrawn >> 8);
        octets[20] = (uint8_t)withdrawn;
        try_batches(&context, octets, RISTULVA_MESSAGE);
    }
}

/* ---- all ---- */

static void try_told(const ristulva_context *context, const uint8_t *octets, size_t len, const ristulva_found *found, const ristulva_verdict *verdict)
{
    size_t size = found->what == RISTULVA_FAULT ? 19 : found->what == RISTULVA_FOUND ? found->len : 0;
    allocations = 0;
    refused = 1;
    try_names();
    try_fields(context, octets, len, found, size);
    try_spans(context, octets, len, verdict, size);
    try_facts(context, octets, len, found, verdict);
    try_routes(context, octets, len, found);
    try_agree(octets, len);
    refused = 0;
    WANT(allocations == 0);
}

#endif
