/* What cursors of the library give, listed by one call each: a call from Go into C costs more than a cursor's step. */
#ifndef RISTULVA_GO_LIST_H
#define RISTULVA_GO_LIST_H

#include <ristulva.h>

/* The first attribute of a type in a field: whether there is one. */
static inline int first_attribute(const uint8_t *octets, size_t len, ristulva_span field, uint8_t kind, ristulva_attribute *out) {
    ristulva_attributes cursor = {field.at, field.at + field.len};
    while (ristulva_next_attribute(octets, len, &cursor, out) == RISTULVA_OK)
        if (out->kind == kind)
            return 1;
    return 0;
}

static inline size_t list_attributes(const uint8_t *octets, size_t len, ristulva_span field, ristulva_attribute *out, size_t room) {
    ristulva_attributes cursor = {field.at, field.at + field.len};
    size_t count = 0;
    while (count < room && ristulva_next_attribute(octets, len, &cursor, out + count) == RISTULVA_OK)
        count++;
    return count;
}

static inline size_t add_prefixes(const uint8_t *octets, size_t len, ristulva_prefixes cursor, ristulva_prefix *out, size_t count, size_t room) {
    while (count < room && ristulva_next_prefix(octets, len, &cursor, out + count) == RISTULVA_OK)
        count++;
    return count;
}

static inline int is_in_use(const ristulva_context *context, uint16_t afi) {
    return afi == 1 ? context->ip4 : context->ip6;
}

static inline ristulva_prefixes ip4_of(ristulva_span field) {
    ristulva_prefixes cursor = {field.at, field.at + field.len, 1};
    return cursor;
}

/* The prefixes of MP_REACH_NLRI, where its family is in use, and those of NLRI. */
static inline size_t list_announced(const uint8_t *octets, size_t len, const ristulva_context *context, const ristulva_parts *parts,
                                    ristulva_prefix *out, size_t room) {
    ristulva_attribute reach;
    ristulva_span hop;
    ristulva_prefixes cursor;
    size_t count = 0;
    if (first_attribute(octets, len, parts->attributes, 14, &reach) && ristulva_reached(octets, len, &reach.value, &hop, &cursor) == RISTULVA_OK
        && is_in_use(context, cursor.afi))
        count = add_prefixes(octets, len, cursor, out, count, room);
    return add_prefixes(octets, len, ip4_of(parts->nlri), out, count, room);
}

/* The prefixes of Withdrawn Routes, and those of MP_UNREACH_NLRI, where its family is in use. */
static inline size_t list_withdrawn(const uint8_t *octets, size_t len, const ristulva_context *context, const ristulva_parts *parts,
                                    ristulva_prefix *out, size_t room) {
    ristulva_attribute unreach;
    ristulva_prefixes cursor;
    size_t count = add_prefixes(octets, len, ip4_of(parts->withdrawn), out, 0, room);
    if (first_attribute(octets, len, parts->attributes, 15, &unreach) && ristulva_unreached(octets, len, &unreach.value, &cursor) == RISTULVA_OK
        && is_in_use(context, cursor.afi))
        count = add_prefixes(octets, len, cursor, out, count, room);
    return count;
}

/* The segments of a path, and in `numbers` the AS numbers of all in sequence; `counts` has the number of each. */
static inline size_t list_path(const uint8_t *octets, size_t len, ristulva_span value, uint8_t wide, uint8_t *kinds, size_t *counts,
                               uint32_t *numbers) {
    ristulva_segments cursor = {value.at, value.at + value.len, wide, 0};
    ristulva_segment segment;
    size_t found = 0;
    while (ristulva_next_segment(octets, len, &cursor, &segment) == RISTULVA_OK) {
        ristulva_numbers row = {segment.numbers.at, segment.numbers.at + segment.numbers.len, wide ? 4 : 2};
        kinds[found] = segment.kind;
        counts[found] = 0;
        while (ristulva_next_number(octets, len, &row, numbers) == RISTULVA_OK) {
            numbers++;
            counts[found]++;
        }
        found++;
    }
    return found;
}

static inline size_t list_communities(const uint8_t *octets, size_t len, ristulva_span value, uint32_t *out) {
    ristulva_numbers cursor = {value.at, value.at + value.len, 4};
    size_t count = 0;
    while (ristulva_next_number(octets, len, &cursor, out + count) == RISTULVA_OK)
        count++;
    return count;
}

static inline size_t list_large_communities(const uint8_t *octets, size_t len, ristulva_span value, ristulva_large_community *out) {
    ristulva_large_communities cursor = {value.at, value.at, value.at + value.len};
    size_t count = 0;
    while (ristulva_next_large_community(octets, len, &cursor, out + count) == RISTULVA_OK)
        count++;
    return count;
}

static inline size_t list_capabilities(const uint8_t *octets, size_t len, ristulva_capabilities cursor, ristulva_capability *out, size_t room) {
    size_t count = 0;
    while (count < room && ristulva_next_capability(octets, len, &cursor, out + count) == RISTULVA_OK)
        count++;
    return count;
}

/* The routes of a message, and whether IPv6 routes are lost. */
static inline size_t list_routes(const ristulva_context *context, const uint8_t *octets, size_t len, ristulva_route *out, size_t room, uint8_t *lost) {
    ristulva_route_cursor cursor;
    size_t count = 0;
    *lost = 0;
    if (ristulva_begin_routes(context, octets, len, &cursor) != RISTULVA_OK)
        return 0;
    *lost = cursor.loses_ip6;
    while (count < room && ristulva_next_route(octets, len, &cursor, out + count) == RISTULVA_OK)
        count++;
    return count;
}

/* What the rows of a batch are. */
enum rows_of { ROUTES, PATH_NUMBERS, COMMUNITIES, LARGE_COMMUNITIES };

static inline ristulva_status write_rows(int kind, const ristulva_context *context, const uint8_t *octets, size_t len, void *rows, size_t room,
                                         size_t *written, size_t *taken) {
    switch (kind) {
    case ROUTES:
        return ristulva_routes(context, octets, len, rows, room, written, taken);
    case PATH_NUMBERS:
        return ristulva_path_numbers(context, octets, len, rows, room, written, taken);
    case COMMUNITIES:
        return ristulva_communities_of(context, octets, len, rows, room, written, taken);
    default:
        return ristulva_large_communities_of(context, octets, len, rows, room, written, taken);
    }
}

#endif
