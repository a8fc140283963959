/* Calls everything of the library with random octets, random cursors and little room, and lets each allocation fail in turn:
 *
 *     stress SEED ROUNDS FILE..
 *
 * The files have streams of octets, of which some are changed at random. Built with the sanitizers it also shows that nothing is
 * written outside of what a call is given; octets lie beside memory that can't be read. It runs on STACK octets of stack, which
 * are 32 KB, and on 24 KB more with ristulva_clean and guards. Blocks of memory are counted: a session, a decoder, a stream and a guard
 * give theirs back when they are freed, and no other call leaves any. It prints how many calls it made, and ends with 1 at the first
 * answer that the header doesn't allow. */
#include "ristulva.h"
#include "trial.h"
#include "trial_stack.h"
#include "stress_place.h"
#include "stress_told.h"

#ifndef STACK
#define STACK (32 * 1024)
#endif
#define MORE_STACK (STACK + 24 * 1024)

/* Whether messages are cleaned too, which uses more stack. */
static int cleans;

/* The number of blocks of memory that calls have left allocated: one of a session, some of a guard. */
static long kept;

/* ---- calls ---- */

static void try_front(const uint8_t *octets, size_t len, ristulva_found *found)
{
    WANT(ristulva_front(octets, len, found) == RISTULVA_OK);
    WANT(found->what <= RISTULVA_FAULT);
    WANT(found->what != RISTULVA_MORE || (len < found->len && found->len <= 4096));
    WANT(found->what != RISTULVA_FOUND || (found->len <= len && found->kind >= 1 && found->kind <= 4));
    WANT(found->what != RISTULVA_FAULT || (found->code == 1 && (size_t)found->data.at + found->data.len <= 19));
    calls++;
}

static void try_judge(const ristulva_context *context, const uint8_t *octets, size_t len, const ristulva_found *found, ristulva_verdict *verdict)
{
    size_t room = below(3) == 0 ? below(64) : RISTULVA_DATA;
    uint8_t *data = malloc(room + 1), *old = malloc(room + 1);
    ristulva_status status;
    memset(verdict, 0xa5, sizeof *verdict);
    memset(data, 0x5a, room + 1);
    memcpy(old, data, room + 1);
    status = ristulva_judge(context, octets, len, data, room, verdict);
    WANT((status == RISTULVA_INCOMPLETE) == (found->what == RISTULVA_MORE));
    if (status == RISTULVA_INCOMPLETE) {
        WANT(verdict->verdict == 0xa5 && verdict->data_len == 0xa5a5a5a5u);
        WANT(memcmp(data, old, room + 1) == 0);
    } else {
        WANT(verdict->verdict >= RISTULVA_OPEN && verdict->verdict <= RISTULVA_RESET);
        WANT(verdict->len == found->len && verdict->kind == found->kind);
        WANT(verdict->data_len <= RISTULVA_DATA);
        WANT((status == RISTULVA_OK) == (verdict->data_len <= room));
        WANT(memcmp(data + (status == RISTULVA_OK ? verdict->data_len : 0), old, room + 1 - (status == RISTULVA_OK ? verdict->data_len : 0)) == 0);
        WANT((size_t)verdict->parts.nlri.at + verdict->parts.nlri.len <= len);
        if (verdict->verdict == RISTULVA_NOTIFICATION && status == RISTULVA_OK)
            WANT(memcmp(data, octets + 21, verdict->data_len) == 0);
        if (found->what == RISTULVA_FAULT && status == RISTULVA_OK)
            WANT(verdict->code == found->code && verdict->subcode == found->subcode && verdict->data_len == found->data.len
                 && memcmp(data, octets + found->data.at, verdict->data_len) == 0);
    }
    free(data);
    free(old);
    calls++;
}

/* A note of a message. */
static void check_note(const ristulva_note_found *note, const uint8_t *octets, const ristulva_verdict *verdict)
{
    WANT(verdict->verdict == RISTULVA_UPDATE || verdict->verdict == RISTULVA_WITHDRAW);
    WANT(note->why >= RISTULVA_WHY_FLAGS && note->why <= RISTULVA_WHY_AS_ZERO);
    WANT((note->at == 0) == (note->why == RISTULVA_WHY_MISSING));
    WANT(note->at == 0 || (note->at >= verdict->parts.attributes.at && note->at < verdict->parts.nlri.at));
    WANT(note->at == 0 || note->kind == 0 || note->kind == octets[note->at + 1]);
}

/* All notes, or as many as fit: an accepted UPDATE may have some, and one that is treated as a withdrawal has one at least. */
static void try_notes(const ristulva_context *context, const uint8_t *octets, size_t len, const ristulva_found *found, const ristulva_verdict *verdict)
{
    static ristulva_note_found all[RISTULVA_NOTES + 1], some[RISTULVA_NOTES + 1], old;
    size_t count = 77, again = 77, room = below(2) == 0 ? below(4) : below(RISTULVA_NOTES + 1), i;
    ristulva_status status;
    memset(all, 0xa5, sizeof all);
    memset(some, 0xa5, sizeof some);
    memset(&old, 0xa5, sizeof old);
    status = ristulva_notes(context, octets, len, all, RISTULVA_NOTES, &count);
    WANT(status == (found->what == RISTULVA_MORE ? RISTULVA_INCOMPLETE : RISTULVA_OK));
    WANT(status == RISTULVA_OK ? count <= RISTULVA_NOTES : count == 77);
    calls += 2;
    status = ristulva_notes(context, octets, len, some, room, &again);
    WANT(again == count);
    if (found->what == RISTULVA_MORE)
        count = 0;
    else
        WANT(status == (count <= room ? RISTULVA_OK : RISTULVA_ROOM));
    for (i = 0; i < count; i++)
        check_note(&all[i], octets, verdict);
    for (i = 0; i <= RISTULVA_NOTES; i++) {
        const ristulva_note_found *wanted = i < count && i < room ? &all[i] : &old;
        WANT(i < count || all[i].at == old.at);
        WANT(some[i].at == wanted->at && some[i].kind == wanted->kind && some[i].why == wanted->why);
    }
    WANT(found->what != RISTULVA_FOUND || verdict->verdict != RISTULVA_WITHDRAW || count > 0);
}

/* With room for all and for less, and with each allocation failing in turn. */
static void try_text(const ristulva_context *context, const uint8_t *octets, size_t len, const ristulva_found *found)
{
    size_t room = below(2) == 0 ? below(200) : 100000, written = 77;
    char *text = malloc(room + 1), *old = malloc(room + 1);
    ristulva_status status;
    memset(text, 0x5a, room + 1);
    memcpy(old, text, room + 1);
    refused = below(4) == 0 ? 1 : 0;
    for (;;) {
        allocations = 0;
        status = ristulva_text(context, below(1000), octets, len, text, room, &written);
        WANT(live == kept);
        calls++;
        if (status != RISTULVA_MEMORY)
            break;
        WANT(refused != 0 && memcmp(text, old, room + 1) == 0 && written == 77);
        refused++;
    }
    refused = 0;
    WANT((status == RISTULVA_INCOMPLETE) == (found->what == RISTULVA_MORE));
    if (status == RISTULVA_INCOMPLETE || status == RISTULVA_ROOM)
        WANT(memcmp(text, old, room + 1) == 0);
    if (status == RISTULVA_INCOMPLETE)
        WANT(written == 77);
    if (status == RISTULVA_ROOM)
        WANT(written > room);
    if (status == RISTULVA_OK)
        WANT(written <= room && text[written - 1] == '\n' && memcmp(text + written, old + written, room + 1 - written) == 0);
    free(text);
    free(old);
}

/* Each prefix that is given is one of those that were counted. */
static void walk_prefixes(const uint8_t *octets, size_t len, ristulva_prefixes cursor)
{
    size_t left = 77;
    ristulva_status counted = ristulva_count_prefixes(octets, len, &cursor, &left);
    calls++;
    WANT(counted == RISTULVA_OK || (counted == RISTULVA_RANGE && left == 77));
    for (;;) {
        ristulva_prefixes old = cursor;
        ristulva_prefix prefix;
        ristulva_status status = ristulva_next_prefix(octets, len, &cursor, &prefix);
        calls++;
        WANT((status == RISTULVA_RANGE) == (counted == RISTULVA_RANGE));
        WANT(counted != RISTULVA_OK || (status == RISTULVA_OK) == (left > 0));
        WANT(cursor.end == old.end && cursor.afi == old.afi);
        WANT((status == RISTULVA_RANGE) == (old.at > old.end || old.end > len || old.afi < 1 || old.afi > 2));
        if (status != RISTULVA_OK) {
            WANT(status == RISTULVA_END || status == RISTULVA_RANGE);
            WANT(cursor.at == old.at);
            return;
        }
        left--;
        WANT(prefix.afi == old.afi && prefix.len <= (prefix.afi == 1 ? 32 : 128));
        WANT(cursor.at == old.at + 1 + (prefix.len + 7u) / 8 && cursor.at <= cursor.end && octets[old.at] == prefix.len);
    }
}

static void walk_numbers(const uint8_t *octets, size_t len, ristulva_numbers cursor)
{
    for (;;) {
        ristulva_numbers old = cursor;
        uint32_t number = 0;
        ristulva_status status = ristulva_next_number(octets, len, &cursor, &number);
        calls++;
        WANT(cursor.end == old.end && cursor.width == old.width);
        WANT((status == RISTULVA_RANGE) == (old.at > old.end || old.end > len || (old.width != 2 && old.width != 4)));
        if (status != RISTULVA_OK) {
            WANT(status == RISTULVA_END || status == RISTULVA_RANGE);
            WANT(cursor.at == old.at && number == 0);
            return;
        }
        WANT(cursor.at == old.at + old.width && cursor.at <= cursor.end && (number & 255) == octets[cursor.at - 1]);
    }
}

static uint32_t number_at(const uint8_t *octets)
{
    return (uint32_t)octets[0] << 24 | (uint32_t)octets[1] << 16 | (uint32_t)octets[2] << 8 | octets[3];
}

/* Whether the twelve octets at an offset don't occur before, from the first on. */
static int is_new(const uint8_t *octets, uint32_t first, uint32_t at)
{
    for (; first < at; first += 12)
        if (memcmp(octets + first, octets + at, 12) == 0)
            return 0;
    return 1;
}

static void walk_large_communities(const uint8_t *octets, size_t len, ristulva_large_communities cursor)
{
    for (;;) {
        ristulva_large_communities old = cursor;
        ristulva_large_community it = {{7, 7, 7}};
        ristulva_status status = ristulva_next_large_community(octets, len, &cursor, &it);
        uint32_t at = old.at, i;
        calls++;
        WANT(cursor.first == old.first && cursor.end == old.end);
        WANT((status == RISTULVA_RANGE) == (old.first > old.at || old.at > old.end || old.end > len || (old.at - old.first) % 12 != 0));
        if (status != RISTULVA_RANGE)
            while (old.end - at >= 12 && !is_new(octets, old.first, at))
                at += 12;
        if (status != RISTULVA_OK) {
            WANT(status == RISTULVA_RANGE || (status == RISTULVA_END && old.end - at < 12));
            WANT(cursor.at == old.at && it.numbers[0] == 7 && it.numbers[1] == 7 && it.numbers[2] == 7);
            return;
        }
        WANT(cursor.at == at + 12 && cursor.at <= cursor.end);
        for (i = 0; i < 3; i++)
            WANT(it.numbers[i] == number_at(octets + at + 4 * i));
    }
}

static void walk_segments(const uint8_t *octets, size_t len, ristulva_segments cursor)
{
    for (;;) {
        ristulva_segments old = cursor;
        ristulva_segment segment;
        ristulva_numbers numbers;
        ristulva_status status = ristulva_next_segment(octets, len, &cursor, &segment);
        calls++;
        WANT(cursor.end == old.end && cursor.wide == old.wide && cursor.confederations == old.confederations);
        WANT((status == RISTULVA_RANGE) == (old.at > old.end || old.end > len));
        if (status != RISTULVA_OK) {
            WANT(status == RISTULVA_END || status == RISTULVA_RANGE);
            WANT(cursor.at == old.at);
            return;
        }
        WANT(segment.kind >= 1 && segment.kind <= (old.confederations ? 4 : 2) && segment.kind == octets[old.at]);
        WANT(segment.numbers.at == old.at + 2 && segment.numbers.at + segment.numbers.len == cursor.at && cursor.at <= cursor.end);
        WANT(segment.numbers.len == octets[old.at + 1] * (old.wide ? 4u : 2u) && segment.numbers.len > 0);
        numbers.at = segment.numbers.at;
        numbers.end = cursor.at;
        numbers.width = old.wide ? 4 : 2;
        walk_numbers(octets, len, numbers);
    }
}

/* A value as MP_REACH_NLRI, MP_UNREACH_NLRI, as a path and as large communities. */
static void walk_value(const uint8_t *octets, size_t len, ristulva_span value)
{
    ristulva_prefixes reached = {1, 2, 3}, unreached = {1, 2, 3};
    ristulva_span hop = {5, 6};
    ristulva_segments path;
    ristulva_large_communities large;
    ristulva_status of_reach = ristulva_reached(octets, len, &value, &hop, &reached);
    ristulva_status of_unreach = ristulva_unreached(octets, len, &value, &unreached);
    calls += 2;
    WANT(of_reach == RISTULVA_OK || (of_reach == RISTULVA_RANGE && hop.at == 5 && reached.at == 1));
    WANT(of_unreach == RISTULVA_OK || (of_unreach == RISTULVA_RANGE && unreached.at == 1));
    if (of_reach == RISTULVA_OK) {
        WANT(hop.at == value.at + 4 && hop.len == octets[value.at + 3] && reached.at == hop.at + hop.len + 1);
        WANT(reached.end == value.at + value.len && reached.afi == octets[value.at + 1]);
        walk_prefixes(octets, len, reached);
    }
    if (of_unreach == RISTULVA_OK) {
        WANT(unreached.at == value.at + 3 && unreached.end == value.at + value.len && unreached.afi == octets[value.at + 1]);
        walk_prefixes(octets, len, unreached);
    }
    path.at = value.at;
    path.end = value.at + value.len;
    path.wide = (uint8_t)below(2);
    path.confederations = (uint8_t)below(2);
    walk_segments(octets, len, path);
    large.first = large.at = value.at;
    large.end = value.at + value.len;
    walk_large_communities(octets, len, large);
}

static void walk_attributes(const uint8_t *octets, size_t len, ristulva_attributes cursor)
{
    for (;;) {
        ristulva_attributes old = cursor;
        ristulva_attribute attribute;
        ristulva_status status = ristulva_next_attribute(octets, len, &cursor, &attribute);
        calls++;
        WANT(cursor.end == old.end);
        WANT((status == RISTULVA_RANGE) == (old.at > old.end || old.end > len));
        if (status != RISTULVA_OK) {
            WANT(status == RISTULVA_END || status == RISTULVA_RANGE);
            WANT(cursor.at == old.at);
            return;
        }
        WANT(attribute.at == old.at && attribute.flags == octets[old.at] && attribute.kind == octets[old.at + 1]);
        WANT(attribute.value.at + attribute.value.len == cursor.at && cursor.at <= cursor.end);
        walk_value(octets, len, attribute.value);
    }
}

static void walk_capabilities(const uint8_t *octets, size_t len, ristulva_capabilities cursor, ristulva_open_fields *offered)
{
    for (;;) {
        ristulva_capabilities old = cursor;
        ristulva_capability capability;
        const uint8_t *value;
        ristulva_status status = ristulva_next_capability(octets, len, &cursor, &capability);
        calls++;
        WANT(cursor.end == old.end);
        WANT((status == RISTULVA_RANGE) == (old.at > old.stop || old.stop > old.end || old.end > len));
        if (status != RISTULVA_OK) {
            WANT(status == RISTULVA_END || status == RISTULVA_RANGE);
            WANT(cursor.at == old.at && cursor.stop == old.stop);
            return;
        }
        WANT(capability.value.at >= old.at + 2 && capability.value.at + capability.value.len == cursor.at);
        WANT(cursor.at <= cursor.stop && cursor.stop <= cursor.end);
        WANT(cursor.stop == old.stop || (cursor.stop > old.stop && capability.value.at >= old.stop + 4));
        value = octets + capability.value.at;
        WANT(capability.code == value[-2] && capability.value.len == value[-1]);
        if (capability.code == 65) {
            WANT(capability.value.len == 4);
            if (offered->as4 == 0)
                offered->as_number = number_at(value);
            offered->as4 = 1;
        }
        if (capability.code == 1) {
            WANT(capability.value.len == 4);
            offered->ip4 |= value[0] == 0 && value[1] == 1 && value[3] == 1;
            offered->ip6 |= value[0] == 0 && value[1] == 2 && value[3] == 1;
        }
    }
}

/* What an OPEN says is in its octets, and what it offers in its capabilities. */
static void try_open(const uint8_t *octets, size_t len, const ristulva_found *found, const ristulva_verdict *verdict)
{
    ristulva_open_fields fields, offered = {0, 0, 0, {0, 0, 0, 0}, 0, 0, 0, {0, 0, 0}};
    ristulva_status status;
    memset(&fields, 0xa5, sizeof fields);
    status = ristulva_open(octets, len, &fields);
    calls++;
    WANT((status == RISTULVA_INCOMPLETE) == (found->what == RISTULVA_MORE));
    WANT((status == RISTULVA_OK) == (found->what != RISTULVA_MORE && verdict->verdict == RISTULVA_OPEN));
    if (status != RISTULVA_OK) {
        size_t i;
        WANT(status == RISTULVA_INCOMPLETE || status == RISTULVA_REFUSED);
        for (i = 0; i < sizeof fields; i++)
            WANT(((const uint8_t *)&fields)[i] == 0xa5);
        return;
    }
    WANT(fields.as_field == (octets[20] << 8 | octets[21]) && fields.hold == (octets[22] << 8 | octets[23]));
    WANT(memcmp(fields.id, octets + 24, 4) == 0 && fields.hold != 1 && fields.hold != 2);
    WANT(fields.capabilities.at == 29 && fields.capabilities.stop == 29 && fields.capabilities.end == found->len);
    offered.as_number = fields.as_field;
    walk_capabilities(octets, len, fields.capabilities, &offered);
    WANT(fields.as_number == offered.as_number && fields.as4 == offered.as4);
    WANT(fields.ip4 == offered.ip4 && fields.ip6 == offered.ip6);
}

typedef ristulva_status rewriting(const ristulva_context *, const uint8_t *, size_t, uint8_t *, size_t, size_t *);

/* A body as an UPDATE to send, with AS numbers as wide as `as4` says: what is written has to be read again, and to be its own written form. */
static void try_encode(const ristulva_context *context, const uint8_t *body, size_t len, rewriting *rewrite, uint8_t as4)
{
    size_t room = below(3) == 0 ? below(100) : RISTULVA_MESSAGE, written = 77, again = 0;
    uint8_t message[RISTULVA_MESSAGE], other[RISTULVA_MESSAGE], data[1];
    ristulva_context read = *context;
    ristulva_verdict verdict;
    ristulva_status status;
    memset(message, 0x5a, sizeof message);
    refused = below(4) == 0 ? 1 : 0;
    for (;;) {
        allocations = 0;
        status = rewrite(context, body, len, message, room, &written);
        WANT(live == kept);
        calls++;
        if (status != RISTULVA_MEMORY)
            break;
        WANT(refused != 0 && written == 77 && message[0] == 0x5a);
        refused++;
    }
    refused = 0;
    WANT((status == RISTULVA_RANGE) == (len > RISTULVA_BODY));
    if (status != RISTULVA_OK) {
        WANT(message[0] == 0x5a);
        WANT(status == RISTULVA_ROOM ? written > room && written <= RISTULVA_MESSAGE : written == 77);
        WANT(status == RISTULVA_ROOM || status == RISTULVA_RANGE || status == RISTULVA_REFUSED || (status == RISTULVA_UNWRITABLE && rewrite != ristulva_encode));
        return;
    }
    WANT(written <= room && (written == sizeof message || message[written] == 0x5a));
    read.as4 = as4;
    WANT(ristulva_judge(&read, message, written, data, 0, &verdict) == RISTULVA_OK);
    WANT(verdict.verdict == RISTULVA_UPDATE && verdict.len == written);
    WANT(ristulva_encode(&read, message + 19, written - 19, other, sizeof other, &again) == RISTULVA_OK);
    WANT(again == written && memcmp(message, other, written) == 0);
    calls += 2;
}

/* One of the messages that are passed on: it is accepted, has no notes, is no longer, and is passed on unchanged. */
static size_t check_part(const ristulva_context *context, const uint8_t *types, size_t count, uint8_t first, const uint8_t *part, size_t left,
                         const ristulva_cleaned *told)
{
    static uint8_t again[RISTULVA_PARTS];
    ristulva_note_found note;
    ristulva_verdict verdict;
    ristulva_cleaned same;
    size_t notes = 77, len = 77, i;
    uint8_t data[RISTULVA_DATA];
    WANT(ristulva_judge(context, part, left, data, sizeof data, &verdict) == RISTULVA_OK);
    WANT(verdict.len >= 19 && verdict.len <= told->len && verdict.len <= left && verdict.verdict == verdict.kind);
    WANT(verdict.kind == (told->verdict == RISTULVA_WITHDRAW ? RISTULVA_UPDATE : told->verdict)
         || (verdict.kind == RISTULVA_KEEPALIVE && told->verdict == RISTULVA_UPDATE));
    WANT(ristulva_notes(context, part, verdict.len, &note, 1, &notes) == RISTULVA_OK && notes == 0);
    WANT(ristulva_clean(context, types, count, first, part, verdict.len, again, sizeof again, &len, &same) == RISTULVA_OK);
    WANT(len == verdict.len && memcmp(again, part, len) == 0 && same.discarded + same.left_out + same.capabilities == 0);
    if (verdict.kind == 2) {
        ristulva_attributes cursor = {verdict.parts.attributes.at, verdict.parts.attributes.at + verdict.parts.attributes.len};
        ristulva_attribute attribute;
        while (ristulva_next_attribute(part, verdict.len, &cursor, &attribute) == RISTULVA_OK)
            for (i = 0; i < count; i++)
                WANT(attribute.kind != types[i] || attribute.kind <= 32); /* types from 33 on aren't recognised */
    }
    calls += 3;
    return verdict.len;
}

/* What is passed on of the first message: one message, or up to three of an UPDATE; and all that is reported of it fits. */
static void check_handed(const ristulva_context *context, const uint8_t *types, size_t count, uint8_t first, const uint8_t *handed, size_t written,
                         const ristulva_cleaned *told)
{
    size_t at = 0, parts;
    WANT(told->verdict == RISTULVA_UPDATE || told->discarded + told->left_out == 0);
    WANT(told->verdict == RISTULVA_OPEN || told->capabilities == 0);
    for (parts = 0; at < written; parts++)
        at += check_part(context, types, count, first, handed + at, written - at, told);
    WANT(at == written && parts >= 1 && parts <= (told->verdict == RISTULVA_UPDATE ? 3 : 1));
}

/* With room for all and for less, and some types. It doesn't allocate. */
static void try_clean(const ristulva_context *context, const uint8_t *octets, size_t len, const ristulva_found *found, const ristulva_verdict *verdict)
{
    static uint8_t handed[RISTULVA_PARTS + 1];
    uint8_t types[3] = {(uint8_t)below(256), (uint8_t)(33 + below(223)), len == 0 ? 0 : octets[below((uint32_t)len)]}, first = (uint8_t)below(3);
    size_t count = below(4), room = below(3) == 0 ? below(64) : RISTULVA_PARTS, written = 77, notes = 77;
    ristulva_note_found note;
    ristulva_cleaned told;
    ristulva_status status;
    memset(handed, 0x5a, sizeof handed);
    memset(&told, 0xa5, sizeof told);
    /* The first allocation would be refused. */
    refused = 1;
    allocations = 0;
    status = ristulva_clean(context, types, count, first, octets, len, handed, room, &written, &told);
    WANT(live == kept && allocations == 0);
    calls++;
    refused = 0;
    WANT((status == RISTULVA_INCOMPLETE) == (found->what == RISTULVA_MORE));
    if (status == RISTULVA_INCOMPLETE) {
        WANT(written == 77 && told.ends == 0xa5 && handed[0] == 0x5a);
        return;
    }
    WANT(status == (written <= room ? RISTULVA_OK : RISTULVA_ROOM));
    WANT(told.verdict == verdict->verdict && told.len == verdict->len && handed[status == RISTULVA_OK ? written : 0] == 0x5a);
    if (told.ends != RISTULVA_HANDED_ON) {
        WANT(written == 0 && told.ends <= RISTULVA_ENDS_NO_FAMILY && told.discarded + told.left_out + told.capabilities == 0);
        WANT((told.ends == RISTULVA_ENDS_RESET) == (verdict->verdict == RISTULVA_RESET));
        WANT(told.ends == RISTULVA_ENDS_RESET ? told.code == verdict->code && told.subcode == verdict->subcode : verdict->verdict == RISTULVA_OPEN && told.code + told.subcode == 0);
        WANT(told.ends != RISTULVA_ENDS_LATE_OPEN || first == 0);
        return;
    }
    WANT(verdict->verdict != RISTULVA_RESET && (verdict->verdict != RISTULVA_OPEN || first != 0));
    ristulva_notes(context, octets, len, &note, 1, &notes);
    WANT(told.discarded == (verdict->verdict == RISTULVA_UPDATE ? notes : 0));
    if (status == RISTULVA_OK)
        check_handed(context, types, count, first, handed, written, &told);
}

/* A decoder that gets the octets in two pieces reports the same of the first message. */
static void try_decoder(const ristulva_context *context, const uint8_t *octets, size_t len, const ristulva_found *found, const ristulva_verdict *verdict)
{
    static uint8_t message[RISTULVA_MESSAGE + 1], data[RISTULVA_DATA + 1];
    size_t cut = below((uint32_t)len + 1), taken = 77, more = 0, size = found->what == RISTULVA_FAULT ? 19 : found->len;
    ristulva_decoder decoder = {NULL};
    ristulva_verdict told;
    ristulva_status status;
    memset(&told, 0xa5, sizeof told);
    memset(message, 0x5a, sizeof message);
    WANT(ristulva_decoder_new(context, &decoder) == RISTULVA_OK);
    status = ristulva_decoder_pull(&decoder, octets, cut, message, RISTULVA_MESSAGE, data, RISTULVA_DATA, &taken, &told);
    if (status == RISTULVA_INCOMPLETE) {
        WANT(taken == cut && told.verdict == 0xa5 && message[0] == 0x5a);
        status = ristulva_decoder_pull(&decoder, octets + cut, len - cut, message, RISTULVA_MESSAGE, data, RISTULVA_DATA, &more, &told);
    }
    calls += 2;
    WANT(status == (found->what == RISTULVA_MORE ? RISTULVA_INCOMPLETE : RISTULVA_OK));
    WANT(taken + more == (found->what == RISTULVA_MORE ? len : size));
    if (status == RISTULVA_OK)
        WANT(memcmp(&told, verdict, sizeof told) == 0 && memcmp(message, octets, size) == 0 && message[size] == 0x5a);
    WANT(ristulva_decoder_free(&decoder) == RISTULVA_OK && live == kept);
}

/* A stream by terms that gets the octets in two pieces reports what ristulva_judge_in does of the first message. */
static void try_stream(const ristulva_context *context, const uint8_t *octets, size_t len)
{
    static uint8_t message[RISTULVA_MESSAGE + 1], data[RISTULVA_DATA + 1], wanted[RISTULVA_DATA];
    const ristulva_terms terms = {*context, (uint8_t)below(3), (uint8_t)below(2), (uint8_t)below(256), 0, 0, (uint8_t)below(2)};
    size_t cut = below((uint32_t)len + 1), taken = 77, more = 0, size;
    ristulva_stream stream = {NULL};
    ristulva_verdict told, verdict;
    ristulva_status status, judged;
    memset(&told, 0xa5, sizeof told);
    memset(&verdict, 0xa5, sizeof verdict);
    memset(message, 0x5a, sizeof message);
    memset(data, 0x5a, sizeof data);
    judged = ristulva_judge_in(&terms, octets, len, wanted, sizeof wanted, &verdict);
    WANT(judged == RISTULVA_OK || judged == RISTULVA_INCOMPLETE);
    WANT(ristulva_stream_new(&terms, &stream) == RISTULVA_OK);
    status = ristulva_stream_pull(&stream, octets, cut, message, RISTULVA_MESSAGE, data, RISTULVA_DATA, &taken, &told);
    if (status == RISTULVA_INCOMPLETE) {
        WANT(taken == cut && told.verdict == 0xa5 && message[0] == 0x5a);
        status = ristulva_stream_pull(&stream, octets + cut, len - cut, message, RISTULVA_MESSAGE, data, RISTULVA_DATA, &more, &told);
    }
    calls += 3;
    WANT(status == judged);
    size = status == RISTULVA_INCOMPLETE ? len : verdict.kind == 0 ? 19 : verdict.len;
    WANT(taken + more == size);
    if (status == RISTULVA_OK) {
        WANT(memcmp(&told, &verdict, sizeof told) == 0 && memcmp(message, octets, size) == 0 && message[size] == 0x5a);
        WANT(memcmp(data, wanted, verdict.data_len) == 0 && data[verdict.data_len] == 0x5a);
    }
    WANT(ristulva_stream_free(&stream) == RISTULVA_OK && live == kept);
}

/* ---- sessions ---- */

static ristulva_session session;

static void check_actions(const ristulva_actions *actions, const uint8_t *message, size_t written)
{
    size_t i;
    uint8_t data[1];
    ristulva_context context = {0, 1, 1, 1};
    ristulva_verdict verdict;
    WANT(actions->count <= RISTULVA_ACTIONS && written <= RISTULVA_MESSAGE && message[written] == 0x5a);
    for (i = 0; i < RISTULVA_ACTIONS; i++) {
        const ristulva_action *action = &actions->list[i];
        WANT((action->kind == RISTULVA_DO_NOTHING) == (i >= actions->count) && action->kind <= RISTULVA_DO_FLUSH);
        WANT((action->timer != 0) == (action->kind == RISTULVA_DO_ARM || action->kind == RISTULVA_DO_DISARM));
        if (action->kind == RISTULVA_DO_SEND_NOTIFICATION)
            WANT(message[18] == 3 && message[19] == action->code && message[20] == action->subcode);
    }
    if (written > 0)
        WANT(ristulva_judge(&context, message, written, data, 0, &verdict) != RISTULVA_INCOMPLETE && verdict.verdict != RISTULVA_RESET && verdict.len == written);
}

/* The peer's AS number that the session wants. */
static uint32_t peer_as;

static void renew_session(void)
{
    ristulva_config config = {65001, 1 + below(3), {1, 2, 3, 4}, (uint16_t)(3 * below(3)), (uint8_t)below(2), 1, (uint8_t)below(2)};
    if (session.body != NULL && below(50) == 0)
        WANT(ristulva_session_free(&session) == RISTULVA_OK && session.body == NULL && live == --kept);
    if (session.body != NULL)
        return;
    refused = 1, allocations = 0;
    WANT(ristulva_session_new(&config, &session) == RISTULVA_MEMORY && session.body == NULL);
    refused = 0;
    WANT(ristulva_session_new(&config, &session) == RISTULVA_OK && live == ++kept);
    peer_as = config.peer_as;
}

/* The OPEN of a peer, mostly of the one that is wanted, and its KEEPALIVE. */
static void bring_up(uint8_t *message)
{
    static uint8_t octets[64];
    ristulva_config config = {below(4) == 0 ? 1 + below(3) : peer_as, 65001, {4, 3, 2, 1}, 30, 1, 1, 1};
    ristulva_session peer = {NULL};
    ristulva_actions actions;
    ristulva_heard heard;
    size_t len, written;
    WANT(ristulva_session_event(&session, RISTULVA_EVENT_START, &actions, message, RISTULVA_MESSAGE, &written) == RISTULVA_OK);
    WANT(ristulva_session_event(&session, RISTULVA_EVENT_CONNECTED, &actions, message, RISTULVA_MESSAGE, &written) == RISTULVA_OK);
    WANT(ristulva_session_new(&config, &peer) == RISTULVA_OK && ristulva_session_open(&peer, octets, sizeof octets, &len) == RISTULVA_OK);
    WANT(ristulva_session_free(&peer) == RISTULVA_OK && live == kept);
    (void)ristulva_session_hear(&session, octets, len, &heard, &actions, message, RISTULVA_MESSAGE, &written);
    memcpy(octets + 16, "\0\23\4", 3);
    (void)ristulva_session_hear(&session, octets, 19, &heard, &actions, message, RISTULVA_MESSAGE, &written);
}

/* A session that gets events at random, and receives the octets. */
static void try_session(const uint8_t *octets, size_t len, const ristulva_found *found)
{
    static const uint8_t events[] = {1, 2, 9, 10, 11, 16, 18};
    static uint8_t message[RISTULVA_MESSAGE + 1];
    ristulva_actions actions;
    ristulva_heard heard;
    ristulva_status status;
    uint8_t state = 0;
    size_t written;
    renew_session();
    if (below(2) == 0)
        bring_up(message);
    if (below(4) == 0) {
        memset(message, 0x5a, sizeof message);
        WANT(ristulva_session_event(&session, events[below(sizeof events)], &actions, message, RISTULVA_MESSAGE, &written) == RISTULVA_OK);
        check_actions(&actions, message, written);
    }
    memset(message, 0x5a, sizeof message);
    WANT(ristulva_session_state(&session, &state) == RISTULVA_OK);
    written = 77;
    status = ristulva_session_hear(&session, octets, len, &heard, &actions, message, RISTULVA_MESSAGE, &written);
    calls += 3;
    if (state < RISTULVA_OPEN_SENT)
        WANT(status == RISTULVA_STATE && written == 77);
    else
        WANT(status == (found->what == RISTULVA_MORE ? RISTULVA_INCOMPLETE : RISTULVA_OK));
    if (status != RISTULVA_OK)
        return;
    WANT(heard.len == (found->what == RISTULVA_FAULT ? 19 : found->len) && heard.heard >= RISTULVA_OPEN && heard.heard <= RISTULVA_RESET);
    check_actions(&actions, message, written);
    WANT(heard.parts.nlri.at + heard.parts.nlri.len == (heard.heard == RISTULVA_UPDATE || heard.heard == RISTULVA_WITHDRAW ? heard.len : 0));
}

/* ---- guards ---- */

static ristulva_guard guard;

/* How many blocks it is. */
static long guard_blocks;

static void free_guard(void)
{
    WANT(ristulva_guard_free(&guard) == RISTULVA_OK && guard.body == NULL && live == (kept -= guard_blocks));
}

/* A guard, mostly with both sides connected, that is made once each of its allocations failed. */
static void renew_guard(void)
{
    const uint8_t types[3] = {16, (uint8_t)below(256), (uint8_t)(33 + below(223))};
    size_t count = below(4);
    uint8_t one_way = below(4) == 0;
    ristulva_status status;
    for (refused = 1;; refused++) {
        allocations = 0;
        status = ristulva_guard_new(types, count, one_way, &guard);
        if (status != RISTULVA_MEMORY)
            break;
        WANT(allocations == refused && guard.body == NULL && live == kept);
    }
    guard_blocks = refused - 1;
    refused = 0;
    WANT(status == RISTULVA_OK && guard.body != NULL && allocations == guard_blocks && live == (kept += guard_blocks));
    if (below(8) != 0) {
        WANT(ristulva_guard_event(&guard, RISTULVA_OUTER, RISTULVA_SIDE_STOOD) == RISTULVA_OK);
        WANT(ristulva_guard_event(&guard, RISTULVA_INNER, RISTULVA_SIDE_STOOD) == RISTULVA_OK);
    }
    calls += (unsigned long)guard_blocks + 3;
}

/* A guard that gets events at random, receives the octets of a side, and sends: none of it allocates, and only its end frees memory. */
static void try_guard(const uint8_t *octets, size_t len)
{
    static uint8_t way[RISTULVA_MESSAGE + 1];
    size_t room = below(RISTULVA_MESSAGE + 1), taken = 77, written = 77;
    uint32_t side = below(2);
    ristulva_peer peer;
    ristulva_came came;
    ristulva_asks asks;
    if (guard.body == NULL)
        renew_guard();
    refused = 1;
    allocations = 0;
    if (below(20) == 0)
        WANT(ristulva_guard_event(&guard, below(2), 1 + below(4)) == RISTULVA_OK);
    if (below(200) == 0)
        WANT(ristulva_guard_stop(&guard) == RISTULVA_OK);
    if (below(4) == 0)
        WANT(ristulva_guard_tick(&guard) == RISTULVA_OK);
    memset(&came, 0xa5, sizeof came);
    memset(way, 0x5a, sizeof way);
    WANT(ristulva_guard_asks(&guard, side, &asks) == RISTULVA_OK);
    WANT(ristulva_guard_hear(&guard, side, octets, len, &taken, &came) == RISTULVA_OK);
    WANT(taken <= len && (taken > 0) == (asks.listens != 0 && len > 0) && came.what <= RISTULVA_CAME_DROPPED);
    WANT(ristulva_guard_way(&guard, side, way, room, &written) == RISTULVA_OK && written <= room && way[written] == 0x5a);
    WANT(ristulva_guard_sent(&guard, side, written) == RISTULVA_OK);
    (void)ristulva_guard_peer(&guard, side, &peer);
    WANT(ristulva_guard_asks(&guard, side, &asks) == RISTULVA_OK && asks.way <= 69632);
    WANT(live == kept && allocations == 0);
    refused = 0;
    calls += 6;
    if (below(asks.ended ? 2 : 40) == 0)
        free_guard();
}

/* All calls on some octets, which are at one end of that buffer. */
static void try_all(const uint8_t *from, size_t len)
{
    ristulva_context context;
    ristulva_found found;
    ristulva_verdict verdict;
    const uint8_t *octets = placed(from, len);
    int i;
    context.internal = (uint8_t)below(2);
    context.as4 = (uint8_t)below(2);
    context.ip4 = (uint8_t)(below(3) * 100);
    context.ip6 = (uint8_t)below(2);
    try_front(octets, len, &found);
    try_judge(&context, octets, len, &found, &verdict);
    try_notes(&context, octets, len, &found, &verdict);
    try_open(octets, len, &found, &verdict);
    try_text(&context, octets, len, &found);
    try_told(&context, octets, len, &found, &verdict);
    if (cleans) {
        try_clean(&context, octets, len, &found, &verdict);
        try_guard(octets, len);
    }
    try_decoder(&context, octets, len, &found, &verdict);
    try_stream(&context, octets, len);
    try_session(octets, len, &found);
    if (found.what == RISTULVA_FOUND && verdict.kind == 2) {
        ristulva_prefixes gone = {verdict.parts.withdrawn.at, verdict.parts.withdrawn.at + verdict.parts.withdrawn.len, 1};
        ristulva_prefixes nlri = {verdict.parts.nlri.at, verdict.parts.nlri.at + verdict.parts.nlri.len, 1};
        ristulva_attributes field = {verdict.parts.attributes.at, verdict.parts.attributes.at + verdict.parts.attributes.len};
        walk_prefixes(octets, len, gone);
        walk_prefixes(octets, len, nlri);
        walk_attributes(octets, len, field);
        try_encode(&context, octets + 19, found.len - 19, ristulva_encode, context.as4);
        try_encode(&context, octets + 19, found.len - 19, ristulva_narrow, 0);
        try_encode(&context, octets + 19, found.len - 19, ristulva_reconcile, 1);
    }
    try_encode(&context, octets, len, ristulva_encode, context.as4);
    try_encode(&context, octets, len, ristulva_reconcile, 1);
    for (i = 0; i < 4; i++) {
        ristulva_prefixes prefixes = {some_offset(len), some_offset(len), (uint16_t)below(4)};
        ristulva_attributes attributes = {some_offset(len), some_offset(len)};
        ristulva_segments segments = {some_offset(len), some_offset(len), (uint8_t)below(3), (uint8_t)below(3)};
        ristulva_numbers numbers = {some_offset(len), some_offset(len), (uint8_t)(below(3) * 2)};
        ristulva_large_communities large = {some_offset(len), some_offset(len), some_offset(len)};
        ristulva_span value = {some_offset(len), some_offset(len)};
        ristulva_capabilities capabilities = {some_offset(len), some_offset(len), some_offset(len)};
        ristulva_open_fields offered = {0, 0, 0, {0, 0, 0, 0}, 0, 0, 0, {0, 0, 0}};
        walk_prefixes(octets, len, prefixes);
        walk_attributes(octets, len, attributes);
        walk_segments(octets, len, segments);
        walk_numbers(octets, len, numbers);
        walk_large_communities(octets, len, large);
        large.at = large.first;
        walk_large_communities(octets, len, large);
        walk_value(octets, len, value);
        walk_capabilities(octets, len, capabilities, &offered);
    }
    try_batches(&context, from, len);
}

/* ---- octets ---- */

/* A message of a stream, changed at some offsets, or octets after a header. */
static size_t some_octets(uint8_t *octets)
{
    size_t len = below(4096), i;
    if (below(2) == 0 && loaded > 4200) {
        size_t at = below((uint32_t)loaded - 4200), step;
        for (step = 0; step < 4096 && memcmp(streams + at, "\377\377\377\377\377\377\377\377\377\377\377\377\377\377\377\377", 16) != 0; step++)
            at++;
        if (at + len > loaded)
            len = loaded - at;
        memcpy(octets, streams + at, len);
        for (i = below(5); i > 0 && len > 19; i--)
            octets[19 + below((uint32_t)len - 19)] = (uint8_t)below(256);
        return len;
    }
    if (below(4) != 0)
        len = below(200);
    for (i = 0; i < len; i++)
        octets[i] = (uint8_t)(below(3) == 0 ? below(5) : below(256));
    if (len >= 19 && below(8) != 0) {
        memset(octets, 255, 16);
        octets[16] = (uint8_t)(len >> 8);
        octets[17] = (uint8_t)len;
        octets[18] = (uint8_t)(1 + below(below(10) == 0 ? 6 : 3));
    }
    return len;
}

/* The message with the most notes: attributes of three octets with wrong flags, one that is cut off, and a route without what it has to have. */
static size_t most_notes(uint8_t *octets)
{
    size_t i;
    memset(octets, 255, 16);
    memcpy(octets + 16, "\20\0\2\0\0\17\350", 7);
    for (i = 0; i < 1357; i++)
        memcpy(octets + 23 + 3 * i, "\300\6\0", 3);
    memcpy(octets + 4094, "\300\0", 2);
    return RISTULVA_MESSAGE;
}

static void try_most_notes(uint8_t *octets)
{
    static ristulva_note_found notes[RISTULVA_NOTES];
    const ristulva_context context = {0, 1, 1, 1};
    size_t len = most_notes(octets), count = 0;
    memset(notes, 0, sizeof notes);
    WANT(ristulva_notes(&context, octets, len, notes, RISTULVA_NOTES - 1, &count) == RISTULVA_ROOM && count == RISTULVA_NOTES);
    WANT(notes[RISTULVA_NOTES - 1].why == 0 && notes[RISTULVA_NOTES - 2].why == RISTULVA_WHY_MISSING && notes[RISTULVA_NOTES - 2].kind == 2);
    WANT(ristulva_notes(&context, octets, len, notes, RISTULVA_NOTES, &count) == RISTULVA_OK && count == RISTULVA_NOTES);
    WANT(notes[RISTULVA_NOTES - 1].why == RISTULVA_WHY_MISSING && notes[RISTULVA_NOTES - 1].kind == 3);
    try_all(octets, len);
}

/* An UPDATE without routes whose LARGE_COMMUNITY has 65000:1:2, 65000:1:3, both again, and the last once more: each is given once. */
static void try_large_communities(uint8_t *octets)
{
    const ristulva_context context = {0, 1, 1, 1};
    ristulva_verdict verdict;
    ristulva_attributes attributes;
    ristulva_attribute attribute;
    ristulva_large_communities cursor;
    ristulva_large_community it;
    size_t len = 19 + 4 + 3 + 60, i;
    uint8_t data[1];
    memset(octets, 255, 16);
    memcpy(octets + 16, "\0\126\2\0\0\0\77\300\40\74", 10);
    for (i = 0; i < 5; i++) {
        memcpy(octets + 26 + 12 * i, "\0\0\375\350\0\0\0\1\0\0\0\2", 12);
        octets[26 + 12 * i + 11] = i == 1 || i > 2 ? 3 : 2;
    }
    WANT(ristulva_judge(&context, octets, len, data, sizeof data, &verdict) == RISTULVA_OK && verdict.verdict == RISTULVA_UPDATE);
    attributes.at = verdict.parts.attributes.at;
    attributes.end = verdict.parts.attributes.at + verdict.parts.attributes.len;
    WANT(ristulva_next_attribute(octets, len, &attributes, &attribute) == RISTULVA_OK && attribute.kind == 32);
    cursor.first = cursor.at = attribute.value.at;
    cursor.end = attribute.value.at + attribute.value.len;
    for (i = 2; i <= 3; i++) {
        WANT(ristulva_next_large_community(octets, len, &cursor, &it) == RISTULVA_OK);
        WANT(it.numbers[0] == 65000 && it.numbers[1] == 1 && it.numbers[2] == i);
    }
    WANT(ristulva_next_large_community(octets, len, &cursor, &it) == RISTULVA_END);
    try_all(octets, len);
}

static void *work(void *unused)
{
    static uint8_t octets[4096];
    unsigned long i;
    try_most_notes(octets);
    try_most_routes(octets);
    try_large_communities(octets);
    for (i = 0; i < (cleans ? rounds / 2 : rounds); i++) {
        size_t len = some_octets(octets);
        try_all(octets, len);
    }
    if (guard.body != NULL)
        free_guard();
    return unused;
}

int main(int argc, char **argv)
{
    WANT(ristulva_version() == RISTULVA_VERSION);
    begin(argc, argv);
    make_list_place();
    for (cleans = 0; cleans <= 1; cleans++) {
        run_on_stack(work, cleans ? MORE_STACK : STACK);
    }
    printf("%lu calls\n", calls);
    return 0;
}
