/* Prints each prefix that a stream on standard input announces or withdraws, a line each, an announced one with its AS path:
 *
 *     routes [--as4] [--ip4] [--ip6] [--internal] < STREAM
 *
 *     announce 10.0.0.0/8 path 65001 65002 {65003 65004}
 *     withdraw 2001:db8::/32
 *
 * All that it prints it reads by cursors from the octets that it holds, and it allocates nothing. An UPDATE that is treated as a withdrawal
 * withdraws all its prefixes (RFC 7606, section 2). It ends with 1 where a message ends the session, or the stream ends inside of one. */
#include "ristulva.h"
#include <arpa/inet.h>
#include <stdio.h>
#include <string.h>

/* A message that was judged. */
struct message {
    const uint8_t *octets;
    size_t len;
    ristulva_verdict verdict;
    ristulva_context context;
};

/* The first attribute of a type, which decides (RFC 7606, section 3, item g). 1 where there is one. */
static int find(const struct message *m, uint8_t kind, ristulva_span *value)
{
    const ristulva_span *field = &m->verdict.parts.attributes;
    ristulva_attributes cursor;
    ristulva_attribute attribute;
    cursor.at = field->at;
    cursor.end = field->at + field->len;
    while (ristulva_next_attribute(m->octets, m->len, &cursor, &attribute) == RISTULVA_OK) {
        if (attribute.kind == kind) {
            *value = attribute.value;
            return 1;
        }
    }
    return 0;
}

static void print_numbers(const struct message *m, const ristulva_segment *segment)
{
    ristulva_numbers cursor;
    uint32_t number;
    const char *between = segment->kind == 1 ? " {" : " ";
    cursor.at = segment->numbers.at;
    cursor.end = segment->numbers.at + segment->numbers.len;
    cursor.width = m->context.as4 ? 4 : 2;
    while (ristulva_next_number(m->octets, m->len, &cursor, &number) == RISTULVA_OK) {
        printf("%s%lu", between, (unsigned long)number);
        between = " ";
    }
    if (segment->kind == 1)
        printf("}");
}

static void print_path(const struct message *m)
{
    ristulva_segments cursor = {0, 0, 0, 0};
    ristulva_segment segment;
    ristulva_span value;
    printf(" path");
    if (!find(m, 2, &value))
        return;
    cursor.at = value.at;
    cursor.end = value.at + value.len;
    cursor.wide = m->context.as4;
    while (ristulva_next_segment(m->octets, m->len, &cursor, &segment) == RISTULVA_OK)
        print_numbers(m, &segment);
}

static void print_prefixes(const struct message *m, ristulva_prefixes cursor, int announced)
{
    ristulva_prefix prefix;
    char text[INET6_ADDRSTRLEN];
    announced = announced && m->verdict.verdict == RISTULVA_UPDATE;
    while (ristulva_next_prefix(m->octets, m->len, &cursor, &prefix) == RISTULVA_OK) {
        inet_ntop(prefix.afi == 1 ? AF_INET : AF_INET6, prefix.addr, text, sizeof text);
        printf("%s %s/%u", announced ? "announce" : "withdraw", text, prefix.len);
        if (announced)
            print_path(m);
        printf("\n");
    }
}

static void print_field(const struct message *m, const ristulva_span *field, int announced)
{
    ristulva_prefixes cursor;
    cursor.at = field->at;
    cursor.end = field->at + field->len;
    cursor.afi = 1;
    print_prefixes(m, cursor, announced);
}

/* Whether both speakers offer the family: what they don't is discarded. */
static int in_use(const struct message *m, const ristulva_prefixes *cursor)
{
    return cursor->afi == 1 ? m->context.ip4 : m->context.ip6;
}

static void print_update(const struct message *m)
{
    ristulva_prefixes cursor;
    ristulva_span value, next_hop;
    print_field(m, &m->verdict.parts.withdrawn, 0);
    if (find(m, 15, &value) && ristulva_unreached(m->octets, m->len, &value, &cursor) == RISTULVA_OK && in_use(m, &cursor))
        print_prefixes(m, cursor, 0);
    if (find(m, 14, &value) && ristulva_reached(m->octets, m->len, &value, &next_hop, &cursor) == RISTULVA_OK && in_use(m, &cursor))
        print_prefixes(m, cursor, 1);
    print_field(m, &m->verdict.parts.nlri, 1);
}

int main(int argc, char **argv)
{
    static uint8_t octets[8192], data[RISTULVA_DATA];
    struct message m = {octets, 0, {0}, {0, 0, 0, 0}};
    size_t got;
    int i;
    for (i = 1; i < argc; i++) {
        m.context.as4 |= strcmp(argv[i], "--as4") == 0;
        m.context.ip4 |= strcmp(argv[i], "--ip4") == 0;
        m.context.ip6 |= strcmp(argv[i], "--ip6") == 0;
        m.context.internal |= strcmp(argv[i], "--internal") == 0;
    }
    while ((got = fread(octets + m.len, 1, sizeof octets - m.len, stdin)) > 0) {
        m.len += got;
        while (ristulva_judge(&m.context, octets, m.len, data, sizeof data, &m.verdict) != RISTULVA_INCOMPLETE) {
            if (m.verdict.verdict == RISTULVA_RESET)
                return 1;
            if (m.verdict.kind == 2)
                print_update(&m);
            m.len -= m.verdict.len;
            memmove(octets, octets + m.verdict.len, m.len);
        }
    }
    return m.len != 0;
}
