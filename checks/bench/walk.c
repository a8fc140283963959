/* Judges each message of a stream by the library for C and walks all parts of its UPDATEs by cursors: attributes, the prefixes of the
 * four fields, and the numbers of the AS path; or passes the stream to a session, and counts the prefixes of what it announces and withdraws.
 * Prints the sums of one round, as baseline.rs does, and the best time of the rounds.
 *
 * usage: walk FILE ROUNDS [session | notes | fields]      the session has 4-octet AS numbers and both families; notes and fields are read alone */
#define _POSIX_C_SOURCE 200809L
#include "ristulva.h"
#include <stdio.h>
#include <stdlib.h>
#include <string.h>
#include <time.h>

/* The types of attributes that are walked further. */
enum { AS_PATH = 2, MP_REACH = 14, MP_UNREACH = 15 };

static const ristulva_context context = {0, 1, 1, 1};

/* Numbers of what was found. `path` is the sum of the numbers of paths, so that no step can be left out. */
struct sums {
    unsigned long messages, attributes, announced, withdrawn, bad, numbers;
    unsigned long long path;
};

/* A message that was judged. */
struct message {
    const uint8_t *octets;
    size_t len;
    ristulva_parts parts;
};

static unsigned long count_prefixes(const struct message *m, ristulva_prefixes cursor)
{
    ristulva_prefix prefix;
    unsigned long count = 0;
    while (ristulva_next_prefix(m->octets, m->len, &cursor, &prefix) == RISTULVA_OK)
        count++;
    return count;
}

static unsigned long count_field(const struct message *m, ristulva_span field)
{
    ristulva_prefixes cursor = {field.at, field.at + field.len, 1};
    return count_prefixes(m, cursor);
}

static void walk_path(const struct message *m, ristulva_span value, struct sums *sums)
{
    ristulva_segments segments = {value.at, value.at + value.len, 1, 0};
    ristulva_segment segment;
    while (ristulva_next_segment(m->octets, m->len, &segments, &segment) == RISTULVA_OK) {
        ristulva_numbers numbers = {segment.numbers.at, segment.numbers.at + segment.numbers.len, 4};
        uint32_t number;
        while (ristulva_next_number(m->octets, m->len, &numbers, &number) == RISTULVA_OK) {
            sums->numbers++;
            sums->path += number;
        }
    }
}

static void walk_attribute(const struct message *m, const ristulva_attribute *attribute, struct sums *sums)
{
    ristulva_span next_hop;
    ristulva_prefixes cursor;
    sums->attributes++;
    if (attribute->kind == AS_PATH)
        walk_path(m, attribute->value, sums);
    else if (attribute->kind == MP_REACH && ristulva_reached(m->octets, m->len, &attribute->value, &next_hop, &cursor) == RISTULVA_OK)
        sums->announced += count_prefixes(m, cursor);
    else if (attribute->kind == MP_UNREACH && ristulva_unreached(m->octets, m->len, &attribute->value, &cursor) == RISTULVA_OK)
        sums->withdrawn += count_prefixes(m, cursor);
}

static void walk_update(const struct message *m, struct sums *sums)
{
    ristulva_attributes cursor = {m->parts.attributes.at, m->parts.attributes.at + m->parts.attributes.len};
    ristulva_attribute attribute;
    while (ristulva_next_attribute(m->octets, m->len, &cursor, &attribute) == RISTULVA_OK)
        walk_attribute(m, &attribute, sums);
    sums->withdrawn += count_field(m, m->parts.withdrawn);
    sums->announced += count_field(m, m->parts.nlri);
}

/* How many notes a message has, of which it asks for all. */
static unsigned long count_notes(const uint8_t *octets, size_t len)
{
    static ristulva_note_found notes[RISTULVA_NOTES];
    size_t count = 0;
    (void)ristulva_notes(&context, octets, len, notes, RISTULVA_NOTES, &count);
    return count;
}

/* Walks the notes of a stream, up to its end or to the first message that ends the session. */
static struct sums note_all(const uint8_t *octets, size_t len)
{
    static uint8_t data[RISTULVA_DATA];
    struct sums sums = {0};
    ristulva_verdict verdict;
    while (ristulva_judge(&context, octets, len, data, sizeof data, &verdict) != RISTULVA_INCOMPLETE && verdict.verdict != RISTULVA_RESET) {
        sums.messages++;
        sums.bad += count_notes(octets, len);
        octets += verdict.len;
        len -= verdict.len;
    }
    return sums;
}

/* Lists the fields of each message of a stream, up to its end or to a header with a fault, and counts them with the numbers. */
static struct sums list_all(const uint8_t *octets, size_t len)
{
    static ristulva_field fields[RISTULVA_MESSAGE];
    struct sums sums = {0};
    size_t count = 0;
    while (ristulva_fields(&context, octets, len, fields, RISTULVA_MESSAGE, &count) == RISTULVA_OK) {
        const ristulva_field *last = fields + count - 1;
        sums.messages++;
        sums.numbers += count;
        octets += last->at + last->len;
        len -= last->at + last->len;
    }
    return sums;
}

/* Walks a stream up to its end or to the first message that ends the session. */
static struct sums walk(const uint8_t *octets, size_t len)
{
    static uint8_t data[RISTULVA_DATA];
    struct sums sums = {0};
    ristulva_verdict verdict;
    while (ristulva_judge(&context, octets, len, data, sizeof data, &verdict) != RISTULVA_INCOMPLETE) {
        sums.messages++;
        sums.bad += verdict.verdict == RISTULVA_WITHDRAW || verdict.verdict == RISTULVA_RESET;
        if (verdict.verdict == RISTULVA_RESET)
            break;
        if (verdict.kind == 2) {
            struct message m = {octets, verdict.len, verdict.parts};
            walk_update(&m, &sums);
        }
        octets += verdict.len;
        len -= verdict.len;
    }
    return sums;
}

/* ---- a session ---- */

static uint8_t sent[RISTULVA_MESSAGE];
static ristulva_actions to_do;

static void must(int fact, const char *what)
{
    if (!fact) {
        fprintf(stderr, "walk: %s\n", what);
        exit(1);
    }
}

static void hear(ristulva_session *session, const uint8_t *octets, size_t len)
{
    ristulva_heard heard;
    size_t written;
    must(ristulva_session_hear(session, octets, len, &heard, &to_do, sent, sizeof sent, &written) == RISTULVA_OK, "a message isn't heard");
}

/* A session of AS 65002 that is Established with AS 65001. Both offer AS numbers of four octets, IPv4 and IPv6. */
static void establish(ristulva_session *session)
{
    static const ristulva_config own = {65002, 65001, {192, 0, 2, 2}, 90, 1, 1, 1}, other = {65001, 65002, {192, 0, 2, 1}, 90, 1, 1, 1};
    static const uint8_t keepalive[] = {255, 255, 255, 255, 255, 255, 255, 255, 255, 255, 255, 255, 255, 255, 255, 255, 0, 19, 4};
    ristulva_session peer = {NULL};
    uint8_t open[RISTULVA_MESSAGE], state = 0;
    size_t len, written;
    must(ristulva_session_new(&own, session) == RISTULVA_OK && ristulva_session_new(&other, &peer) == RISTULVA_OK, "there is no memory");
    must(ristulva_session_open(&peer, open, sizeof open, &len) == RISTULVA_OK, "there is no OPEN");
    ristulva_session_free(&peer);
    ristulva_session_event(session, RISTULVA_EVENT_START, &to_do, sent, sizeof sent, &written);
    ristulva_session_event(session, RISTULVA_EVENT_CONNECTED, &to_do, sent, sizeof sent, &written);
    hear(session, open, len);
    hear(session, keepalive, sizeof keepalive);
    must(ristulva_session_state(session, &state) == RISTULVA_OK && state == RISTULVA_ESTABLISHED, "the session isn't Established");
}

/* The number of prefixes that a cursor gives, counted in one call. */
static unsigned long prefixes_of(const struct message *m, ristulva_prefixes cursor)
{
    size_t count = 0;
    must(ristulva_count_prefixes(m->octets, m->len, &cursor, &count) == RISTULVA_OK, "prefixes aren't counted");
    return count;
}

static unsigned long prefixes_in(const struct message *m, ristulva_span field)
{
    ristulva_prefixes cursor = {field.at, field.at + field.len, 1};
    return prefixes_of(m, cursor);
}

/* Counts the prefixes of an attribute of multiprotocol routes. */
static void count_attribute(const struct message *m, const ristulva_attribute *attribute, struct sums *sums)
{
    ristulva_span next_hop;
    ristulva_prefixes cursor;
    if (attribute->kind == MP_REACH && ristulva_reached(m->octets, m->len, &attribute->value, &next_hop, &cursor) == RISTULVA_OK)
        sums->announced += prefixes_of(m, cursor);
    else if (attribute->kind == MP_UNREACH && ristulva_unreached(m->octets, m->len, &attribute->value, &cursor) == RISTULVA_OK)
        sums->withdrawn += prefixes_of(m, cursor);
}

static void count_routes(const struct message *m, struct sums *sums)
{
    ristulva_attributes cursor = {m->parts.attributes.at, m->parts.attributes.at + m->parts.attributes.len};
    ristulva_attribute attribute;
    while (ristulva_next_attribute(m->octets, m->len, &cursor, &attribute) == RISTULVA_OK)
        count_attribute(m, &attribute, sums);
    sums->withdrawn += prefixes_in(m, m->parts.withdrawn);
    sums->announced += prefixes_in(m, m->parts.nlri);
}

/* Passes a stream to a session up to its end, or to where the session ends. */
static struct sums live(const uint8_t *octets, size_t len)
{
    struct sums sums = {0};
    ristulva_session session = {NULL};
    ristulva_heard heard;
    size_t written;
    establish(&session);
    while (ristulva_session_hear(&session, octets, len, &heard, &to_do, sent, sizeof sent, &written) == RISTULVA_OK) {
        sums.messages++;
        sums.bad += heard.heard == RISTULVA_WITHDRAW || heard.heard == RISTULVA_RESET;
        if (heard.heard == RISTULVA_UPDATE || heard.heard == RISTULVA_WITHDRAW) {
            struct message m = {octets, heard.len, heard.parts};
            count_routes(&m, &sums);
        }
        octets += heard.len;
        len -= heard.len;
    }
    ristulva_session_free(&session);
    return sums;
}

/* All octets of a file, which may be a pipe. NULL where they can't be read. */
static uint8_t *read_all(const char *name, size_t *len)
{
    size_t room = 1 << 20, got;
    uint8_t *octets = malloc(room);
    FILE *file = fopen(name, "rb");
    *len = 0;
    while (file != NULL && octets != NULL && (got = fread(octets + *len, 1, room - *len, file)) > 0) {
        *len += got;
        if (*len == room)
            octets = realloc(octets, room *= 2);
    }
    return file == NULL || ferror(file) ? NULL : octets;
}

static unsigned long long nanoseconds(void)
{
    struct timespec now;
    clock_gettime(CLOCK_MONOTONIC, &now);
    return 1000000000ull * (unsigned long long)now.tv_sec + (unsigned long long)now.tv_nsec;
}

/* What a word asks for: a session, notes, fields, or a walk where there is none; NULL for another word. */
static struct sums (*work(const char *word))(const uint8_t *, size_t)
{
    if (word == NULL)
        return walk;
    if (strcmp(word, "session") == 0)
        return live;
    if (strcmp(word, "fields") == 0)
        return list_all;
    return strcmp(word, "notes") == 0 ? note_all : NULL;
}

int main(int argc, char **argv)
{
    unsigned long long best = -1ull;
    struct sums sums = {0};
    size_t len;
    long rounds;
    uint8_t *octets;
    if (argc < 3 || argc > 4 || work(argv[3]) == NULL) {
        fprintf(stderr, "usage: walk FILE ROUNDS [session | notes | fields]\n");
        return 2;
    }
    octets = read_all(argv[1], &len);
    if (octets == NULL) {
        perror(argv[1]);
        return 4;
    }
    for (rounds = atol(argv[2]); rounds > 0; rounds--) {
        unsigned long long start = nanoseconds(), took;
        sums = work(argv[3])(octets, len);
        took = nanoseconds() - start;
        best = took < best ? took : best;
    }
    printf("RESULT messages=%lu attributes=%lu announced=%lu withdrawn=%lu numbers=%lu path=%llu bad=%lu octets=%zu best_ns=%llu\n", sums.messages,
           sums.attributes, sums.announced, sums.withdrawn, sums.numbers, sums.path, sums.bad, len, best);
    free(octets);
    return 0;
}
