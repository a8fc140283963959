/* Prints the fields of each message of a stream on standard input, as `bgp explain` does, but for what they say:
 *
 *     fields [--as4] [--ip4] [--ip6] [--internal] < STREAM
 *
 * A line has the offset in the message, the octets and the name, and a mark where a fault or a note lies there. It ends after the message that ends the
 * session. Its status is 0, or 2 for a fault of the command line, 4 where a read or a write failed. */
#include "ristulva.h"
#include <stdio.h>
#include <string.h>

static uint8_t octets[1 << 20];

/* The octets of the first message that a fault or a note is about. */
static ristulva_span marks[1 + RISTULVA_NOTES];
static size_t marked;

static void mark(const ristulva_context *context, const uint8_t *message, size_t len)
{
    static ristulva_note_found notes[RISTULVA_NOTES];
    size_t count, i;
    ristulva_fault(context, message, len, &marks[0]);
    marked = 1;
    ristulva_notes(context, message, len, notes, RISTULVA_NOTES, &count);
    for (i = 0; i < count; i++)
        ristulva_note_span(message, len, &notes[i], &marks[marked++]);
}

static int is_marked(const ristulva_field *field)
{
    size_t i;
    for (i = 0; i < marked; i++)
        if (field->at < marks[i].at + marks[i].len && marks[i].at < (uint32_t)field->at + field->len)
            return 1;
    return 0;
}

static void print_field(const uint8_t *message, const ristulva_field *field)
{
    char name[RISTULVA_FIELD_NAME];
    size_t written = 0, i;
    ristulva_field_name(field->kind, name, sizeof name, &written);
    printf("  %c %u ", is_marked(field) ? '>' : ' ', (unsigned)field->at);
    for (i = 0; i < field->len; i++)
        printf("%02x", (unsigned)message[field->at + i]);
    printf(" %.*s\n", (int)written, name);
}

/* Prints the fields of the messages that are whole, up to the one that ends the session. */
static void print_all(const ristulva_context *context, size_t len)
{
    static ristulva_field fields[RISTULVA_FIELDS];
    static uint8_t data[RISTULVA_DATA];
    size_t at = 0, written, i;
    ristulva_verdict verdict;
    while (ristulva_judge(context, octets + at, len - at, data, sizeof data, &verdict) == RISTULVA_OK) {
        mark(context, octets + at, len - at);
        if (ristulva_fields(context, octets + at, len - at, fields, RISTULVA_FIELDS, &written) != RISTULVA_OK)
            return;
        for (i = 0; i < written; i++)
            print_field(octets + at, &fields[i]);
        if (verdict.verdict == RISTULVA_RESET)
            return;
        at += verdict.len;
    }
}

int main(int argc, char **argv)
{
    ristulva_context context = {0, 0, 0, 0};
    size_t len;
    int i;
    for (i = 1; i < argc; i++) {
        if (strcmp(argv[i], "--as4") == 0)
            context.as4 = 1;
        else if (strcmp(argv[i], "--ip4") == 0)
            context.ip4 = 1;
        else if (strcmp(argv[i], "--ip6") == 0)
            context.ip6 = 1;
        else if (strcmp(argv[i], "--internal") == 0)
            context.internal = 1;
        else {
            fprintf(stderr, "usage: fields [--as4] [--ip4] [--ip6] [--internal] < STREAM\n");
            return 2;
        }
    }
    len = fread(octets, 1, sizeof octets, stdin);
    if (ferror(stdin))
        return 4;
    print_all(&context, len);
    return fflush(stdout) == 0 ? 0 : 4;
}
