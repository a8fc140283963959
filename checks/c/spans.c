/* The fields of messages, the octets of their faults, and those of their notes:
 *
 *     spans FILE..
 *
 * Of the messages of each file, and of changed forms of them, in some contexts: the fields joined have to be the message, with room for all of them and
 * for no more, and with less room nothing may be written; a fault has octets exactly where the message is answered by a reset, and a note unless it says
 * that an attribute is missing. Octets are in memory of their own, so that the sanitizers see reads after them. It runs on STACK octets of stack,
 * prints how many calls it made, and ends with 1 at the first answer that the header doesn't allow. */
#include "ristulva.h"
#include "trial.h"
#include "trial_chance.h"
#include "trial_stack.h"
#include <string.h>

#ifndef STACK
#define STACK (32 * 1024)
#endif

static unsigned long calls;

/* ---- fields ---- */

static ristulva_field fields[RISTULVA_FIELDS];

/* A group begins before its fields, and its type or code is at its beginning. */
static void check_group(const uint8_t *octets, const ristulva_field *field, const ristulva_verdict *verdict)
{
    if (field->group == 0) {
        WANT(field->type == 0);
        return;
    }
    WANT(field->group >= 19 && field->group <= field->at);
    if (verdict->kind == 2)
        WANT(field->type == 0 || field->type == octets[field->group + 1]);
    else
        WANT(field->type == octets[field->group]);
}

/* Whether a field of the message can't be read. */
static int unread;

static void check_fields(const uint8_t *octets, size_t size, size_t count, const ristulva_verdict *verdict)
{
    size_t at = 0, i;
    unread = 0;
    for (i = 0; i < count; i++) {
        WANT(fields[i].at == at && fields[i].len > 0);
        WANT(fields[i].kind >= RISTULVA_FIELD_MARKER && fields[i].kind <= RISTULVA_FIELD_UNREAD);
        check_group(octets, &fields[i], verdict);
        unread |= fields[i].kind == RISTULVA_FIELD_UNREAD;
        at += fields[i].len;
    }
    WANT(at == size);
}

static void try_fields(const ristulva_context *context, const uint8_t *octets, size_t len, size_t size, const ristulva_verdict *verdict)
{
    size_t count = 0, again = 77, less = 77, i;
    ristulva_field *some;
    WANT(ristulva_fields(context, octets, len, fields, RISTULVA_FIELDS, &count) == RISTULVA_OK && count > 0 && count <= size);
    check_fields(octets, size, count, verdict);
    some = malloc(count * sizeof *some);
    memset(some, 0xa5, count * sizeof *some);
    WANT(ristulva_fields(context, octets, len, some, count - 1, &less) == RISTULVA_ROOM && less == 77);
    for (i = 0; i < count * sizeof *some; i++)
        WANT(((const uint8_t *)some)[i] == 0xa5);
    WANT(ristulva_fields(context, octets, len, some, count, &again) == RISTULVA_OK && again == count);
    WANT(memcmp(some, fields, count * sizeof *some) == 0);
    free(some);
    calls += 3;
}

/* ---- faults and notes ---- */

static void try_spans(const ristulva_context *context, const uint8_t *octets, size_t len, size_t size, const ristulva_verdict *verdict)
{
    static ristulva_note_found notes[RISTULVA_NOTES];
    ristulva_span span = {77, 77};
    char section[RISTULVA_SECTION];
    size_t count, i, written = 77;
    WANT(ristulva_fault(context, octets, len, &span) == RISTULVA_OK);
    WANT((span.len > 0) == (verdict->verdict == RISTULVA_RESET) && span.at + span.len <= size);
    WANT(ristulva_fault_section(context, octets, len, section, sizeof section, &written) == RISTULVA_OK);
    WANT((written > 0) == (verdict->verdict == RISTULVA_RESET) && written <= sizeof section);
    WANT(ristulva_notes(context, octets, len, notes, RISTULVA_NOTES, &count) == RISTULVA_OK);
    WANT(!unread || count > 0 || verdict->verdict == RISTULVA_RESET);
    for (i = 0; i < count; i++) {
        WANT(ristulva_note_span(octets, len, &notes[i], &span) == RISTULVA_OK);
        WANT(ristulva_note_section(&notes[i], section, sizeof section, &written) == RISTULVA_OK && written > 0 && written <= sizeof section);
        if (notes[i].why == RISTULVA_WHY_MISSING)
            WANT(span.at == 0 && span.len == 0);
        else
            WANT(span.at == notes[i].at && span.len > 0 && span.at + span.len <= verdict->parts.attributes.at + verdict->parts.attributes.len);
    }
    calls += 3 + 2 * count;
}

static void try_incomplete(const ristulva_context *context, const uint8_t *octets, size_t len)
{
    const ristulva_note_found note = {23, 1, 1};
    ristulva_span span = {77, 77};
    char section[RISTULVA_SECTION];
    size_t written = 77;
    memset(fields, 0xa5, sizeof fields[0]);
    WANT(ristulva_fields(context, octets, len, fields, RISTULVA_FIELDS, &written) == RISTULVA_INCOMPLETE && written == 77 && fields[0].at == 0xa5a5);
    WANT(ristulva_fault(context, octets, len, &span) == RISTULVA_INCOMPLETE && span.at == 77 && span.len == 77);
    WANT(ristulva_fault_section(context, octets, len, section, sizeof section, &written) == RISTULVA_INCOMPLETE && written == 77);
    WANT(ristulva_note_span(octets, len, &note, &span) == RISTULVA_INCOMPLETE && span.at == 77 && span.len == 77);
    calls += 3;
}

/* All messages of octets. */
static void try_all(const ristulva_context *context, const uint8_t *octets, size_t len)
{
    static uint8_t data[RISTULVA_DATA];
    ristulva_verdict verdict;
    size_t size;
    for (; ristulva_judge(context, octets, len, data, sizeof data, &verdict) == RISTULVA_OK; octets += size, len -= size) {
        size = verdict.kind == 0 ? 19 : verdict.len;
        try_fields(context, octets, len, size, &verdict);
        try_spans(context, octets, len, size, &verdict);
        if (verdict.verdict == RISTULVA_RESET)
            return;
    }
    try_incomplete(context, octets, len);
}

/* ---- values by hand ---- */

/* An UPDATE that withdraws 192.0.2.0/24, and whose ORIGIN is 3 (RFC 4271, section 4.3). */
static const uint8_t UPDATE[] = {255, 255, 255, 255, 255, 255, 255, 255, 255, 255, 255, 255, 255, 255, 255, 255, 0,  34, 2,
                                 0,   4,   24,  192, 0,   2,   0,   4,   64,  1,   1,   3,   8,   10, 99, 99};

static void try_values(void)
{
    static const ristulva_field wanted[] = {
        {0, 16, 0, RISTULVA_FIELD_MARKER, 0},
        {16, 2, 0, RISTULVA_FIELD_MESSAGE_LENGTH, 0},
        {18, 1, 0, RISTULVA_FIELD_MESSAGE_TYPE, 0},
        {19, 2, 0, RISTULVA_FIELD_WITHDRAWN_LENGTH, 0},
        {21, 4, 0, RISTULVA_FIELD_WITHDRAWN_PREFIX, 0},
        {25, 2, 0, RISTULVA_FIELD_ATTRIBUTES_LENGTH, 0},
        {27, 1, 27, RISTULVA_FIELD_ATTRIBUTE_FLAGS, 1},
        {28, 1, 27, RISTULVA_FIELD_ATTRIBUTE_TYPE, 1},
        {29, 1, 27, RISTULVA_FIELD_ATTRIBUTE_LENGTH, 1},
        {30, 1, 27, RISTULVA_FIELD_ORIGIN, 1},
        {31, 2, 0, RISTULVA_FIELD_NLRI_PREFIX, 0},
    };
    static const ristulva_note_found note = {27, 1, RISTULVA_WHY_VALUE};
    const ristulva_context context = {0, 1, 1, 1};
    ristulva_span span = {77, 77};
    uint8_t marker[19];
    size_t count = 0;
    /* Its Length says 33 octets, and two follow it. */
    uint8_t update[sizeof UPDATE];
    memcpy(update, UPDATE, sizeof update);
    update[17] = 33;
    WANT(ristulva_fields(&context, update, sizeof update, fields, 11, &count) == RISTULVA_OK && count == 11);
    WANT(memcmp(fields, wanted, sizeof wanted) == 0);
    WANT(ristulva_note_span(update, sizeof update, &note, &span) == RISTULVA_OK && span.at == 27 && span.len == 4);
    WANT(ristulva_fault(&context, update, sizeof update, &span) == RISTULVA_OK && span.at == 0 && span.len == 0);
    /* A Total Path Attribute Length that leaves no room. */
    update[26] = 9;
    WANT(ristulva_fault(&context, update, sizeof update, &span) == RISTULVA_OK && span.at == 25 && span.len == 2);
    /* A Marker whose fourth octet isn't 255. */
    memcpy(marker, UPDATE, sizeof marker);
    marker[3] = 0;
    WANT(ristulva_fault(&context, marker, sizeof marker, &span) == RISTULVA_OK && span.at == 3 && span.len == 1);
    WANT(ristulva_fields(&context, marker, sizeof marker, fields, 3, &count) == RISTULVA_OK && count == 3);
    calls += 6;
}

/* The sections of an MP_UNREACH_NLRI of two octets, of one that is transitive, and of notes. */
static void try_sections(void)
{
    static const char wanted[] = "RFC 7606, section 5.3";
    static const ristulva_note_found value = {27, 1, RISTULVA_WHY_VALUE}, second = {27, 1, RISTULVA_WHY_REPEATED}, none = {27, 1, 16};
    const ristulva_context context = {0, 1, 1, 1};
    uint8_t update[] = {255, 255, 255, 255, 255, 255, 255, 255, 255, 255, 255, 255, 255, 255, 255, 255, 0, 28, 2, 0, 0, 0, 5, 128, 15, 2, 0, 2};
    char section[RISTULVA_SECTION];
    size_t written = 77;
    WANT(ristulva_fault_section(&context, update, sizeof update, section, sizeof section, &written) == RISTULVA_OK);
    WANT(written == strlen(wanted) && memcmp(section, wanted, written) == 0);
    WANT(ristulva_fault_section(&context, update, sizeof update, section, 4, &written) == RISTULVA_ROOM && written == strlen(wanted));
    update[23] = 192;
    WANT(ristulva_fault_section(&context, update, sizeof update, section, sizeof section, &written) == RISTULVA_OK);
    WANT(written == 8 && memcmp(section, "own rule", written) == 0);
    WANT(ristulva_note_section(&value, section, sizeof section, &written) == RISTULVA_OK);
    WANT(written == 21 && memcmp(section, "RFC 7606, section 7.1", written) == 0);
    WANT(ristulva_note_section(&second, section, sizeof section, &written) == RISTULVA_OK && written == sizeof section);
    written = 77;
    WANT(ristulva_note_section(&none, section, sizeof section, &written) == RISTULVA_RANGE && written == 77);
    calls += 6;
}

static void try_names(void)
{
    char name[RISTULVA_FIELD_NAME];
    size_t written = 77;
    uint32_t kind;
    WANT(ristulva_field_name(RISTULVA_FIELD_NLRI_PREFIX, name, sizeof name, &written) == RISTULVA_OK && written == sizeof name);
    WANT(memcmp(name, "Network Layer Reachability Information", sizeof name) == 0);
    WANT(ristulva_field_name(RISTULVA_FIELD_MARKER, name, 5, &written) == RISTULVA_ROOM && written == 6 && name[0] == 'N');
    written = 77;
    WANT(ristulva_field_name(0, name, sizeof name, &written) == RISTULVA_RANGE && written == 77);
    WANT(ristulva_field_name(RISTULVA_FIELD_PATH_IDENTIFIER + 1, name, sizeof name, &written) == RISTULVA_RANGE && written == 77);
    for (kind = RISTULVA_FIELD_MARKER; kind <= RISTULVA_FIELD_PATH_IDENTIFIER; kind++)
        WANT(ristulva_field_name(kind, name, sizeof name, &written) == RISTULVA_OK && written > 0 && written <= sizeof name);
    calls += 4 + RISTULVA_FIELD_PATH_IDENTIFIER;
}

/* ---- streams ---- */

static uint8_t stream[1u << 18];
static char **names;
static int files;

static size_t load(const char *name)
{
    FILE *file = fopen(name, "rb");
    size_t len;
    WANT(file != NULL);
    len = fread(stream, 1, sizeof stream, file);
    fclose(file);
    return len;
}

static void *work(void *unused)
{
    int i, round;
    try_values();
    try_names();
    try_sections();
    for (i = 0; i < files; i++) {
        size_t len = load(names[i]);
        for (round = 0; round < 40 && len > 0; round++) {
            const ristulva_context context = {(uint8_t)below(2), (uint8_t)(below(2) * 7), (uint8_t)(below(4) != 0), (uint8_t)below(2)};
            size_t kept = len < 20000 ? len : 20000;
            uint8_t *octets = malloc(kept);
            memcpy(octets, stream, kept);
            try_all(&context, octets, kept);
            free(octets);
            stream[below((uint32_t)kept)] = (uint8_t)below(256);
        }
    }
    return unused;
}

int main(int argc, char **argv)
{
    WANT(ristulva_version() == RISTULVA_VERSION);
    names = argv + 1;
    files = argc - 1;
    run_on_stack(work, STACK);
    printf("%lu calls\n", calls);
    return 0;
}
