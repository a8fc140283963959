/* Prints what batches have of a stream on standard input, a row on a line: its routes, the numbers of its paths, its communities, its large communities:
 *
 *     batches [--as4] [--ip4] [--ip6] [--internal] ROOM < STREAM
 *
 * ROOM is how many rows the lists have, 4073 (RISTULVA_BATCH) or more: below that nothing is printed. Each row begins with the offset of its message, and
 * after those of each kind a line has the status, and where the last batch ended. After the rows of a batch the list has to be as it was. The program's
 * status is 0, or 1 where it isn't, 2 for a fault of the command line, 4 where a read or a write failed. */
#include "ristulva.h"
#include <arpa/inet.h>
#include <stdio.h>
#include <stdlib.h>
#include <string.h>

/* What the list has where nothing is written. */
#define BLANK 0xA5

static uint8_t octets[1 << 20];

static void print_place(const char *name, ristulva_place place)
{
    if (place.len != 0)
        printf(" %s %u %u", name, (unsigned)place.at, (unsigned)place.len);
}

static void print_route(uint64_t at, const void *row)
{
    const ristulva_route_row *route = row;
    char text[INET6_ADDRSTRLEN];
    inet_ntop(route->prefix.afi == 1 ? AF_INET : AF_INET6, route->prefix.addr, text, sizeof text);
    printf("%llu %s %s/%u", (unsigned long long)(at + route->message), route->announced ? "announce" : "withdraw", text, (unsigned)route->prefix.len);
    if (route->verdict == RISTULVA_WITHDRAW)
        printf(" treated");
    if (route->has_origin_as)
        printf(" origin %lu", (unsigned long)route->origin_as);
    print_place("as_path", route->as_path);
    print_place("as4_path", route->as4_path);
    print_place("communities", route->communities);
    print_place("large_communities", route->large_communities);
    printf("\n");
}

static void print_number(uint64_t at, const void *row)
{
    const ristulva_number_row *number = row;
    printf("%llu %u %s %lu\n", (unsigned long long)(at + number->message), (unsigned)number->segment, number->set ? "set" : "sequence",
           (unsigned long)number->number);
}

static void print_community(uint64_t at, const void *row)
{
    const ristulva_community_row *community = row;
    printf("%llu %lu:%lu\n", (unsigned long long)(at + community->message), (unsigned long)(community->value >> 16),
           (unsigned long)(community->value & 0xFFFF));
}

static void print_large(uint64_t at, const void *row)
{
    const ristulva_large_community_row *large = row;
    printf("%llu %lu:%lu:%lu\n", (unsigned long long)(at + large->message), (unsigned long)large->global, (unsigned long)large->local1,
           (unsigned long)large->local2);
}

static ristulva_status routes(const ristulva_context *context, const uint8_t *from, size_t len, void *rows, size_t room, size_t *written, size_t *taken)
{
    return ristulva_routes(context, from, len, rows, room, written, taken);
}

static ristulva_status numbers(const ristulva_context *context, const uint8_t *from, size_t len, void *rows, size_t room, size_t *written, size_t *taken)
{
    return ristulva_path_numbers(context, from, len, rows, room, written, taken);
}

static ristulva_status communities(const ristulva_context *context, const uint8_t *from, size_t len, void *rows, size_t room, size_t *written,
                                   size_t *taken)
{
    return ristulva_communities_of(context, from, len, rows, room, written, taken);
}

static ristulva_status large(const ristulva_context *context, const uint8_t *from, size_t len, void *rows, size_t room, size_t *written, size_t *taken)
{
    return ristulva_large_communities_of(context, from, len, rows, room, written, taken);
}

static const struct kind {
    size_t size;
    ristulva_status (*take)(const ristulva_context *, const uint8_t *, size_t, void *, size_t, size_t *, size_t *);
    void (*print)(uint64_t, const void *);
} kinds[] = {
    {sizeof(ristulva_route_row), routes, print_route},
    {sizeof(ristulva_number_row), numbers, print_number},
    {sizeof(ristulva_community_row), communities, print_community},
    {sizeof(ristulva_large_community_row), large, print_large},
};

/* Whether the list is blank from a place on. */
static int is_blank(const uint8_t *from, size_t len)
{
    size_t i;
    for (i = 0; i < len; i++)
        if (from[i] != BLANK)
            return 0;
    return 1;
}

/* Prints the rows of a stream, batch by batch. */
static int print_kind(const ristulva_context *context, const struct kind *kind, size_t room, size_t len)
{
    uint8_t *rows = malloc(room * kind->size + 1);
    size_t at = 0, written = 0, taken = 0, i;
    ristulva_status status;
    if (rows == NULL)
        return 4;
    do {
        memset(rows, BLANK, room * kind->size + 1);
        status = kind->take(context, octets + at, len - at, rows, room, &written, &taken);
        if (status == RISTULVA_ROOM) {
            free(rows);
            return room < RISTULVA_BATCH && written == 0 && taken == 0 ? 0 : 1;
        }
        if (!is_blank(rows + written * kind->size, (room - written) * kind->size + 1) || (status == RISTULVA_OK && at < len && taken == 0)) {
            free(rows);
            return 1;
        }
        for (i = 0; i < written; i++)
            kind->print(at, rows + i * kind->size);
        at += taken;
    } while (status == RISTULVA_OK && at < len);
    printf("end %lu %lu\n", (unsigned long)status, (unsigned long)at);
    free(rows);
    return 0;
}

/* Sets what a flag of the command line names. */
static int set_flag(ristulva_context *context, const char *flag)
{
    if (strcmp(flag, "--as4") == 0)
        context->as4 = 1;
    else if (strcmp(flag, "--ip4") == 0)
        context->ip4 = 1;
    else if (strcmp(flag, "--ip6") == 0)
        context->ip6 = 1;
    else if (strcmp(flag, "--internal") == 0)
        context->internal = 1;
    else
        return 0;
    return 1;
}

int main(int argc, char **argv)
{
    ristulva_context context = {0, 0, 0, 0};
    int i = 1, status = 0;
    size_t len, room, k;
    while (i < argc && set_flag(&context, argv[i]))
        i++;
    if (argc - i != 1) {
        fprintf(stderr, "usage: batches [--as4] [--ip4] [--ip6] [--internal] ROOM < STREAM\n");
        return 2;
    }
    room = strtoul(argv[i], NULL, 10);
    len = fread(octets, 1, sizeof octets, stdin);
    if (ferror(stdin))
        return 4;
    for (k = 0; status == 0 && k < sizeof kinds / sizeof *kinds; k++)
        status = print_kind(&context, &kinds[k], room, len);
    return status == 0 && fflush(stdout) != 0 ? 4 : status;
}
