/* Prints what each OPEN of a stream on standard input says, where it is accepted:
 *
 *     open [--as4] [--ip4] [--ip6] [--internal] < STREAM
 *
 *     as 131073
 *     field 23456
 *     hold 90
 *     id 192.0.2.2
 *     offers as4 ip4 ip6
 *     cap 65 00020001
 *     cap 2 -
 *
 * The flags are what both speakers agreed on, as `bgp show` takes them: no OPEN depends on them, but what comes before one may end
 * the session. It allocates nothing. It ends with 1 where a message ends the session, or the stream ends inside of one. */
#include "ristulva.h"
#include <stdio.h>
#include <string.h>

static void print_capability(const uint8_t *octets, const ristulva_capability *capability)
{
    const uint8_t *value = octets + capability->value.at;
    uint32_t i;
    printf("cap %u %s", capability->code, capability->value.len == 0 ? "-" : "");
    for (i = 0; i < capability->value.len; i++)
        printf("%02x", value[i]);
    printf("\n");
}

static void print_open(const uint8_t *octets, size_t len, const ristulva_open_fields *open)
{
    ristulva_capabilities cursor = open->capabilities;
    ristulva_capability capability;
    printf("as %lu\nfield %u\nhold %u\n", (unsigned long)open->as_number, open->as_field, open->hold);
    printf("id %u.%u.%u.%u\n", open->id[0], open->id[1], open->id[2], open->id[3]);
    printf("offers%s%s%s\n", open->as4 ? " as4" : "", open->ip4 ? " ip4" : "", open->ip6 ? " ip6" : "");
    while (ristulva_next_capability(octets, len, &cursor, &capability) == RISTULVA_OK)
        print_capability(octets, &capability);
}

int main(int argc, char **argv)
{
    static uint8_t octets[8192], data[RISTULVA_DATA];
    ristulva_context context = {0, 0, 0, 0};
    ristulva_verdict verdict;
    size_t held = 0, got;
    int i;
    for (i = 1; i < argc; i++) {
        context.as4 |= strcmp(argv[i], "--as4") == 0;
        context.ip4 |= strcmp(argv[i], "--ip4") == 0;
        context.ip6 |= strcmp(argv[i], "--ip6") == 0;
        context.internal |= strcmp(argv[i], "--internal") == 0;
    }
    while ((got = fread(octets + held, 1, sizeof octets - held, stdin)) > 0) {
        held += got;
        while (ristulva_judge(&context, octets, held, data, sizeof data, &verdict) != RISTULVA_INCOMPLETE) {
            ristulva_open_fields open;
            if (verdict.verdict == RISTULVA_RESET)
                return 1;
            if (ristulva_open(octets, held, &open) == RISTULVA_OK)
                print_open(octets, held, &open);
            held -= verdict.len;
            memmove(octets, octets + verdict.len, held);
        }
    }
    return held != 0;
}
