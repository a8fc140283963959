/* Prints of each UPDATE of the stream on the standard input its routes, the AS that they came from, their next hops and communities. */
#include <arpa/inet.h>
#include <ristulva.h>
#include <stdio.h>
#include <string.h>

static void print_address(const char *what, const uint8_t *address, uint16_t afi, const char *end)
{
    char text[INET6_ADDRSTRLEN], *last;
    inet_ntop(afi == 1 ? AF_INET : AF_INET6, address, text, sizeof text);
    /* An IPv4 address at the end of an IPv6 one is printed in hexadecimal groups too. */
    if (afi == 2 && strchr(text, '.') != NULL && (last = strrchr(text, ':')) != NULL)
        sprintf(last, ":%x:%x", address[12] << 8 | address[13], address[14] << 8 | address[15]);
    printf("%s %s%s", what, text, end);
}

static void print_routes(const ristulva_context *context, const uint8_t *octets, size_t len)
{
    ristulva_route_cursor cursor;
    ristulva_route route;
    if (ristulva_begin_routes(context, octets, len, &cursor) != RISTULVA_OK)
        return;
    while (ristulva_next_route(octets, len, &cursor, &route) == RISTULVA_OK) {
        print_address(route.announced ? "announce" : "withdraw", route.prefix.addr, route.prefix.afi, "");
        printf("/%u\n", (unsigned)route.prefix.len);
    }
}

static void print_facts(const ristulva_context *context, const uint8_t *octets, size_t len)
{
    ristulva_update_facts facts;
    ristulva_numbers left = {0, 0, 4};
    uint32_t number;
    if (ristulva_facts(context, octets, len, &facts) != RISTULVA_OK)
        return;
    if (facts.paths.has_origin_as)
        printf("origin %lu\n", (unsigned long)facts.paths.origin_as);
    if (facts.hops.has_next_hop)
        print_address("next hop", facts.hops.next_hop, 1, "\n");
    if (facts.hops.mp_afi != 0)
        print_address("next hop", facts.hops.mp_next_hop, facts.hops.mp_afi, "\n");
    left.at = facts.paths.communities.at;
    left.end = left.at + facts.paths.communities.len;
    while (ristulva_next_number(octets, len, &left, &number) == RISTULVA_OK)
        printf("community %lu:%lu\n", (unsigned long)(number >> 16), (unsigned long)(number & 65535));
}

int main(void)
{
    static uint8_t octets[1 << 24];
    const ristulva_context context = {0, 1, 1, 1};
    size_t len = fread(octets, 1, sizeof octets, stdin), at = 0;
    ristulva_verdict verdict = {0};
    while (verdict.verdict != RISTULVA_RESET && ristulva_judge(&context, octets + at, len - at, NULL, 0, &verdict) != RISTULVA_INCOMPLETE) {
        print_routes(&context, octets + at, len - at);
        print_facts(&context, octets + at, len - at);
        at += verdict.len;
    }
    return 0;
}
