/* What the tries of stress.c share: offsets at random, and a list beside memory that can't be touched. */
#ifndef STRESS_PLACE_H
#define STRESS_PLACE_H

#include "trial_streams.h"

/* The number of calls. */
static unsigned long calls;

static uint32_t some_offset(size_t len)
{
    return below(20) == 0 ? (uint32_t)state : below((uint32_t)len + 3);
}

/* A buffer of the same kind for a list that a call writes. */
static uint8_t *list_place;
#define LIST_PLACE (1u << 19)

static void make_list_place(void)
{
    list_place = make_place(LIST_PLACE);
    memset(list_place, 0x5a, LIST_PLACE);
}

/* A list of this length at one end of its buffer, each octet 0x5a. */
static void *list_of(size_t size)
{
    WANT(size <= LIST_PLACE);
    return below(4) == 0 ? list_place : list_place + LIST_PLACE - size;
}

/* Whether a call wrote only the first octets of a list: mostly those close to them are checked. They are 0x5a again afterwards. */
static int is_rest_unchanged(void *list, size_t wrote)
{
    uint8_t *end = (uint8_t *)list + wrote, *stop = list_place + LIST_PLACE, *octet;
    if (below(100) != 0 && stop - end > 128)
        stop = end + 128;
    for (octet = end; octet < stop && *octet == 0x5a; octet++)
        continue;
    memset(list, 0x5a, wrote);
    return octet == stop;
}

#endif
