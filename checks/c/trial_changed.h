/* Messages of streams that are changed at random, and memory that a call leaves as it was. */
#ifndef TRIAL_CHANGED_H
#define TRIAL_CHANGED_H

#include "trial_streams.h"

/* Octets of the streams, from the beginning of a message on: at most RISTULVA_MESSAGE. */
static size_t some_message(uint8_t *octets)
{
    size_t at, len;
    WANT(loaded > 4200);
    at = below((uint32_t)loaded - 4200);
    len = below(4097);
    while (at > 0 && memcmp(streams + at, "\377\377\377\377\377\377\377\377\377\377\377\377\377\377\377\377", 16) != 0)
        at--;
    memcpy(octets, streams + at, len);
    return len;
}

/* Changes up to three octets among the first of the body; of these one in `one_in`, none where that is 0, is of the Length or the type instead. The
 * length stays. */
static size_t change(uint8_t *octets, size_t len, uint32_t one_in)
{
    uint32_t i;
    for (i = below(4); i > 0 && len > 19; i--)
        octets[one_in != 0 && below(one_in) == 0 ? 16 + below(3) : 19 + below((uint32_t)(len < 120 ? len : 120) - 19)] = (uint8_t)below(256);
    return len;
}

/* Whether octets are 0xa5, as they were before a call. */
static int is_unwritten(const void *at, size_t size)
{
    const uint8_t *octets = at;
    while (size > 0 && octets[size - 1] == 0xa5)
        size--;
    return size == 0;
}

#endif
