/* Chance, the same again from the same seed. */
#ifndef TRIAL_CHANCE_H
#define TRIAL_CHANCE_H

#include <stdint.h>

static uint64_t state = 1;

static uint32_t below(uint32_t bound)
{
    state = state * 6364136223846793005u + 1442695040888963407u;
    return (uint32_t)((state >> 33) % bound);
}

#endif
