/* Messages that are written as digits. */
#ifndef TRIAL_MESSAGE_H
#define TRIAL_MESSAGE_H

#include <stddef.h>
#include <stdint.h>
#include <string.h>

static unsigned digit(char c)
{
    return c <= '9' ? (unsigned)(c - '0') : (unsigned)(c - 'a') + 10;
}

/* The octets that digits are, of which blanks are passed: their number. */
static size_t octets_of(const char *digits, uint8_t *octets)
{
    size_t len = 0;
    while (*digits != '\0') {
        if (*digits == ' ') {
            digits++;
            continue;
        }
        octets[len++] = (uint8_t)(digit(digits[0]) << 4 | digit(digits[1]));
        digits += 2;
    }
    return len;
}

/* The message of a type with this body. */
static size_t message(uint8_t kind, const char *body, uint8_t *octets)
{
    size_t len = 19 + octets_of(body, octets + 19);
    memset(octets, 255, 16);
    octets[16] = (uint8_t)(len >> 8);
    octets[17] = (uint8_t)len;
    octets[18] = kind;
    return len;
}

#endif
