/* What programs share that are called with a seed, a number of rounds and files: the streams of the files, and octets beside memory that can't be
 * touched. */
#ifndef TRIAL_STREAMS_H
#define TRIAL_STREAMS_H

#include "trial.h"
#include "trial_chance.h"
#include <string.h>
#include <sys/mman.h>

static uint8_t streams[1 << 20];
static size_t loaded;
static unsigned long rounds;

static void load(const char *name)
{
    FILE *file = fopen(name, "rb");
    WANT(file != NULL);
    loaded += fread(streams + loaded, 1, sizeof streams - loaded, file);
    fclose(file);
}

/* A buffer of which the first and the last octet lie beside memory that can't be touched. */
static uint8_t *place;
#define PLACE 8192u

static uint8_t *make_place(size_t size)
{
    uint8_t *pages = mmap(NULL, size * 3, PROT_NONE, MAP_PRIVATE | MAP_ANONYMOUS, -1, 0);
    WANT(pages != MAP_FAILED);
    WANT(mprotect(pages + size, size, PROT_READ | PROT_WRITE) == 0);
    return pages + size;
}

/* The octets at one end of that buffer. */
static const uint8_t *placed(const uint8_t *from, size_t len)
{
    uint8_t *octets = below(4) == 0 ? place : place + PLACE - len;
    memcpy(octets, from, len);
    return octets;
}

/* Takes the words of the command: SEED ROUNDS FILE.. */
static void begin(int argc, char **argv)
{
    int i;
    WANT(argc >= 3);
    state = strtoull(argv[1], NULL, 10);
    rounds = strtoul(argv[2], NULL, 10);
    for (i = 3; i < argc; i++)
        load(argv[i]);
    place = make_place(PLACE);
}

#endif
