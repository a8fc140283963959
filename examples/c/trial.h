/* What the tries of the library share: a fact that has to hold, and memory that fails on demand. */
#ifndef TRIAL_H
#define TRIAL_H

#include <stdio.h>
#include <stdlib.h>

#define WANT(fact) ((fact) ? (void)0 : wrong(#fact, __LINE__))

static _Noreturn void wrong(const char *fact, int line)
{
    fprintf(stderr, "line %d: not %s\n", line, fact);
    exit(1);
}

/* ---- memory: instead of the three functions that the library has ---- */

/* How many allocations there were, how many are live, and which of them fails: 0 for none. */
static long allocations, live, refused;

struct tried {
    _Bool there;
    void *at;
};

struct tried rattle_alloc(size_t size, size_t align);
struct tried rattle_realloc(void *at, size_t old, size_t size, size_t align);
void rattle_dealloc(void *at);

struct tried rattle_alloc(size_t size, size_t align)
{
    struct tried none = {0, &live}, made;
    if (++allocations == refused)
        return none;
    made.at = malloc(size == 0 ? align : size);
    made.there = made.at != NULL;
    live += made.there;
    return made.there ? made : none;
}

struct tried rattle_realloc(void *at, size_t old, size_t size, size_t align)
{
    struct tried none = {0, &live}, made;
    (void)old;
    if (++allocations == refused)
        return none;
    made.at = realloc(at, size == 0 ? align : size);
    made.there = made.at != NULL;
    return made.there ? made : none;
}

void rattle_dealloc(void *at)
{
    live--;
    free(at);
}

#endif
