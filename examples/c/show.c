/* Prints the outcome of each message of a stream on standard input, and how the stream ends, as `bgp show` does:
 *
 *     show [--as4] [--ip4] [--ip6] [--internal] < STREAM
 *
 * Its status is that of `bgp show`: 0 where each message was accepted and none is incomplete, 1 where not, 2 for a fault of the
 * command line, 3 where an allocation failed, 4 where a read or a write failed. */
#include "ristulva.h"
#include <errno.h>
#include <stdio.h>
#include <stdlib.h>
#include <string.h>
#include <unistd.h>

/* The octets that were read and aren't done with. A message has 4096 at most, so a buffer of twice as many is never full. */
static uint8_t octets[8192];
static size_t held;

/* Where in the stream they begin. */
static uint64_t place;

/* The lines of a message, in a place that grows. */
static char *text;
static size_t room;

static int fail(int status, const char *why)
{
    fflush(stdout);
    fprintf(stderr, "show: %s\n", why);
    return status;
}

/* Prints what the octets begin with. 0, or a status to end with. */
static int print(const ristulva_context *context)
{
    size_t written;
    ristulva_status status = ristulva_text(context, place, octets, held, text, room, &written);
    if (status == RISTULVA_ROOM) {
        char *more = realloc(text, written);
        if (more == NULL)
            return fail(3, "memory");
        text = more;
        room = written;
        status = ristulva_text(context, place, octets, held, text, room, &written);
    }
    if (status == RISTULVA_MEMORY)
        return fail(3, "memory");
    if (fwrite(text, 1, written, stdout) != written)
        return fail(4, "write failed");
    return 0;
}

/* Prints the messages that are whole. *ends is set where one ends the session, and *bad where one isn't accepted. 0, or a status. */
static int drain(const ristulva_context *context, const char **ends, int *bad)
{
    static uint8_t data[RISTULVA_DATA];
    size_t done = 0;
    int status = 0;
    while (*ends == NULL) {
        ristulva_found found;
        ristulva_verdict verdict;
        ristulva_front(octets, held, &found);
        if (found.what == RISTULVA_MORE)
            break;
        status = print(context);
        if (status != 0)
            break;
        ristulva_judge(context, octets, held, data, sizeof data, &verdict);
        if (found.what == RISTULVA_FAULT)
            *ends = "head";
        else if (verdict.verdict == RISTULVA_RESET)
            *ends = "reset";
        if (verdict.verdict == RISTULVA_RESET || verdict.verdict == RISTULVA_WITHDRAW)
            *bad = 1;
        done = found.len;
        held -= done;
        place += done;
        memmove(octets, octets + done, held);
    }
    return status;
}

static int run(const ristulva_context *context)
{
    const char *ends = NULL;
    int bad = 0, status;
    while (ends == NULL) {
        ssize_t got = read(0, octets + held, sizeof octets - held);
        if (got < 0 && errno == EINTR)
            continue;
        if (got < 0)
            return fail(4, "read failed");
        if (got == 0)
            break;
        held += (size_t)got;
        status = drain(context, &ends, &bad);
        if (status != 0)
            return status;
    }
    if (ends != NULL)
        printf("end %s\n", ends);
    else
        printf("end wait %zu\n", held);
    if (fflush(stdout) != 0)
        return fail(4, "write failed");
    return bad || (ends == NULL && held != 0);
}

int main(int argc, char **argv)
{
    ristulva_context context = {0, 0, 0, 0};
    int i, status;
    if (ristulva_version() != RISTULVA_VERSION)
        return fail(2, "the library has another version than the header");
    for (i = 1; i < argc; i++) {
        if (strcmp(argv[i], "--as4") == 0)
            context.as4 = 1;
        else if (strcmp(argv[i], "--ip4") == 0)
            context.ip4 = 1;
        else if (strcmp(argv[i], "--ip6") == 0)
            context.ip6 = 1;
        else if (strcmp(argv[i], "--internal") == 0)
            context.internal = 1;
        else
            return fail(2, "usage: show [--as4] [--ip4] [--ip6] [--internal] < STREAM");
    }
    room = 4096;
    text = malloc(room);
    if (text == NULL)
        return fail(3, "memory");
    status = run(&context);
    free(text);
    return status;
}
