/* What the collector prints. It waits in memory for a reader that is slow or stops, so that no session waits for it. */
#ifndef COLLECTOR_OUTPUT_H
#define COLLECTOR_OUTPUT_H

#include <errno.h>
#include <limits.h>
#include <poll.h>
#include <stdarg.h>
#include <stdio.h>
#include <stdlib.h>
#include <string.h>
#include <unistd.h>

#ifndef PIPE_BUF
#define PIPE_BUF 512
#endif

/* The most octets that may wait. Whole lines after them are dropped, and their number is printed once there is room again. */
#define SAID_MOST ((size_t)1 << 24)

static char *said;
static size_t said_at, said_len, said_room; /* offsets of what is written and of what is printed, and the memory for it */
static size_t said_line;                    /* where the line that is being said begins */
static int is_skipping;                     /* the rest of a line is left out */
static unsigned long long left_out;         /* how many lines are */

static int is_waiting(void)
{
    return said_at < said_len;
}

/* Makes room for octets more. Answers whether there is. */
static int make_room(size_t len)
{
    size_t room = said_room == 0 ? PIPE_BUF : said_room;
    char *grown;
    if (said_len - said_at + len > SAID_MOST)
        return 0;
    if (said_at > said_room / 2) {
        memmove(said, said + said_at, said_len - said_at);
        said_len -= said_at;
        said_line -= said_at;
        said_at = 0;
    }
    if (said_len + len <= said_room)
        return 1;
    while (room < said_len + len)
        room *= 2;
    if ((grown = realloc(said, room)) == NULL)
        return 0;
    said = grown;
    said_room = room;
    return 1;
}

/* Adds a piece of a line, or its end; where there is no room for it the whole line is left out. */
static void add(const char *text, size_t len)
{
    int is_end = len > 0 && text[len - 1] == '\n';
    if (!is_skipping && make_room(len)) {
        memcpy(said + said_len, text, len);
        said_len += len;
        said_line = is_end ? said_len : said_line;
        return;
    }
    said_len = said_line;
    is_skipping = !is_end;
    left_out += (unsigned long long)is_end;
}

/* Prints as printf does, at most 511 octets. Each line ends with a piece. */
static void say(const char *format, ...)
{
    char text[512];
    va_list list;
    int len;
    if (left_out > 0 && !is_skipping && make_room(sizeof text)) {
        len = snprintf(text, sizeof text, "left out %llu lines, since nobody read\n", left_out);
        left_out = 0;
        add(text, (size_t)len);
    }
    va_start(list, format);
    len = vsnprintf(text, sizeof text, format, list);
    va_end(list);
    if (len > 0)
        add(text, (size_t)len < sizeof text ? (size_t)len : sizeof text - 1);
}

/* Writes what standard output takes at once: a pipe that can be written to has room for so much. 0 where it can't be written to. */
static int write_said(void)
{
    struct pollfd out = {STDOUT_FILENO, POLLOUT, 0};
    while (is_waiting() && poll(&out, 1, 0) > 0) {
        size_t count = said_len - said_at;
        ssize_t wrote = write(STDOUT_FILENO, said + said_at, count < PIPE_BUF ? count : PIPE_BUF);
        if (wrote < 0)
            return errno == EAGAIN || errno == EINTR;
        said_at += (size_t)wrote;
    }
    if (!is_waiting())
        said_at = said_len = said_line = 0;
    return 1;
}

#endif
