// Calls that fail: LD_PRELOAD puts them before the C library's. FAIL says which one, as NAME:NUMBER:HOW, counted from 1: HOW is a number of an
// error, 0 for an allocation that fails, or "short" for a read or a write of one octet. At the end it prints on standard error how many calls of each
// there were, and whether that one was met.
#define _GNU_SOURCE
#include <dlfcn.h>
#include <errno.h>
#include <stdio.h>
#include <stdlib.h>
#include <string.h>
#include <sys/epoll.h>
#include <sys/socket.h>
#include <sys/uio.h>
#include <time.h>
#include <unistd.h>

enum how { AS_EVER, FAILS, SHORT };

struct call {
    const char *name;
    unsigned long count;
};

#define CALLS(of)                                                                                                                                \
    of(malloc) of(realloc) of(read) of(write) of(recv) of(send) of(readv) of(writev) of(accept4) of(socket) of(bind) of(listen) of(connect)         \
        of(shutdown) of(setsockopt) of(getsockopt) of(getpeername) of(getsockname) of(epoll_create1) of(epoll_ctl) of(epoll_wait) of(fcntl)           \
            of(clock_gettime)
#define NUMBER(name) OF_##name,
#define ROW(name) {#name, 0},

enum { CALLS(NUMBER) LAST };
static struct call calls[] = {CALLS(ROW)};
static int met;

// The result of the next call of a name.
static enum how next_of(int which) {
    const char *fail = getenv("FAIL");
    struct call *call = &calls[which];
    size_t len = strlen(call->name);
    call->count++;
    if (fail == NULL || strncmp(fail, call->name, len) != 0 || fail[len] != ':')
        return AS_EVER;
    char *how;
    if (strtoul(fail + len + 1, &how, 10) != call->count)
        return AS_EVER;
    met = 1;
    if (strcmp(how, ":short") == 0)
        return SHORT;
    errno = atoi(how + 1);
    return FAILS;
}

#define NEXT(type, name) ((type)dlsym(RTLD_NEXT, #name))

void *malloc(size_t size) {
    static void *(*real)(size_t);
    if (real == NULL)
        real = NEXT(void *(*)(size_t), malloc);
    return next_of(OF_malloc) == FAILS ? NULL : real(size);
}

void *realloc(void *old, size_t size) {
    static void *(*real)(void *, size_t);
    if (real == NULL)
        real = NEXT(void *(*)(void *, size_t), realloc);
    return next_of(OF_realloc) == FAILS ? NULL : real(old, size);
}

// A call that answers a number, -1 where it fails; `len` is what a short one is given.
#define ANSWERS(type, name, params, args, short_args)                                                                                            \
    type name params {                                                                                                                           \
        static type(*real) params;                                                                                                               \
        if (real == NULL)                                                                                                                        \
            real = NEXT(type(*) params, name);                                                                                                   \
        enum how how = next_of(OF_##name);                                                                                                       \
        return how == FAILS ? -1 : how == SHORT ? real short_args : real args;                                                                   \
    }
#define FAILING(type, name, params, args) ANSWERS(type, name, params, args, args)

ANSWERS(ssize_t, read, (int fd, void *to, size_t len), (fd, to, len), (fd, to, len > 0))
ANSWERS(ssize_t, write, (int fd, const void *from, size_t len), (fd, from, len), (fd, from, len > 0))
ANSWERS(ssize_t, recv, (int fd, void *to, size_t len, int flags), (fd, to, len, flags), (fd, to, len > 0, flags))
ANSWERS(ssize_t, send, (int fd, const void *from, size_t len, int flags), (fd, from, len, flags), (fd, from, len > 0, flags))
FAILING(ssize_t, readv, (int fd, const struct iovec *to, int count), (fd, to, count))
FAILING(ssize_t, writev, (int fd, const struct iovec *from, int count), (fd, from, count))
FAILING(int, accept4, (int fd, struct sockaddr *from, socklen_t *len, int flags), (fd, from, len, flags))
FAILING(int, socket, (int domain, int type, int protocol), (domain, type, protocol))
FAILING(int, bind, (int fd, const struct sockaddr *at, socklen_t len), (fd, at, len))
FAILING(int, listen, (int fd, int backlog), (fd, backlog))
FAILING(int, connect, (int fd, const struct sockaddr *to, socklen_t len), (fd, to, len))
FAILING(int, shutdown, (int fd, int how_far), (fd, how_far))
FAILING(int, setsockopt, (int fd, int level, int name, const void *value, socklen_t len), (fd, level, name, value, len))
FAILING(int, getsockopt, (int fd, int level, int name, void *value, socklen_t *len), (fd, level, name, value, len))
FAILING(int, getpeername, (int fd, struct sockaddr *peer, socklen_t *len), (fd, peer, len))
FAILING(int, getsockname, (int fd, struct sockaddr *own, socklen_t *len), (fd, own, len))
FAILING(int, epoll_create1, (int flags), (flags))
FAILING(int, epoll_ctl, (int fd, int op, int what, struct epoll_event *event), (fd, op, what, event))
FAILING(int, epoll_wait, (int fd, struct epoll_event *events, int most, int time), (fd, events, most, time))
FAILING(int, clock_gettime, (clockid_t clock, struct timespec *now), (clock, now))

__attribute__((destructor)) static void tell(void) {
    for (int which = 0; which < LAST; which++)
        if (calls[which].count != 0)
            fprintf(stderr, "calls %s %lu\n", calls[which].name, calls[which].count);
    fprintf(stderr, "met %d\n", met);
}
