/* What programs call of the kit's functions over the system, for a processor that it has no archive of them for (it has c/libos_c.a for x86-64): as
 * os/src/c.rt of the kit declares them. */
#define _GNU_SOURCE
#include <errno.h>
#include <fcntl.h>
#include <netdb.h>
#include <stdint.h>
#include <stdlib.h>
#include <string.h>
#include <sys/epoll.h>
#include <sys/ioctl.h>
#include <sys/prctl.h>
#include <sys/socket.h>
#include <sys/uio.h>
#include <unistd.h>

extern char **environ;

/* ---- the words and the environment ---- */

static int count;
static char **words;

__attribute__((constructor)) static void keep(int argc, char **argv)
{
    count = argc;
    words = argv;
}

/* Copies a text, without its zero: its length, -1 where there is none, or -2 where there is no room. */
static intptr_t copied(const char *from, char *to, size_t room)
{
    size_t len = 0;
    if (from == NULL)
        return -1;
    for (; from[len] != 0; len++) {
        if (len == room)
            return -2;
        to[len] = from[len];
    }
    return len;
}

size_t rattle_arg_count(void) { return count; }

intptr_t rattle_arg(size_t at, char *to, size_t room) { return copied(at < (size_t)count ? words[at] : NULL, to, room); }

intptr_t rattle_env(const char *name, char *to, size_t room) { return copied(getenv(name), to, room); }

intptr_t rattle_env_at(size_t at, char *to, size_t room)
{
    size_t i = 0;
    while (environ != NULL && environ[i] != NULL && i < at)
        i++;
    return copied(environ != NULL ? environ[i] : NULL, to, room);
}

/* ---- errors ---- */

int rattle_errno(void) { return errno; }

void rattle_set_errno(int number) { errno = number; }

/* ---- files and sockets ---- */

int rattle_open_dir_at(int dir, const char *name) { return openat(dir, name, O_DIRECTORY | O_NOFOLLOW | O_CLOEXEC); }

int rattle_set_nonblocking(int fd, _Bool on)
{
    int it = on;
    return ioctl(fd, FIONBIO, &it);
}

int rattle_set_thread_name(const char *name) { return prctl(PR_SET_NAME, name, 0, 0, 0); }

intptr_t rattle_write_parts(int fd, _Bool is_socket, void *a, size_t a_len, void *b, size_t b_len, void *c, size_t c_len, void *d, size_t d_len)
{
    struct iovec parts[4] = {{a, a_len}, {b, b_len}, {c, c_len}, {d, d_len}};
    struct msghdr message = {.msg_iov = parts, .msg_iovlen = 4};
    return is_socket ? sendmsg(fd, &message, MSG_NOSIGNAL) : writev(fd, parts, 4);
}

int rattle_lock_range(int fd, short kind, int64_t start, int64_t len)
{
    struct flock it = {.l_type = kind, .l_whence = SEEK_SET, .l_start = start, .l_len = len};
    return fcntl(fd, F_OFD_SETLK, &it);
}

/* ---- epoll: the kit's event has 16 octets on each processor, the system's 12 on x86-64 ---- */

struct event {
    uint32_t events;
    uint64_t data;
};

int rattle_epoll_ctl(int epfd, int op, int fd, uint32_t events, uint64_t data)
{
    struct epoll_event it = {.events = events, .data.u64 = data};
    return epoll_ctl(epfd, op, fd, &it);
}

intptr_t rattle_epoll_wait(int epfd, struct event *events, size_t room, int timeout)
{
    struct epoll_event *theirs = (struct epoll_event *)events;
    int found = epoll_wait(epfd, theirs, room > 0x1000000 ? 0x1000000 : room, timeout);
    for (int i = found; i-- > 0;) {
        struct epoll_event it = theirs[i];
        events[i].events = it.events;
        events[i].data = it.data.u64;
    }
    return found;
}

/* ---- names ---- */

struct address {
    unsigned char octets[128];
    uint32_t len;
};

intptr_t rattle_lookup_host(const char *name, struct address *to, size_t room)
{
    struct addrinfo hints = {.ai_socktype = SOCK_STREAM}, *list = NULL;
    int why = getaddrinfo(name, NULL, &hints, &list);
    size_t found = 0;
    if (why != 0)
        return why;
    for (struct addrinfo *it = list; it != NULL && found < room; it = it->ai_next)
        if ((it->ai_family == AF_INET || it->ai_family == AF_INET6) && it->ai_addrlen <= sizeof to[found].octets) {
            memcpy(to[found].octets, it->ai_addr, it->ai_addrlen);
            to[found++].len = it->ai_addrlen;
        }
    freeaddrinfo(list);
    return found;
}
