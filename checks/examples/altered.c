// A connection that changes an octet: LD_PRELOAD puts this before the C library's calls that receive. The first octets that arrive over a socket
// begin with another one than was sent. strace can't do that: it changes what a call answers, and not the octets it gives.
#define _GNU_SOURCE
#include <dlfcn.h>
#include <sys/socket.h>
#include <sys/stat.h>
#include <sys/types.h>
#include <unistd.h>

static int is_altered;

static void alter(int end, void *octets, ssize_t count) {
    struct stat kind;
    if (!is_altered && count > 0 && fstat(end, &kind) == 0 && S_ISSOCK(kind.st_mode)) {
        *(unsigned char *)octets ^= 1;
        is_altered = 1;
    }
}

ssize_t recv(int end, void *octets, size_t room, int flags) {
    ssize_t (*next)(int, void *, size_t, int) = (ssize_t (*)(int, void *, size_t, int))dlsym(RTLD_NEXT, "recv");
    ssize_t count = next(end, octets, room, flags);
    alter(end, octets, count);
    return count;
}

ssize_t read(int end, void *octets, size_t room) {
    ssize_t (*next)(int, void *, size_t) = (ssize_t (*)(int, void *, size_t))dlsym(RTLD_NEXT, "read");
    ssize_t count = next(end, octets, room);
    alter(end, octets, count);
    return count;
}
