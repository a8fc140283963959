// A stranger that connects first: LD_PRELOAD puts it before the C library's `connect`. The connection that is accepted is then not the one that
// the program made.
#define _GNU_SOURCE
#include <dlfcn.h>
#include <sys/socket.h>

int connect(int end, const struct sockaddr *address, socklen_t length) {
    int (*next)(int, const struct sockaddr *, socklen_t) =
        (int (*)(int, const struct sockaddr *, socklen_t))dlsym(RTLD_NEXT, "connect");
    int stranger = socket(address->sa_family, SOCK_STREAM, 0);
    if (stranger >= 0)
        next(stranger, address, length);
    return next(end, address, length);
}
