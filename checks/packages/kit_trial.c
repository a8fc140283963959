/* Makes each call of packaging/trusted/kit.c and memory.c, and prints what it answers: the kit's own archives, for x86-64, have to answer the same.
 *
 *     NAME=value kit_trial one 'two words'
 */
#define _GNU_SOURCE
#include <errno.h>
#include <fcntl.h>
#include <netinet/in.h>
#include <stdint.h>
#include <stdio.h>
#include <stdlib.h>
#include <string.h>
#include <sys/epoll.h>
#include <sys/prctl.h>
#include <sys/socket.h>
#include <unistd.h>

struct tried {
    size_t ok;
    void *at;
};
struct event {
    uint32_t events;
    uint64_t data;
};
struct address {
    unsigned char octets[128];
    uint32_t len;
};
struct tried rattle_alloc(size_t size, size_t align);
struct tried rattle_realloc(void *at, size_t kept, size_t size, size_t align);
void rattle_dealloc(void *at);
size_t rattle_arg_count(void);
intptr_t rattle_arg(size_t at, char *to, size_t room);
intptr_t rattle_env(const char *name, char *to, size_t room);
intptr_t rattle_env_at(size_t at, char *to, size_t room);
int rattle_errno(void);
void rattle_set_errno(int number);
int rattle_open_dir_at(int dir, const char *name);
int rattle_set_nonblocking(int fd, _Bool on);
int rattle_set_thread_name(const char *name);
intptr_t rattle_write_parts(int fd, _Bool is_socket, const void *a, size_t a_len, const void *b, size_t b_len, const void *c, size_t c_len, const void *d, size_t d_len);
int rattle_lock_range(int fd, short kind, int64_t start, int64_t len);
int rattle_epoll_ctl(int epfd, int op, int fd, uint32_t events, uint64_t data);
intptr_t rattle_epoll_wait(int epfd, struct event *events, size_t room, int timeout);
intptr_t rattle_lookup_host(const char *name, struct address *to, size_t room);

/* Prints what a call answers, and the error's number where it answers -1. */
static void told(const char *what, long answer)
{
    int number = rattle_errno();
    if (answer == -1)
        printf("%s: %ld, %s\n", what, answer, strerror(number));
    else
        printf("%s: %ld\n", what, answer);
}

static void words(void)
{
    char text[64];
    size_t i, room;
    intptr_t len;
    printf("words %zu\n", rattle_arg_count());
    for (i = 1; i < 4; i++)
        for (room = 0; room < 12; room += 3) {
            memset(text, '.', sizeof text);
            len = rattle_arg(i, text, room);
            printf("word %zu in %zu: %zd %.12s\n", i, room, len, text);
        }
    for (room = 0; room < 8; room++) {
        memset(text, '.', sizeof text);
        len = rattle_env("NAME", text, room);
        printf("NAME in %zu: %zd %.8s\n", room, len, text);
    }
    printf("no such variable: %zd\n", rattle_env("NO_SUCH_NAME", text, sizeof text));
    for (i = 0; (len = rattle_env_at(i, text, sizeof text)) != -1; i++)
        if (len > 5 && memcmp(text, "NAME=", 5) == 0)
            printf("the variable's text: %.*s\n", (int)len, text);
    printf("after all variables: %zd\n", rattle_env_at(i + 5, text, sizeof text));
}

static void memory(void)
{
    struct tried it = rattle_alloc(100, 8);
    printf("alloc %zu %d\n", it.ok, (uintptr_t)it.at % 8 == 0);
    memset(it.at, 7, 100);
    it = rattle_realloc(it.at, 100, 100000, 8);
    printf("realloc %zu %d\n", it.ok, ((char *)it.at)[99]);
    rattle_dealloc(it.at);
    it = rattle_alloc((size_t)1 << 62, 16);
    printf("alloc of too much %zu %d\n", it.ok, it.at != NULL);
    it = rattle_alloc(0, 16);
    printf("alloc of none %zu %d\n", it.ok, it.at != NULL);
    it = rattle_realloc(it.at, 0, 0, 16);
    printf("realloc of none %zu\n", it.ok);
    it = rattle_realloc(it.at, 0, (size_t)1 << 62, 16);
    printf("realloc of too much %zu %d\n", it.ok, it.at != NULL);
}

static void folders(void)
{
    char name[32] = {0};
    int fd = rattle_open_dir_at(AT_FDCWD, ".");
    told("folder, closed at exec", fd < 0 ? fd : fcntl(fd, F_GETFD));
    close(fd);
    told("link made", symlink(".", "some-link"));
    fd = rattle_open_dir_at(AT_FDCWD, "some-link");
    printf("link opened: %d %d\n", fd, errno == ENOTDIR || errno == ELOOP);
    unlink("some-link");
    told("no folder", rattle_open_dir_at(AT_FDCWD, "no-such-thing"));
    rattle_set_errno(7);
    told("error 7", -1);
    told("name", rattle_set_thread_name("some name\0......"));
    prctl(PR_GET_NAME, name, 0, 0, 0);
    printf("the name is %s\n", name);
}

static void came(int fd)
{
    char text[64] = {0};
    told("came", read(fd, text, sizeof text - 1));
    printf("%s\n", text);
}

static void parts(void)
{
    int ends[2], pair[2];
    told("pipe", pipe(ends));
    told("to a pipe", rattle_write_parts(ends[1], 0, "one ", 4, "", 0, "two ", 4, "three", 5));
    came(ends[0]);
    told("nonblocking", rattle_set_nonblocking(ends[0], 1));
    came(ends[0]);
    told("blocking", rattle_set_nonblocking(ends[0], 0));
    told("flags", fcntl(ends[0], F_GETFL) & O_NONBLOCK);
    told("nonblocking of none", rattle_set_nonblocking(-1, 1));
    told("pair", socketpair(AF_UNIX, SOCK_STREAM, 0, pair));
    told("to a socket", rattle_write_parts(pair[0], 1, "a", 1, "bc", 2, "def", 3, "", 0));
    came(pair[1]);
    close(pair[1]);
    told("to a socket whose peer is gone", rattle_write_parts(pair[0], 1, "a", 1, "", 0, "", 0, "", 0));
}

static void locks(void)
{
    int one = open("locked", O_CREAT | O_RDWR, 0600), other = open("locked", O_RDWR);
    told("lock", rattle_lock_range(one, F_WRLCK, 10, 5));
    told("beside it", rattle_lock_range(other, F_WRLCK, 15, 5));
    told("over it", rattle_lock_range(other, F_WRLCK, 14, 1));
    told("given up", rattle_lock_range(one, F_UNLCK, 0, 0));
    told("then", rattle_lock_range(other, F_WRLCK, 14, 1));
    unlink("locked");
}

static void ready(int polled, size_t room)
{
    struct event found[4];
    intptr_t count = rattle_epoll_wait(polled, found, room, 0), i;
    told("ready", count);
    for (i = 0; i < count; i++)
        printf("%x %llx\n", found[i].events, (unsigned long long)found[i].data);
}

static void events(void)
{
    int polled = epoll_create1(0), ends[2], others[2];
    told("pipe", pipe(ends));
    told("pipe", pipe(others));
    told("added", rattle_epoll_ctl(polled, EPOLL_CTL_ADD, ends[0], EPOLLIN, 0x1122334455667788));
    told("added", rattle_epoll_ctl(polled, EPOLL_CTL_ADD, others[0], EPOLLIN, 0xffeeddccbbaa9988));
    told("twice", rattle_epoll_ctl(polled, EPOLL_CTL_ADD, ends[0], EPOLLIN, 1));
    ready(polled, 4);
    told("written", write(ends[1], "x", 1));
    ready(polled, 4);
    told("written", write(others[1], "y", 1));
    ready(polled, 4);
    ready(polled, 1);
    told("gone", rattle_epoll_ctl(polled, EPOLL_CTL_DEL, ends[0], 0, 0));
    ready(polled, 4);
    ready(-1, 4);
}

static void found(const char *name, size_t room)
{
    struct address list[2];
    intptr_t count;
    size_t i;
    memset(list, 0, sizeof list);
    count = rattle_lookup_host(name, list, room);
    printf("%s: %zd, %u octets:", name, count, list[0].len);
    for (i = 2; i < list[0].len && i < 24; i++)
        printf(" %02x", list[0].octets[i]);
    printf("\n");
}

int main(void)
{
    setvbuf(stdout, NULL, _IOFBF, 1 << 16);
    words();
    memory();
    folders();
    parts();
    locks();
    events();
    found("192.0.2.7", 2);
    found("2001:db8::1", 2);
    found("192.0.2.7", 0);
    printf("no address: %d\n", rattle_lookup_host("no address", NULL, 0) < 0);
    return 0;
}
