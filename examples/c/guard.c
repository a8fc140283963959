/* A guard of one session, to start from: it accepts an outer peer, connects to the inner speaker, and passes on what is clean:
 *
 *     guard PORT INNER_ADDRESS INNER_PORT [TYPE]..
 *
 *     listen 1790
 *     open outer as 65001 id 192.0.2.1 hold 90
 *     open inner as 65002 id 192.0.2.2 hold 90
 *     changed outer UPDATE
 *     answered outer 3/1
 *     closed outer
 *     closed inner
 *
 * It listens on 127.0.0.1, and ends with 0 once both sides are closed. Unrecognised attributes are left out, but for those of the TYPEs. It ends
 * with 2 for a fault of the command line, and with 1 where it can't listen or wait, or memory is lacking. */
#include "ristulva.h"
#include <arpa/inet.h>
#include <errno.h>
#include <fcntl.h>
#include <netinet/in.h>
#include <poll.h>
#include <stdio.h>
#include <stdlib.h>
#include <string.h>
#include <sys/socket.h>
#include <time.h>
#include <unistd.h>

/* How many seconds a side that was sent all has to close: what it still sends is read, since TCP resets a connection that is closed before. */
#define FAREWELL 10

enum phase { SOUGHT, STANDS, LEAVES, GONE };

static struct side {
    const char *name;
    uint32_t number;
    enum phase phase;
    int fd, seconds; /* of a side that leaves, how many are left */
    ristulva_asks asks;
    uint8_t in[16384]; /* what came and the guard hasn't consumed */
    size_t in_len;
} sides[] = {{.name = "outer", .number = RISTULVA_OUTER, .phase = GONE}, {.name = "inner", .number = RISTULVA_INNER, .phase = GONE}};

static ristulva_guard guard = {NULL};

static void end(int status, const char *what, const char *why)
{
    fprintf(stderr, "guard: %s: %s\n", what, why);
    exit(status);
}

/* ---- a side ---- */

/* A side whose connection is over, or can't be had. */
static void lose(struct side *side)
{
    uint32_t event = side->phase == SOUGHT ? RISTULVA_SIDE_UNREACHABLE : RISTULVA_SIDE_CLOSED;
    printf("%s %s\n", side->phase == SOUGHT ? "unreachable" : "closed", side->name);
    close(side->fd);
    side->phase = GONE;
    ristulva_guard_event(&guard, side->number, event);
}

static void stand(struct side *side)
{
    side->phase = STANDS;
    ristulva_guard_event(&guard, side->number, RISTULVA_SIDE_STOOD);
}

/* The outcome of trying to connect. */
static void meet(struct side *side)
{
    int error = 0;
    socklen_t len = sizeof error;
    if (getsockopt(side->fd, SOL_SOCKET, SO_ERROR, &error, &len) != 0 || error != 0)
        lose(side);
    else
        stand(side);
}

static void print_came(const struct side *side, const ristulva_came *came)
{
    static const char *const kinds[] = {"", "OPEN", "UPDATE", "NOTIFICATION", "KEEPALIVE", "ROUTE-REFRESH"};
    ristulva_peer peer;
    if (came->what == RISTULVA_CAME_ANSWERED)
        printf("answered %s %u/%u\n", side->name, came->code, came->subcode);
    if (came->what == RISTULVA_CAME_HANDED_ON && !came->same)
        printf("changed %s %s\n", side->name, kinds[came->kind]);
    if (came->kind == 1 && ristulva_guard_peer(&guard, side->number, &peer) == RISTULVA_OK)
        printf("open %s as %u id %u.%u.%u.%u hold %u\n", side->name, (unsigned)peer.as_number, peer.id[0], peer.id[1], peer.id[2], peer.id[3],
               peer.hold);
}

/* Hands the guard what came, message by message: what it doesn't take now stays. */
static void hear(struct side *side)
{
    size_t done = 0, taken = 0;
    do {
        ristulva_came came;
        done += taken;
        ristulva_guard_hear(&guard, side->number, side->in + done, side->in_len - done, &taken, &came);
        print_came(side, &came);
    } while (taken > 0);
    side->in_len -= done;
    memmove(side->in, side->in + done, side->in_len);
}

/* Reads what came. Once the guard has ended, or all was sent, that is forgotten. */
static void receive(struct side *side)
{
    int is_over = side->asks.ended || side->phase == LEAVES;
    size_t at = is_over ? 0 : side->in_len;
    ssize_t got = recv(side->fd, side->in + at, sizeof side->in - at, 0);
    if (got == 0 || (got < 0 && errno != EAGAIN && errno != EINTR))
        lose(side);
    else if (got > 0 && !is_over)
        side->in_len += (size_t)got;
}

/* Sends what is on its way, as much as the socket takes. */
static void transmit(struct side *side)
{
    uint8_t octets[16384];
    size_t len;
    ssize_t sent;
    ristulva_guard_way(&guard, side->number, octets, sizeof octets, &len);
    sent = send(side->fd, octets, len, MSG_NOSIGNAL);
    if (sent >= 0)
        ristulva_guard_sent(&guard, side->number, (size_t)sent);
    else if (errno != EAGAIN && errno != EINTR)
        lose(side);
}

/* Asks the guard what a side waits for, as poll has it. */
static struct pollfd ask(struct side *side)
{
    struct pollfd wait = {-1, 0, 0};
    ristulva_guard_asks(&guard, side->number, &side->asks);
    if (side->asks.closes && side->phase < LEAVES) {
        int is_sought = side->phase == SOUGHT;
        side->phase = LEAVES;
        side->seconds = FAREWELL;
        if (is_sought)
            lose(side);
        else
            shutdown(side->fd, SHUT_WR);
    }
    if (side->asks.listens || side->asks.ended || side->phase == LEAVES)
        wait.events |= POLLIN;
    if (side->phase == SOUGHT || (side->phase == STANDS && side->asks.way > 0))
        wait.events |= POLLOUT;
    wait.fd = side->phase == GONE || wait.events == 0 ? -1 : side->fd;
    return wait;
}

/* Acts on what poll reported of a side: a socket that failed counts as ready for all. */
static void serve(struct side *side, short ready)
{
    if (ready & (POLLERR | POLLHUP))
        ready |= POLLIN | POLLOUT;
    if (side->phase == SOUGHT && (ready & POLLOUT))
        meet(side);
    else if (side->phase != GONE && side->phase != SOUGHT && (ready & POLLIN))
        receive(side);
    if (side->phase == STANDS && side->asks.way > 0 && (ready & POLLOUT))
        transmit(side);
}

/* ---- the run ---- */

static void tick(void)
{
    int i;
    ristulva_guard_tick(&guard);
    for (i = 0; i < 2; i++)
        if (sides[i].phase == LEAVES && --sides[i].seconds <= 0)
            lose(&sides[i]);
}

/* Seconds of a clock that nobody sets. */
static long long now(void)
{
    struct timespec time;
    clock_gettime(CLOCK_MONOTONIC, &time);
    return time.tv_sec;
}

/* Runs until both sides are closed. */
static void run(void)
{
    long long last = now();
    while (sides[0].phase != GONE || sides[1].phase != GONE) {
        struct pollfd waits[2];
        int i;
        for (i = 0; i < 2; i++)
            hear(&sides[i]);
        for (i = 0; i < 2; i++)
            waits[i] = ask(&sides[i]);
        if (poll(waits, 2, 1000) < 0 && errno != EINTR)
            end(1, "poll", strerror(errno));
        for (i = 0; i < 2; i++)
            serve(&sides[i], waits[i].revents);
        for (; last < now(); last++)
            tick();
    }
}

/* ---- the command line ---- */

static unsigned number_of(const char *word, unsigned most)
{
    char *behind;
    unsigned long number = strtoul(word, &behind, 10);
    if (word[0] < '0' || word[0] > '9' || *behind != '\0' || number > most)
        end(2, word, "not a number, or out of its range");
    return (unsigned)number;
}

/* Waits for the outer peer, at a port: at a free one where it is 0. */
static void accept_outer(unsigned port)
{
    struct sockaddr_in own = {.sin_family = AF_INET, .sin_port = htons((uint16_t)port), .sin_addr = {htonl(INADDR_LOOPBACK)}};
    socklen_t len = sizeof own;
    int listener = socket(AF_INET, SOCK_STREAM, 0), yes = 1;
    setsockopt(listener, SOL_SOCKET, SO_REUSEADDR, &yes, sizeof yes);
    if (bind(listener, (struct sockaddr *)&own, len) != 0 || listen(listener, 1) != 0 || getsockname(listener, (struct sockaddr *)&own, &len) != 0)
        end(1, "listen", strerror(errno));
    printf("listen %u\n", ntohs(own.sin_port));
    sides[0].fd = accept(listener, NULL, NULL);
    if (sides[0].fd < 0 || fcntl(sides[0].fd, F_SETFL, O_NONBLOCK) != 0)
        end(1, "accept", strerror(errno));
    close(listener);
    stand(&sides[0]);
}

/* Begins to connect to the inner speaker. */
static void seek_inner(const struct sockaddr_in *address)
{
    struct side *side = &sides[1];
    side->phase = SOUGHT;
    side->fd = socket(AF_INET, SOCK_STREAM, 0);
    if (side->fd < 0 || fcntl(side->fd, F_SETFL, O_NONBLOCK) != 0)
        end(1, "connect", strerror(errno));
    if (connect(side->fd, (const struct sockaddr *)address, sizeof *address) != 0 && errno != EINPROGRESS)
        lose(side);
}

int main(int argc, char **argv)
{
    struct sockaddr_in inner = {.sin_family = AF_INET};
    static uint8_t pass[256];
    int i;
    if (argc < 4 || argc > 4 + (int)sizeof pass)
        end(2, "usage", "guard PORT INNER_ADDRESS INNER_PORT [TYPE]..");
    if (inet_pton(AF_INET, argv[2], &inner.sin_addr) != 1)
        end(2, argv[2], "not an address as 192.0.2.1");
    inner.sin_port = htons((uint16_t)number_of(argv[3], 65535));
    for (i = 4; i < argc; i++)
        pass[i - 4] = (uint8_t)number_of(argv[i], 255);
    setvbuf(stdout, NULL, _IOLBF, 0);
    if (ristulva_guard_new(pass, (size_t)(argc - 4), 0, &guard) != RISTULVA_OK)
        end(1, "guard", "memory");
    accept_outer(number_of(argv[1], 65535));
    seek_inner(&inner);
    run();
    ristulva_guard_free(&guard);
    return 0;
}
