/* A small route collector to start from: a session with each of many peers, whose routes it prints as they come and go:
 *
 *     collector [-l ADDRESS] [-p PORT] [-w SECONDS] [-n] [-m TEXT] [-k KEY] [-t] LOCAL_AS ID PEER_AS@ADDRESS[#PORT]..
 *
 *     65002@192.0.2.2 up as 65002 id 192.0.2.2 hold 90 offers as4 ip4 ip6, agreed hold 90 as4 ip4 ip6
 *     65002@192.0.2.2 + 10.0.0.0/8 path 65002 65003 {65004 65005}
 *     65002@192.0.2.2 - 10.0.0.0/8
 *     65002@192.0.2.2 - all
 *     65002@192.0.2.2 down received 6/4
 *
 * It connects to each peer. With an address of its own (-l) it connects from there, and listens there too, at PORT, which is 179; at `::` it
 * listens for both families. With -n it waits for its peers to connect. So it does for a peer whose PEER_AS is `*`, which may have any AS
 * number: its OPEN has it. KEY is one for TCP MD5 signatures (RFC 2385), and -t wants all peers one hop away (RFC 5082). A session
 * that ended is started again after SECONDS, which are 5, and one that lost its connection before the OPEN came seeks another then: where
 * both sides connected at once, each had refused the other's. An UPDATE that is treated as a withdrawal withdraws all its routes (RFC 7606,
 * section 2), and with a session all routes of its peer are gone. On a session with AS numbers of two octets a path is printed as it came.
 * `down` names which NOTIFICATION was sent or received, or that the connection was lost.
 *
 * What is not yet read of standard output is kept in memory, and no session waits for it; after 16 MB lines are dropped, and counted.
 *
 * At SIGINT and SIGTERM it prints a table of what it counted, stops each session, and ends with 0. With -m it sends the peers TEXT, as an
 * administrative shutdown (RFC 9003), of 255 octets of UTF-8 at most. It ends with 2 for a fault of the
 * command line, and with 1 where it can't listen or wait, a write fails, or memory is lacking. Where descriptors run out, the sessions that
 * are up continue, and it says so: a peer without one is tried again after SECONDS, and so is a connection that can't be accepted. */
#ifndef _DEFAULT_SOURCE
#define _DEFAULT_SOURCE
#endif
#include "ristulva.h"
#include "collector_output.h"
#include "collector_socket.h"
#include "collector_words.h"
#include <arpa/inet.h>
#include <errno.h>
#include <fcntl.h>
#include <limits.h>
#include <netdb.h>
#include <netinet/in.h>
#include <poll.h>
#include <signal.h>
#include <stdio.h>
#include <stdlib.h>
#include <string.h>
#include <sys/socket.h>
#include <time.h>
#include <unistd.h>

#define NEVER LLONG_MAX

/* The collector's own timer, beside those of a session: to start it again, or to try once more to connect. */
#define TIMER_AGAIN 0
#define TIMERS 4

/* How long, in milliseconds, peers have to read what they are sent at the end. */
#define FAREWELL 2000

/* How long a peer of any AS number has for its OPEN, in seconds (RFC 4271, section 8.2.2: a large Hold Time). */
#define OPENS_WITHIN 240

/* A peer's connection: none, one that is tried, one whose OPEN is awaited (its peer has any AS number), one that is up, or one that only takes
 * leave (finish). */
enum connection { NONE, TRIED, AWAITED, STANDS, ENDS };

struct peer {
    const char *name; /* the word of the command line */
    char host[HOST];  /* its address as text */
    struct sockaddr_storage address;
    socklen_t address_len;
    int any;                  /* whether it has any AS number: its session is made when its OPEN is there */
    ristulva_session session;
    ristulva_context context; /* of the session that is up */
    enum connection connection;
    int fd;                            /* -1 where there is none */
    short ready;                       /* what poll reported of it */
    int error;                         /* why the last try to connect failed, */
    int lack;                          /* and why it had no descriptor */
    long long due[TIMERS];             /* when each timer runs out, by now() */
    char why[24];                      /* why the session ended */
    uint8_t in[2 * RISTULVA_MESSAGE];  /* what came and wasn't judged: a message is at most half of it */
    uint8_t out[2 * RISTULVA_MESSAGE]; /* what the socket didn't take yet */
    size_t in_len, out_len;
    ristulva_heard heard; /* the message that `in` begins with */
    unsigned long long ups, updates, announced[2], withdrawn[2];
};

static struct peer *peers;
static size_t peer_count;
static struct sockaddr_storage own; /* where it listens, and connects from */
static socklen_t own_len;           /* 0 where it has no address of its own */
static int listener = -1;
static int accept_error;        /* why the last connection wasn't accepted */
static long long accepts_again; /* when the listener is polled again; 0 where it is polled */
static unsigned long pause_seconds = 5;
static int stopping;
static ristulva_config config = {0, 0, {0}, 90, 1, 1, 1};
static int waits_for_peers; /* it doesn't connect */
static int is_near;         /* all peers are one hop away */
static const char *key;     /* for TCP MD5 signatures: NULL for none */
static const char *farewell; /* what peers are sent at the end: NULL for nothing */
static int wake[2]; /* a signal writes to it */

/* Milliseconds of a clock that nobody sets. */
static long long now(void)
{
    struct timespec time;
    clock_gettime(CLOCK_MONOTONIC, &time);
    return time.tv_sec * 1000LL + time.tv_nsec / 1000000;
}

/* The time this many seconds from now; with `jitter` up to a quarter less, so that two speakers don't meet again and again (RFC 4271, section 10). */
static long long later(unsigned long seconds, int jitter)
{
    return now() + (long long)seconds * (jitter ? 750 + rand() % 251 : 1000);
}

/* ---- routes: what an UPDATE says, by cursors over the octets that came ---- */

/* The first attribute of a type, which decides (RFC 7606, section 3, item g). 1 where there is one. */
static int find(const struct peer *peer, uint8_t kind, ristulva_span *value)
{
    const ristulva_span *field = &peer->heard.parts.attributes;
    ristulva_attributes cursor = {field->at, field->at + field->len};
    ristulva_attribute attribute;
    while (ristulva_next_attribute(peer->in, peer->heard.len, &cursor, &attribute) == RISTULVA_OK) {
        if (attribute.kind == kind) {
            *value = attribute.value;
            return 1;
        }
    }
    return 0;
}

static void print_numbers(const struct peer *peer, const ristulva_segment *segment)
{
    ristulva_numbers cursor = {segment->numbers.at, segment->numbers.at + segment->numbers.len, peer->context.as4 ? 4 : 2};
    const char *between = segment->kind == 1 ? " {" : " ";
    uint32_t number;
    while (ristulva_next_number(peer->in, peer->heard.len, &cursor, &number) == RISTULVA_OK) {
        say("%s%lu", between, (unsigned long)number);
        between = " ";
    }
    if (segment->kind == 1)
        say("}");
}

static void print_path(const struct peer *peer)
{
    ristulva_segment segment;
    ristulva_span value;
    say(" path");
    if (find(peer, 2, &value)) {
        ristulva_segments cursor = {value.at, value.at + value.len, peer->context.as4, 0};
        while (ristulva_next_segment(peer->in, peer->heard.len, &cursor, &segment) == RISTULVA_OK)
            print_numbers(peer, &segment);
    }
}

static void print_prefixes(struct peer *peer, ristulva_prefixes cursor, int announced)
{
    int six = cursor.afi == 2;
    ristulva_prefix prefix;
    char text[INET6_ADDRSTRLEN];
    while (ristulva_next_prefix(peer->in, peer->heard.len, &cursor, &prefix) == RISTULVA_OK) {
        inet_ntop(six ? AF_INET6 : AF_INET, prefix.addr, text, sizeof text);
        say("%s %c %s/%u", peer->name, announced ? '+' : '-', text, prefix.len);
        if (announced)
            print_path(peer);
        say("\n");
        (announced ? peer->announced : peer->withdrawn)[six]++;
    }
}

/* Whether both speakers offer the family: what they don't is discarded. */
static int in_use(const struct peer *peer, const ristulva_prefixes *cursor)
{
    return cursor->afi == 1 ? peer->context.ip4 : peer->context.ip6;
}

/* `announced` is 0 where the UPDATE is treated as a withdrawal of all its routes. */
static void print_update(struct peer *peer, int announced)
{
    const ristulva_parts *parts = &peer->heard.parts;
    ristulva_prefixes withdrawn = {parts->withdrawn.at, parts->withdrawn.at + parts->withdrawn.len, 1};
    ristulva_prefixes nlri = {parts->nlri.at, parts->nlri.at + parts->nlri.len, 1}, cursor;
    ristulva_span value, next_hop;
    peer->updates++;
    print_prefixes(peer, withdrawn, 0);
    if (find(peer, 15, &value) && ristulva_unreached(peer->in, peer->heard.len, &value, &cursor) == RISTULVA_OK && in_use(peer, &cursor))
        print_prefixes(peer, cursor, 0);
    if (find(peer, 14, &value) && ristulva_reached(peer->in, peer->heard.len, &value, &next_hop, &cursor) == RISTULVA_OK &&
        in_use(peer, &cursor))
        print_prefixes(peer, cursor, announced);
    print_prefixes(peer, nlri, announced);
}

/* ---- connections ---- */

static int is_ready_later(int error)
{
    return error == EAGAIN || error == EWOULDBLOCK || error == EINTR;
}

static int unblock(int fd)
{
    int flags = fcntl(fd, F_GETFL);
    return flags >= 0 && fcntl(fd, F_SETFL, flags | O_NONBLOCK) == 0 && fcntl(fd, F_SETFD, FD_CLOEXEC) == 0;
}

static void drop(struct peer *peer)
{
    if (peer->fd >= 0)
        close(peer->fd);
    peer->fd = -1;
    peer->connection = NONE;
    peer->in_len = peer->out_len = 0;
}

/* The session keeps seeking: the peer may connect here meanwhile. */
static void try_failed(struct peer *peer, int error)
{
    int *told = error == EMFILE || error == ENFILE ? &peer->lack : &peer->error;
    drop(peer);
    if (error != *told)
        fprintf(stderr, "collector: %s: %s\n", peer->name, strerror(error));
    *told = error;
    peer->due[TIMER_AGAIN] = later(pause_seconds, 1);
}

/* Sets what is to be set of the socket of a peer. */
static int secure(int fd, int family, const struct peer *peer)
{
    return (key == NULL || set_key(fd, family, &peer->address, key)) && (!is_near || set_near(fd, family));
}

static void seek(struct peer *peer)
{
    int is_bound = own_len > 0 && own.ss_family == peer->address.ss_family;
    if (waits_for_peers || peer->any)
        return;
    drop(peer);
    peer->fd = socket(peer->address.ss_family, SOCK_STREAM, 0);
    peer->connection = TRIED;
    if (peer->fd < 0 || !unblock(peer->fd) || !secure(peer->fd, peer->address.ss_family, peer) || (is_bound && bind(peer->fd, (struct sockaddr *)&own, own_len) != 0) ||
        (connect(peer->fd, (struct sockaddr *)&peer->address, peer->address_len) != 0 && errno != EINPROGRESS))
        try_failed(peer, errno);
}

static void send_waiting(struct peer *peer)
{
    ssize_t sent = peer->out_len == 0 ? 0 : send(peer->fd, peer->out, peer->out_len, MSG_NOSIGNAL);
    if (sent < 0 && is_ready_later(errno))
        return;
    /* Where the connection is broken, the next recv reports it. */
    peer->out_len = sent < 0 ? 0 : peer->out_len - (size_t)sent;
    if (sent > 0)
        memmove(peer->out, peer->out + sent, peer->out_len);
    if (peer->connection == ENDS && peer->out_len == 0)
        shutdown(peer->fd, SHUT_WR);
}

static void put(struct peer *peer, const uint8_t *message, size_t len)
{
    /* A peer that reads nothing for this long is given up: the next recv reports that the connection is lost. */
    if (len > sizeof peer->out - peer->out_len) {
        shutdown(peer->fd, SHUT_RDWR);
        return;
    }
    memcpy(peer->out + peer->out_len, message, len);
    peer->out_len += len;
    send_waiting(peer);
}

/* Closes a connection that is up once its last octets are sent and the peer has closed it too: a socket that is closed with octets unread
 * in it may take the NOTIFICATION away from the peer. */
static void finish(struct peer *peer)
{
    if (peer->connection != STANDS) {
        drop(peer);
        return;
    }
    peer->connection = ENDS;
    send_waiting(peer);
}

/* ---- sessions ---- */

static uint8_t state_of(struct peer *peer)
{
    uint8_t state = RISTULVA_IDLE;
    if (peer->session.body != NULL)
        ristulva_session_state(&peer->session, &state);
    return state;
}

/* Sends a NOTIFICATION of the session's, or instead of its Cease at the end one of the host's, with a text: a session sends none. */
static void put_notification(struct peer *peer, const ristulva_action *action, const uint8_t *message, size_t len)
{
    uint8_t own_message[RISTULVA_MESSAGE];
    int is_farewell = farewell != NULL && stopping && action->code == 6 && action->subcode == 0;
    snprintf(peer->why, sizeof peer->why, "sent %u/%u", action->code, is_farewell ? 2 : action->subcode);
    if (!is_farewell) {
        put(peer, message, len);
        return;
    }
    put(peer, own_message, shutdown_message(farewell, own_message));
}

/* Does what a session answers. `message` is what it sends. */
static void carry_out(struct peer *peer, const ristulva_actions *actions, const uint8_t *message, size_t len)
{
    size_t i;
    for (i = 0; i < actions->count; i++) {
        const ristulva_action *action = &actions->list[i];
        if (action->kind == RISTULVA_DO_SEEK)
            seek(peer);
        else if (action->kind == RISTULVA_DO_CLOSE)
            finish(peer);
        else if (action->kind == RISTULVA_DO_ARM)
            peer->due[action->timer] = later(action->seconds, action->timer != RISTULVA_TIMER_HOLD);
        else if (action->kind == RISTULVA_DO_DISARM)
            peer->due[action->timer] = NEVER;
        else if (action->kind == RISTULVA_DO_ANNOUNCE || action->kind == RISTULVA_DO_WITHDRAW)
            print_update(peer, action->kind == RISTULVA_DO_ANNOUNCE);
        else if (action->kind == RISTULVA_DO_FLUSH)
            say("%s - all\n", peer->name);
        else if (action->kind == RISTULVA_DO_SEND_NOTIFICATION)
            put_notification(peer, action, message, len);
        else
            put(peer, message, len);
    }
}

static void print_up(struct peer *peer)
{
    const ristulva_context *agreed = &peer->context;
    ristulva_peer it;
    uint16_t hold;
    if (ristulva_session_peer(&peer->session, &it) != RISTULVA_OK ||
        ristulva_session_context(&peer->session, &peer->context, &hold) != RISTULVA_OK)
        return;
    peer->ups++;
    say("%s up as %lu id %u.%u.%u.%u hold %u offers%s%s%s", peer->name, (unsigned long)it.as_number, it.id[0], it.id[1], it.id[2],
           it.id[3], it.hold, it.as4 ? " as4" : "", it.ip4 ? " ip4" : "", it.ip6 ? " ip6" : "");
    say(", agreed hold %u%s%s%s\n", hold, agreed->as4 ? " as4" : "", agreed->ip4 ? " ip4" : "", agreed->ip6 ? " ip6" : "");
}

/* Prints whether a session came up or ended, and has it started again. */
static void settle(struct peer *peer, uint8_t before)
{
    uint8_t state = state_of(peer);
    if (state == RISTULVA_ESTABLISHED && before != RISTULVA_ESTABLISHED)
        print_up(peer);
    if (state <= RISTULVA_ACTIVE && before > RISTULVA_ACTIVE)
        say("%s down %s\n", peer->name, peer->why);
    if ((state == RISTULVA_IDLE || state == RISTULVA_ACTIVE) && !stopping)
        peer->due[TIMER_AGAIN] = later(pause_seconds, 1);
}

static void happens(struct peer *peer, uint32_t event)
{
    uint8_t message[RISTULVA_MESSAGE], before = state_of(peer);
    ristulva_actions actions;
    size_t len;
    if (peer->session.body != NULL && ristulva_session_event(&peer->session, event, &actions, message, sizeof message, &len) == RISTULVA_OK) {
        carry_out(peer, &actions, message, len);
        settle(peer, before);
    }
}

/* Passes the messages that are whole to a session, until it has ended: octets have no meaning for it then. */
static void hear(struct peer *peer)
{
    uint8_t message[RISTULVA_MESSAGE], before = state_of(peer);
    ristulva_actions actions;
    size_t len;
    while (ristulva_session_hear(&peer->session, peer->in, peer->in_len, &peer->heard, &actions, message, sizeof message, &len) ==
           RISTULVA_OK) {
        if (peer->heard.heard == RISTULVA_NOTIFICATION)
            snprintf(peer->why, sizeof peer->why, "received %u/%u", peer->heard.code, peer->heard.subcode);
        carry_out(peer, &actions, message, len);
        settle(peer, before);
        before = state_of(peer);
        peer->in_len -= peer->heard.len;
        memmove(peer->in, peer->in + peer->heard.len, peer->in_len);
    }
}

/* Makes the session of a peer of any AS number once its OPEN is there, and passes it that. Where something else is there, the session is one
 * with our own AS number, which answers it. */
static void begin(struct peer *peer)
{
    ristulva_open_fields open;
    ristulva_status status = ristulva_open(peer->in, peer->in_len, &open);
    if (status == RISTULVA_INCOMPLETE)
        return;
    config.peer_as = status == RISTULVA_OK ? open.as_number : config.local_as;
    if (ristulva_session_new(&config, &peer->session) != RISTULVA_OK) {
        drop(peer);
        return;
    }
    peer->connection = STANDS;
    peer->due[TIMER_AGAIN] = NEVER;
    happens(peer, RISTULVA_EVENT_START);
    happens(peer, RISTULVA_EVENT_CONNECTED);
    hear(peer);
}

/* Lets go of the session of such a peer, which may come again. */
static void forget(struct peer *peer)
{
    int timer;
    happens(peer, RISTULVA_EVENT_STOP);
    if (peer->connection == AWAITED)
        drop(peer);
    if (peer->session.body != NULL)
        ristulva_session_free(&peer->session);
    for (timer = 0; timer < TIMERS; timer++)
        peer->due[timer] = NEVER;
}

/* ---- what happens to sockets, and at what time ---- */

static void connected(struct peer *peer)
{
    peer->connection = STANDS;
    peer->error = peer->lack = 0;
    happens(peer, RISTULVA_EVENT_CONNECTED);
}

static void receive(struct peer *peer)
{
    ssize_t got;
    /* What comes after the last message that was received has no meaning. */
    if (peer->connection == ENDS)
        peer->in_len = 0;
    got = recv(peer->fd, peer->in + peer->in_len, sizeof peer->in - peer->in_len, 0);
    if (got > 0) {
        peer->in_len += (size_t)got;
        if (peer->connection == AWAITED)
            begin(peer);
        else
            hear(peer);
    } else if (got == 0 || !is_ready_later(errno)) {
        int is_lost = peer->connection == STANDS;
        drop(peer);
        if (is_lost) {
            strcpy(peer->why, "lost");
            happens(peer, RISTULVA_EVENT_FAILED);
        }
    }
}

static void serve(struct peer *peer, short what)
{
    int error = 0;
    socklen_t len = sizeof error;
    if (what == 0 || peer->connection == NONE)
        return;
    if (peer->connection == TRIED) {
        if (getsockopt(peer->fd, SOL_SOCKET, SO_ERROR, &error, &len) != 0)
            error = errno;
        if (error != 0)
            try_failed(peer, error);
        else
            connected(peer);
        return;
    }
    if (what & POLLOUT)
        send_waiting(peer);
    if (what & ~POLLOUT)
        receive(peer);
}

static void expire(struct peer *peer, int timer)
{
    static const uint32_t events[TIMERS] = {RISTULVA_EVENT_START, RISTULVA_EVENT_RETRY_EXPIRED, RISTULVA_EVENT_HOLD_EXPIRED,
                                            RISTULVA_EVENT_KEEPALIVE_EXPIRED};
    uint8_t state = state_of(peer);
    peer->due[timer] = NEVER;
    if (peer->any && timer == TIMER_AGAIN) {
        forget(peer);
        return;
    }
    if (timer != TIMER_AGAIN || state == RISTULVA_IDLE)
        happens(peer, events[timer]);
    else if (state == RISTULVA_ACTIVE)
        happens(peer, RISTULVA_EVENT_RETRY_EXPIRED);
    else if (state == RISTULVA_CONNECT && peer->connection == NONE)
        seek(peer);
}

static struct peer *peer_at(const char *host)
{
    size_t i;
    for (i = 0; i < peer_count; i++)
        if (strcmp(peers[i].host, host) == 0)
            return &peers[i];
    return NULL;
}

/* Leaves the listener alone for a while, where a connection can't be accepted: poll would report it again at once. */
static void rest_listener(int error)
{
    if (error != accept_error)
        fprintf(stderr, "collector: a connection can't be accepted: %s\n", strerror(error));
    accept_error = error;
    accepts_again = later(pause_seconds, 0);
}

/* A peer of any AS number has no session before its OPEN. */
static int wants_connection(const struct peer *peer, uint8_t state)
{
    if (peer != NULL && peer->any)
        return peer->session.body == NULL && peer->connection == NONE && !stopping;
    return peer != NULL && (state == RISTULVA_CONNECT || state == RISTULVA_ACTIVE);
}

/* Takes the connection of a peer whose session wants one, instead of the try for one: it has one at a time. */
static void welcome(void)
{
    struct sockaddr_storage from;
    socklen_t len = sizeof from;
    char host[HOST];
    struct peer *peer;
    uint8_t state = RISTULVA_IDLE;
    int fd = accept(listener, (struct sockaddr *)&from, &len);
    if (fd < 0) {
        if (!is_ready_later(errno) && errno != ECONNABORTED)
            rest_listener(errno);
        return;
    }
    accept_error = 0;
    print_host(from, len, host);
    if ((peer = peer_at(host)) != NULL)
        state = state_of(peer);
    if (!wants_connection(peer, state) || !unblock(fd) || (is_near && !set_near(fd, from.ss_family))) {
        close(fd);
        return;
    }
    drop(peer);
    peer->fd = fd;
    if (!peer->any) {
        connected(peer);
        return;
    }
    peer->connection = AWAITED;
    peer->due[TIMER_AGAIN] = later(OPENS_WITHIN, 0);
}

/* ---- the command line ---- */

static void usage(void)
{
    fprintf(stderr, "usage: collector [-l ADDRESS] [-p PORT] [-w SECONDS] [-n] [-m TEXT] [-k KEY] [-t] LOCAL_AS ID PEER_AS@ADDRESS[#PORT]..\n");
    exit(2);
}

static void listen_at(const char *address, const char *port)
{
    struct sockaddr_storage at;
    socklen_t len = resolve(address, address, port, &at);
    size_t i;
    own_len = resolve(address, address, "0", &own);
    listener = socket(at.ss_family, SOCK_STREAM, 0);
    /* The unspecified address is one for both families, however the machine is set. */
    if (listener >= 0 && at.ss_family == AF_INET6)
        set_number(listener, IPPROTO_IPV6, IPV6_V6ONLY, 0);
    for (i = 0; i < peer_count && listener >= 0; i++)
        if (!secure(listener, at.ss_family, &peers[i]))
            end(1, address, strerror(errno));
    if (listener < 0 || !unblock(listener) || !set_number(listener, SOL_SOCKET, SO_REUSEADDR, 1) || bind(listener, (struct sockaddr *)&at, len) != 0 || listen(listener, SOMAXCONN) != 0)
        end(1, address, strerror(errno));
}

/* Makes the peer of a word PEER_AS@ADDRESS[#PORT], and its session. */
static void add_peer(const char *word, const char *port)
{
    struct peer *peer = &peers[peer_count];
    char text[128] = "", *address, *its_port;
    int timer;
    strncat(text, word, sizeof text - 1);
    if ((address = strchr(text, '@')) == NULL)
        end(2, word, "not PEER_AS@ADDRESS");
    *address++ = '\0';
    if ((its_port = strchr(address, '#')) != NULL) {
        *its_port++ = '\0';
        number_of(word, its_port, 65535);
    }
    peer->any = strcmp(text, "*") == 0;
    config.peer_as = peer->any ? 0 : (uint32_t)number_of(word, text, 4294967295);
    peer->address_len = resolve(word, address, its_port == NULL ? port : its_port, &peer->address);
    print_host(peer->address, peer->address_len, peer->host);
    if (peer_at(peer->host) != NULL)
        end(2, word, "another peer has this address");
    if (!peer->any && ristulva_session_new(&config, &peer->session) != RISTULVA_OK)
        end(1, word, "memory");
    peer->name = word;
    peer->fd = -1;
    for (timer = 0; timer < TIMERS; timer++)
        peer->due[timer] = NEVER;
    peer_count++;
}

static void take_flags(int argc, char **argv, const char **address, const char **port)
{
    int option;
    while ((option = getopt(argc, argv, "l:p:w:nm:k:t")) != -1) {
        if (option == 'l')
            *address = optarg;
        else if (option == 'p' && number_of(optarg, optarg, 65535) > 0)
            *port = optarg;
        else if (option == 'w')
            pause_seconds = number_of(optarg, optarg, 3600);
        else if (option == 'n')
            waits_for_peers = 1;
        else if (option == 'm' && strlen(optarg) <= 255)
            farewell = optarg;
        else if (option == 'k' && strlen(optarg) - 1 < 80)
            key = optarg;
        else if (option == 't')
            is_near = 1;
        else
            usage();
    }
}

/* A speaker that waits for a peer has to listen. */
static void check_listening(void)
{
    size_t i;
    for (i = 0; i < peer_count; i++)
        if (peers[i].any || waits_for_peers)
            end(2, peers[i].name, "the peer is to connect, and there is no -l");
}

static void take_words(int argc, char **argv)
{
    const char *address = NULL, *port = "179";
    take_flags(argc, argv, &address, &port);
    if (argc - optind < 3)
        usage();
    config.local_as = (uint32_t)number_of(argv[optind], argv[optind], 4294967295);
    if (inet_pton(AF_INET, argv[++optind], config.id) != 1 || memcmp(config.id, "\0\0\0\0", 4) == 0)
        end(2, argv[optind], "not an identifier as 192.0.2.1");
    peers = calloc((size_t)argc, sizeof *peers);
    if (peers == NULL)
        end(1, "peers", "memory");
    while (++optind < argc)
        add_peer(argv[optind], port);
    if (address == NULL)
        check_listening();
    else
        listen_at(address, port);
}

/* ---- the run ---- */

static void on_signal(int number)
{
    int kept = errno;
    (void)number;
    if (write(wake[1], "", 1) < 0)
        errno = kept;
}

/* Has a signal wake poll. A second one ends the collector at once. */
static void await_signals(void)
{
    struct sigaction action;
    memset(&action, 0, sizeof action);
    action.sa_handler = on_signal;
    action.sa_flags = (int)SA_RESETHAND;
    if (pipe(wake) != 0 || !unblock(wake[1]) || sigaction(SIGINT, &action, NULL) != 0 || sigaction(SIGTERM, &action, NULL) != 0)
        end(1, "signals", strerror(errno));
}

static void stop(void)
{
    static const char *const states[] = {"", "Idle", "Connect", "Active", "OpenSent", "OpenConfirm", "Established"};
    size_t i;
    stopping = 1;
    say("%-32s %-11s %6s %9s %9s %9s %9s %9s\n", "peer", "state", "ups", "updates", "+ip4", "-ip4", "+ip6", "-ip6");
    for (i = 0; i < peer_count; i++) {
        struct peer *peer = &peers[i];
        say("%-32s %-11s %6llu %9llu %9llu %9llu %9llu %9llu\n", peer->name, states[state_of(peer)], peer->ups, peer->updates,
               peer->announced[0], peer->withdrawn[0], peer->announced[1], peer->withdrawn[1]);
    }
    for (i = 0; i < peer_count; i++) {
        peers[i].due[TIMER_AGAIN] = NEVER;
        happens(&peers[i], RISTULVA_EVENT_STOP);
    }
}

/* Lists what is waited for: the signals, the listener, standard output, and the peers' sockets. A peer without one isn't listed, since poll refuses more
 * than there may be descriptors. */
static nfds_t list_sockets(struct pollfd *polls)
{
    nfds_t count = 3;
    size_t i;
    if (accepts_again <= now())
        accepts_again = 0;
    polls[1].fd = accepts_again == 0 ? listener : -1;
    polls[2].fd = is_waiting() ? STDOUT_FILENO : -1;
    for (i = 0; i < peer_count; i++) {
        if (peers[i].fd < 0)
            continue;
        polls[count].fd = peers[i].fd;
        polls[count].events = peers[i].connection == TRIED || peers[i].out_len > 0 ? POLLIN | POLLOUT : POLLIN;
        count++;
    }
    return count;
}

/* When the first timer runs out, or the listener is polled again: `until` at the latest. */
static long long first_due(long long until)
{
    size_t i;
    int timer;
    if (accepts_again != 0 && accepts_again < until)
        until = accepts_again;
    for (i = 0; i < peer_count; i++)
        for (timer = 0; timer < TIMERS; timer++)
            until = peers[i].due[timer] < until ? peers[i].due[timer] : until;
    return until;
}

/* Waits until something happens to a socket or a timer runs out. */
static void wait_for(struct pollfd *polls, long long until)
{
    nfds_t count = list_sockets(polls), next = 3;
    long long wait = first_due(until) - now();
    size_t i;
    if (poll(polls, count, wait < 0 ? 0 : wait > INT_MAX ? INT_MAX : (int)wait) < 0) {
        if (errno != EINTR)
            end(1, "poll", strerror(errno));
        for (i = 0; i < count; i++)
            polls[i].revents = 0;
    }
    for (i = 0; i < peer_count; i++)
        peers[i].ready = peers[i].fd < 0 ? 0 : polls[next++].revents;
}

/* Answers whether a connection is there. The listener comes last, so that what a peer's socket said is done before it has another. */
static int do_turn(const struct pollfd *polls)
{
    int timer, is_open = 0;
    size_t i;
    for (i = 0; i < peer_count; i++) {
        serve(&peers[i], peers[i].ready);
        for (timer = 0; timer < TIMERS; timer++)
            if (peers[i].due[timer] <= now())
                expire(&peers[i], timer);
        is_open |= peers[i].connection != NONE;
    }
    if (polls[1].revents != 0)
        welcome();
    return is_open;
}

static void print_said(void)
{
    if (!write_said())
        end(1, "standard output", strerror(errno));
}

/* Prints what is left, for a reader that still reads. */
static void print_rest(void)
{
    struct pollfd out = {STDOUT_FILENO, POLLOUT, 0};
    long long until = now() + FAREWELL;
    print_said();
    while (is_waiting() && now() < until) {
        poll(&out, 1, (int)(until - now()));
        print_said();
    }
    if (is_waiting())
        end(1, "standard output", "nobody reads it");
}

int main(int argc, char **argv)
{
    struct pollfd *polls;
    long long until = NEVER;
    size_t i;
    take_words(argc, argv);
    await_signals();
    srand((unsigned)(now() ^ getpid()));
    signal(SIGPIPE, SIG_IGN);
    polls = calloc(peer_count + 3, sizeof *polls);
    if (polls == NULL)
        end(1, "peers", "memory");
    polls[0].fd = wake[0];
    polls[1].fd = listener;
    polls[0].events = polls[1].events = POLLIN;
    polls[2].events = POLLOUT;
    for (i = 0; i < peer_count; i++)
        happens(&peers[i], RISTULVA_EVENT_START);
    do {
        print_said();
        wait_for(polls, until);
        if (polls[0].revents != 0 && !stopping) {
            stop();
            polls[0].fd = -1;
            until = now() + FAREWELL;
        }
    } while ((do_turn(polls) || !stopping) && now() < until);
    for (i = 0; i < peer_count; i++) {
        drop(&peers[i]);
        if (peers[i].session.body != NULL)
            ristulva_session_free(&peers[i].session);
    }
    print_rest();
    free(peers);
    free(polls);
    free(said);
    return 0;
}
