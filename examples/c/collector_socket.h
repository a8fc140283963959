/* What the collector sets of a socket: a key for TCP MD5 signatures (RFC 2385), and TTL security (RFC 5082). Both are for the host to set: a
 * session has no part in them. */
#ifndef COLLECTOR_SOCKET_H
#define COLLECTOR_SOCKET_H

#include <errno.h>
#include <netinet/in.h>
#include <netinet/tcp.h>
#include <string.h>
#include <sys/socket.h>

/* The TTL that a peer one hop away sends, and no other can. */
#define NEAR 255

static int set_number(int fd, int level, int option, int number)
{
    return setsockopt(fd, level, option, &number, sizeof number) == 0;
}

/* The IPv4 address within an IPv6 one, as a socket for both families has it (RFC 4291, section 2.5.5.2): all others stay as they are. */
static socklen_t unmap(struct sockaddr_storage *address, socklen_t len)
{
    struct sockaddr_in6 six;
    struct sockaddr_in four;
    memcpy(&six, address, sizeof six);
    if (address->ss_family != AF_INET6 || !IN6_IS_ADDR_V4MAPPED(&six.sin6_addr))
        return len;
    memset(&four, 0, sizeof four);
    four.sin_family = AF_INET;
    four.sin_port = six.sin6_port;
    memcpy(&four.sin_addr, six.sin6_addr.s6_addr + 12, 4);
    memset(address, 0, sizeof *address);
    memcpy(address, &four, sizeof four);
    return sizeof four;
}

/* The address as a socket of a family has it. */
static void map(const struct sockaddr_storage *address, int family, struct sockaddr_storage *out)
{
    struct sockaddr_in6 six;
    struct sockaddr_in four;
    *out = *address;
    if (family != AF_INET6 || address->ss_family != AF_INET)
        return;
    memcpy(&four, address, sizeof four);
    memset(&six, 0, sizeof six);
    six.sin6_family = AF_INET6;
    six.sin6_port = four.sin_port;
    memset(six.sin6_addr.s6_addr + 10, 255, 2);
    memcpy(six.sin6_addr.s6_addr + 12, &four.sin_addr, 4);
    memset(out, 0, sizeof *out);
    memcpy(out, &six, sizeof six);
}

/* Has segments of a peer signed by a key, and received only where they are. `family` is the socket's. */
static int set_key(int fd, int family, const struct sockaddr_storage *peer, const char *key)
{
#ifdef TCP_MD5SIG
    struct tcp_md5sig signature;
    memset(&signature, 0, sizeof signature);
    map(peer, family, &signature.tcpm_addr);
    signature.tcpm_keylen = (uint16_t)strlen(key);
    memcpy(signature.tcpm_key, key, strlen(key));
    return setsockopt(fd, IPPROTO_TCP, TCP_MD5SIG, &signature, sizeof signature) == 0;
#else
    (void)fd, (void)family, (void)peer, (void)key;
    errno = ENOTSUP;
    return 0;
#endif
}

/* Sends with the highest TTL, and receives nothing with less: what comes from farther away. */
static int set_near(int fd, int family)
{
#if defined(IP_MINTTL) && defined(IPV6_MINHOPCOUNT)
    int is_four = set_number(fd, IPPROTO_IP, IP_TTL, NEAR) && set_number(fd, IPPROTO_IP, IP_MINTTL, NEAR);
    if (family == AF_INET)
        return is_four;
    return set_number(fd, IPPROTO_IPV6, IPV6_UNICAST_HOPS, NEAR) && set_number(fd, IPPROTO_IPV6, IPV6_MINHOPCOUNT, NEAR);
#else
    (void)fd, (void)family;
    errno = ENOTSUP;
    return 0;
#endif
}

#endif
