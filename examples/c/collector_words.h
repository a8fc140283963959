/* What the collector reads and writes beside routes: words of the command line, addresses, and the NOTIFICATION of its end. */
#ifndef COLLECTOR_WORDS_H
#define COLLECTOR_WORDS_H

#include "collector_socket.h"
#include <errno.h>
#include <netdb.h>
#include <stdint.h>
#include <stdio.h>
#include <stdlib.h>
#include <string.h>
#include <sys/socket.h>

/* Room for an address as text, with the name of a link after it. */
#define HOST 64

static void end(int status, const char *word, const char *why)
{
    fprintf(stderr, "collector: %s: %s\n", word, why);
    exit(status);
}

/* A number from 1 to `most`, which `text` is and `word` has. */
static unsigned long number_of(const char *word, const char *text, unsigned long most)
{
    char *behind;
    unsigned long number;
    errno = 0;
    number = strtoul(text, &behind, 10);
    if (text[0] < '0' || text[0] > '9' || *behind != '\0' || errno != 0 || number == 0 || number > most)
        end(2, word, "a number is out of its range");
    return number;
}

static socklen_t resolve(const char *word, const char *address, const char *port, struct sockaddr_storage *out)
{
    struct addrinfo hints, *found;
    socklen_t len;
    memset(&hints, 0, sizeof hints);
    hints.ai_flags = AI_NUMERICHOST | AI_NUMERICSERV;
    hints.ai_socktype = SOCK_STREAM;
    if (getaddrinfo(address, port, &hints, &found) != 0)
        end(2, word, "not an address");
    len = found->ai_addrlen;
    memcpy(out, found->ai_addr, len);
    freeaddrinfo(found);
    return len;
}

/* Writes an address as text, of which each has one. */
static void print_host(struct sockaddr_storage address, socklen_t len, char host[HOST])
{
    len = unmap(&address, len);
    if (getnameinfo((const struct sockaddr *)&address, len, host, HOST, NULL, 0, NI_NUMERICHOST) != 0)
        host[0] = '\0';
}

/* A NOTIFICATION of an administrative shutdown, with a text of 255 octets at most: 6/2, and after an octet of its length the text
 * (RFC 4486; RFC 9003, section 2). Answers its length. */
static size_t shutdown_message(const char *text, uint8_t *out)
{
    size_t len = strlen(text);
    memset(out, 255, 16);
    out[16] = (uint8_t)((22 + len) >> 8);
    out[17] = (uint8_t)(22 + len);
    out[18] = 3;
    out[19] = 6;
    out[20] = 2;
    out[21] = (uint8_t)len;
    memcpy(out + 22, text, len);
    return 22 + len;
}

#endif
