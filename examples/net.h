/* The network code of resolve.c and serve.c: messages over UDP, and over TCP, where each message has two octets of its length
   before it (RFC 1035, section 4.2.2). */
#include <arpa/inet.h>
#include <poll.h>
#include <stdbool.h>
#include <stdint.h>
#include <stdio.h>
#include <stdlib.h>
#include <unistd.h>

enum { NET_TRIES = 3, NET_SECONDS = 2, NET_MAX = 65535 };

static inline void fail(const char *why)
{
    fprintf(stderr, "%s\n", why);
    exit(1);
}

static inline int channel(int kind, int seconds)
{
    struct timeval wait = {seconds, 0};
    int made = socket(AF_INET, kind, 0);
    setsockopt(made, SOL_SOCKET, SO_RCVTIMEO, &wait, sizeof wait);
    return made;
}

static inline bool put_framed(int stream, const uint8_t *message, size_t len)
{
    uint8_t head[] = {(uint8_t)(len >> 8), (uint8_t)len};
    return send(stream, head, 2, MSG_MORE | MSG_NOSIGNAL) == 2 && send(stream, message, len, MSG_NOSIGNAL) == (ssize_t)len;
}

static inline ssize_t get_framed(int stream, uint8_t *message)
{
    uint8_t head[2];
    ssize_t len = recv(stream, head, 2, MSG_WAITALL) == 2 ? head[0] << 8 | head[1] : -1;
    return len >= 0 && recv(stream, message, (size_t)len, MSG_WAITALL) == len ? len : -1;
}

/* Asks a server, stores the first message that is a reply in `reply`, which has NET_MAX octets, and returns its length. */
static inline size_t ask(int kind, const char *address, const char *port, const uint8_t *query, size_t len,
                  bool (*is_reply)(const uint8_t *message, size_t len), uint8_t *reply)
{
    struct sockaddr_in server = {.sin_family = AF_INET, .sin_port = htons((uint16_t)atoi(port))};
    int own = channel(kind, NET_SECONDS);
    if (inet_pton(AF_INET, address, &server.sin_addr) != 1 || connect(own, (struct sockaddr *)&server, sizeof server) != 0)
        fail("there is no such server");
    for (int tries = 0; tries < (kind == SOCK_DGRAM ? NET_TRIES : 1); tries++) {
        if (kind == SOCK_DGRAM ? send(own, query, len, 0) != (ssize_t)len : !put_framed(own, query, len))
            break;
        ssize_t got;
        while ((got = kind == SOCK_DGRAM ? recv(own, reply, NET_MAX, 0) : get_framed(own, reply)) >= 0)
            if (is_reply(reply, (size_t)got))
                return (size_t)got;
    }
    fail("there is no reply");
    return 0;
}

/* Serves on a port of 127.0.0.1, or on any free port if it is 0, and prints the port. `respond` stores a response of at most
   NET_MAX octets, and returns its length, or 0 if there is none. */
static inline void serve(const char *port, size_t (*respond)(const uint8_t *request, size_t len, bool is_udp, uint8_t *response))
{
    static uint8_t request[NET_MAX], response[NET_MAX];
    struct sockaddr_in own = {.sin_family = AF_INET, .sin_addr.s_addr = htonl(INADDR_LOOPBACK)}, from;
    socklen_t size = sizeof own;
    struct pollfd both[] = {{channel(SOCK_DGRAM, 0), POLLIN, 0}, {channel(SOCK_STREAM, 0), POLLIN, 0}};
    own.sin_port = htons((uint16_t)atoi(port));
    if (bind(both[0].fd, (struct sockaddr *)&own, size) != 0 || getsockname(both[0].fd, (struct sockaddr *)&own, &size) != 0
        || bind(both[1].fd, (struct sockaddr *)&own, size) != 0 || listen(both[1].fd, 64) != 0)
        fail("the port is not free");
    printf("serving on port %d\n", ntohs(own.sin_port));
    for (fflush(stdout); poll(both, 2, -1) > 0;) {
        ssize_t len = both[0].revents ? recvfrom(both[0].fd, request, NET_MAX, 0, (struct sockaddr *)&from, &size) : -1;
        size_t put = len > 0 ? respond(request, (size_t)len, true, response) : 0;
        if (put > 0)
            sendto(both[0].fd, response, put, 0, (struct sockaddr *)&from, size);
        if (both[1].revents == 0)
            continue;
        struct timeval wait = {1, 0};
        int stream = accept(both[1].fd, NULL, NULL);
        setsockopt(stream, SOL_SOCKET, SO_RCVTIMEO, &wait, sizeof wait);
        while ((len = get_framed(stream, request)) >= 0 && (put = respond(request, (size_t)len, false, response)) > 0)
            if (!put_framed(stream, response, put))
                break;
        close(stream);
    }
}
