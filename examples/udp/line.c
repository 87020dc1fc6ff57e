#define _POSIX_C_SOURCE 200809L
#include "line.h"

#include <arpa/inet.h>
#include <errno.h>
#include <limits.h>
#include <netinet/in.h>
#include <poll.h>
#include <stdio.h>
#include <stdlib.h>
#include <sys/socket.h>
#include <time.h>

void check(bool so, const char *what)
{
    if (!so) {
        fprintf(stderr, "not so: %s\n", what);
        exit(1);
    }
}

/* The top byte: the lowest one goes round in 256 draws. */
unsigned draw(struct sirmjold_load *draws)
{
    *draws = sirmjold_load_draw(*draws);
    return draws->last >> 24;
}

uint64_t clock_ms(void)
{
    struct timespec t;
    check(clock_gettime(CLOCK_MONOTONIC, &t) == 0, "a clock");
    return (uint64_t)t.tv_sec * 1000 + (uint64_t)t.tv_nsec / 1000000;
}

static struct sockaddr_in loopback(unsigned port)
{
    struct sockaddr_in a = {.sin_family = AF_INET, .sin_port = htons((uint16_t)port)};
    a.sin_addr.s_addr = htonl(INADDR_LOOPBACK);
    return a;
}

void line_open(struct line *l, unsigned port, unsigned peer, unsigned drop, unsigned dead, uint32_t seed)
{
    struct sockaddr_in own = loopback(port), other = loopback(peer);
    *l = (struct line){.socket = socket(AF_INET, SOCK_DGRAM, 0), .drop = drop, .draws = {seed}};
    l->dead_from = clock_ms() + 1000;
    l->dead_to = l->dead_from + dead;
    check(l->socket >= 0, "a socket");
    check(bind(l->socket, (struct sockaddr *)&own, sizeof own) == 0, "a free port");
    check(connect(l->socket, (struct sockaddr *)&other, sizeof other) == 0, "a peer");
}

/* No payload was taken or given, and the line goes on: none waits, the network is busy, or nobody listens at the peer's port. */
static bool passing(int error)
{
    return error == EAGAIN || error == EWOULDBLOCK || error == EINTR || error == ENOBUFS || error == ECONNREFUSED;
}

static bool drops(struct line *l)
{
    uint64_t now = clock_ms();
    return draw(&l->draws) < l->drop || (l->dead_from <= now && now < l->dead_to);
}

void line_send(struct line *l, const uint8_t *payload, size_t len)
{
    l->sent++;
    if (drops(l)) {
        l->dropped++;
    } else if (send(l->socket, payload, len, MSG_DONTWAIT) < 0) {
        check(passing(errno), "a payload is sent");
        l->dropped++;
    }
}

size_t line_receive(const struct line *l, uint8_t *buf, size_t room)
{
    ssize_t len = recv(l->socket, buf, room, MSG_DONTWAIT);
    check(len >= 0 || passing(errno), "payloads are received");
    return len < 0 ? 0 : (size_t)len;
}

void line_wait(const struct line *l, uint64_t until)
{
    struct pollfd waiting = {.fd = l->socket, .events = POLLIN};
    uint64_t now = clock_ms();
    uint64_t ms = until > now ? until - now : 0;
    check(poll(&waiting, 1, ms < INT_MAX ? (int)ms : INT_MAX) >= 0 || passing(errno), "a wait");
}
