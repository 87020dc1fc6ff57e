/* What a board brings: a clock, and a line for payloads. Here the line is a UDP socket on loopback, bound to a port of its own
 * and connected to one peer, so that no other peer's payload is received; and it drops some of what is sent. It can go dead for a
 * while, as when the cable is pulled. */
#ifndef LINE_H
#define LINE_H

#include <sirmjold.h>
#include <stdbool.h>

struct line {
    int socket;
    unsigned drop;               /* so many of 256 payloads are dropped */
    struct sirmjold_load draws;  /* which ones: the same from the same seed */
    uint64_t dead_from, dead_to; /* times between which all are dropped */
    unsigned sent, dropped;      /* payloads; those that are dropped are sent, too */
};

/* Ends the program, with 1, where something is not so. */
void check(bool so, const char *what);

/* The next byte of a seed's values. */
unsigned draw(struct sirmjold_load *draws);

/* Milliseconds that do not go back when the time of day is set. */
uint64_t clock_ms(void);

/* Bound to `port` and connected to `peer`; dead for `dead` ms, from a second after it was opened. */
void line_open(struct line *l, unsigned port, unsigned peer, unsigned drop, unsigned dead, uint32_t seed);

/* Sends a payload, or drops it. What the network does not take is dropped, too. */
void line_send(struct line *l, const uint8_t *payload, size_t len);

/* The length of the payload that was received into `buf`; 0 where none waits. */
size_t line_receive(const struct line *l, uint8_t *buf, size_t room);

/* Sleeps until a payload waits, at the longest until the given time. */
void line_wait(const struct line *l, uint64_t until);

#endif
