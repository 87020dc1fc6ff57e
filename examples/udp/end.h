/* One end of a link: a stream of the library, the memory that it is lent, and its line. console.c and chamber.c are the two ends:
 * the one plays, the other hears. */
#ifndef END_H
#define END_H

#include <stdio.h>

#include "line.h"

#define HISTORY 72 /* words: all keys released at once, behind the two chords that are repeated before it */
#define LIMIT 1400 /* bytes of a payload */
#define WINDOW 64
#define PLACES 4

struct end {
    const char *name;
    struct line line;
    struct sirmjold_stream stream;
    uint32_t history[HISTORY];
    FILE *log;                                 /* NULL: none is kept */
    uint64_t begun, seconds;                   /* when it began, and how many whole seconds of it have their figures printed */
    uint64_t heard;                            /* when a payload was last received */
    unsigned written, repeated, retransmitted; /* data commands that this end wrote */
};

/* What an end does with a command that it reads. */
typedef void take(struct end *e, uint64_t now, const struct sirmjold_read *c, const struct sirmjold_reader *from);

/* What is given on the command line. */
struct options {
    unsigned port, peer, drop, dead, seed, seconds, silence;
    const char *log;
};

struct options options(int argc, char **argv);

/* A fresh stream, and its line. */
void end_open(struct end *e, const char *name, const struct options *o);

/* Writes and sends all that the stream has to write at this time. */
void end_write(struct end *e, uint64_t now);

/* Reads all payloads that wait, command by command. */
void end_hear(struct end *e, uint64_t now, take *each);

/* The smaller of the two. */
uint64_t lesser(uint64_t a, uint64_t b);

/* Sleeps until a payload waits, the stream has work or a line of figures is due, at the longest until the given time. */
void end_wait(const struct end *e, uint64_t until);

/* Whether a second has passed since the last line of figures. */
bool end_second(struct end *e, uint64_t now);

/* Begins a line of figures with those that each end has. */
void end_figures(const struct end *e, uint64_t now);

/* A line of the log: what happened, a number, and words. */
void end_log(const struct end *e, const char *what, unsigned number, const uint32_t *words, size_t count);

#endif
