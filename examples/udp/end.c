#include "end.h"

#include <inttypes.h>
#include <stdlib.h>
#include <string.h>

/* The defaults, but with twenty idle commands at steps of 100 ms: so the last notes are heard, or known to be lost, even where
 * half of all payloads are dropped. */
static const struct sirmjold_settings settings = {
    .idle_interval_ms = 100, .idle_growth = 1,       .idle_further = 17, .fec_repeats = 2,
    .retransmit = 1,         .request_delay_ms = 10, .max_requests = 3,  .max_command_words = 64,
};

/* ---- the command line */

static void usage(const char *program)
{
    fprintf(stderr,
            "usage: %s PORT PEER [--drop N] [--dead MS] [--seed N] [--seconds N] [--silence MS] [--log FILE]\n"
            "  PORT PEER     UDP ports on loopback: its own, and that of the other end\n"
            "  --drop N      so many of 256 payloads that it sends are dropped; by default none\n"
            "  --dead MS     for so long all of them are, a second after the start; by default 0\n"
            "  --seed N      of what is dropped and played; by default 1\n"
            "  --seconds N   how long the console plays; by default 3\n"
            "  --silence MS  after how long without a payload the chamber ends; by default 3000\n"
            "  --log FILE    what is played and written, or handed on and lost\n",
            program);
    exit(2);
}

static bool number(const char *text, unsigned most, unsigned *value)
{
    char *end;
    unsigned long read = strtoul(text, &end, 10);
    *value = (unsigned)read;
    return *text >= '0' && *text <= '9' && *end == 0 && read <= most;
}

static bool option(struct options *o, const char *name, const char *text)
{
    if (strcmp(name, "--drop") == 0)
        return number(text, 256, &o->drop);
    if (strcmp(name, "--dead") == 0)
        return number(text, 3600000, &o->dead);
    if (strcmp(name, "--seed") == 0)
        return number(text, UINT32_MAX, &o->seed);
    if (strcmp(name, "--seconds") == 0)
        return number(text, 3600, &o->seconds);
    if (strcmp(name, "--silence") == 0)
        return number(text, 3600000, &o->silence);
    o->log = text;
    return strcmp(name, "--log") == 0;
}

struct options options(int argc, char **argv)
{
    struct options o = {.seed = 1, .seconds = 3, .silence = 3000};
    if (argc < 3 || argc % 2 == 0 || !number(argv[1], 65535, &o.port) || !number(argv[2], 65535, &o.peer))
        usage(argv[0]);
    for (int k = 3; k < argc; k += 2)
        if (!option(&o, argv[k], argv[k + 1]))
            usage(argv[0]);
    return o;
}

/* ---- the log and the figures */

void end_log(const struct end *e, const char *what, unsigned number, const uint32_t *words, size_t count)
{
    if (e->log == NULL)
        return;
    fprintf(e->log, "%s %u", what, number);
    for (size_t k = 0; k < count; k++)
        fprintf(e->log, " %08" PRIX32, words[k]);
    fputc('\n', e->log);
}

static uint64_t next_second(const struct end *e)
{
    return e->begun + 1000 * (e->seconds + 1);
}

bool end_second(struct end *e, uint64_t now)
{
    if (now < next_second(e))
        return false;
    e->seconds++;
    return true;
}

void end_figures(const struct end *e, uint64_t now)
{
    uint64_t tenths = (now - e->begun) / 100;
    printf("%s %" PRIu64 ".%" PRIu64 " s: sent %u, dropped %u", e->name, tenths / 10, tenths % 10, e->line.sent, e->line.dropped);
}

/* ---- the stream */

void end_open(struct end *e, const char *name, const struct options *o)
{
    memset(e, 0, sizeof *e);
    e->name = name;
    setvbuf(stdout, NULL, _IOLBF, 0);
    e->log = o->log ? fopen(o->log, "w") : NULL;
    check(o->log == NULL || e->log != NULL, "a file for the log");
    e->begun = e->heard = clock_ms();
    line_open(&e->line, o->port, o->peer, o->drop, o->dead, o->seed);
    uint8_t refusal = sirmjold_start(&e->stream, &settings, WINDOW, PLACES, e->history, HISTORY);
    check(refusal == SIRMJOLD_OK, sirmjold_refusal_text(refusal));
}

/* The next command; false where reading ends. A request or an error without its word is passed over, and so is all of a payload
 * that does not begin with the signature. */
static bool next_command(struct sirmjold_reader *from, struct sirmjold_read *c)
{
    do
        *c = sirmjold_reader_next(from);
    while (c->refusal == SIRMJOLD_REFUSED_MALFORMED);
    return c->next != 0;
}

/* The figures of a written payload. Its data commands stand in this order: retransmits, then, before new commands, the last
 * ones that were written before, then the new ones. */
static void count_written(struct end *e, const uint8_t *payload, size_t len)
{
    struct sirmjold_reader reader;
    struct sirmjold_read c;
    unsigned before = e->written, old = 0;
    sirmjold_reader_open(&reader, payload, len);
    while (next_command(&reader, &c)) {
        if (c.kind != SIRMJOLD_READ_UMP_DATA)
            continue;
        if (c.seq == (uint16_t)e->written) {
            end_log(e, "written", c.seq, reader.words, c.count);
            e->written++;
        } else {
            old++;
        }
    }
    unsigned repeats = e->written == before ? 0 : (unsigned)lesser(lesser(settings.fec_repeats, before), old);
    e->repeated += repeats;
    e->retransmitted += old - repeats;
}

void end_write(struct end *e, uint64_t now)
{
    struct sirmjold_payload payload;
    uint8_t buf[LIMIT];
    while (sirmjold_wants_write(&e->stream, now).wants) {
        check(sirmjold_payload_open(&payload, buf, LIMIT) == SIRMJOLD_OK, "an empty payload");
        struct sirmjold_written w = sirmjold_write_data(&e->stream, now, &payload);
        check(w.refusal == SIRMJOLD_OK, "a write");
        if (w.commands == 0) /* a request that was due is no longer needed */
            return;
        count_written(e, buf, sirmjold_payload_length(&payload));
        line_send(&e->line, buf, sirmjold_payload_length(&payload));
    }
}

void end_hear(struct end *e, uint64_t now, take *each)
{
    uint8_t payload[LIMIT];
    struct sirmjold_reader reader;
    struct sirmjold_read c;
    size_t len;
    while ((len = line_receive(&e->line, payload, sizeof payload)) != 0) {
        e->heard = now;
        sirmjold_reader_open(&reader, payload, len);
        while (next_command(&reader, &c))
            each(e, now, &c, &reader);
    }
}

uint64_t lesser(uint64_t a, uint64_t b)
{
    return a < b ? a : b;
}

void end_wait(const struct end *e, uint64_t until)
{
    struct sirmjold_deadline due = sirmjold_next_deadline(&e->stream);
    check(due.refusal == SIRMJOLD_OK, "a deadline");
    until = lesser(until, next_second(e));
    line_wait(&e->line, due.kind ? lesser(due.time, until) : until);
}
