/* A console over UDP: plays notes for some seconds, drawn from a seed, releases all keys, sends its idle commands, and ends.
 * Built and run, with chamber.c, by tools/run_udp_example. */
#include "end.h"

#define KEYS 61
#define LOWEST 36
#define EVERY 10    /* ms from one chord to the next */
#define LINGER 1000 /* ms for which requests are still answered: for one gap they come within D (2^M - 1) ms, here 70 */
#define NEVER UINT64_MAX

static bool down[KEYS];
static struct sirmjold_load draws;
static unsigned played, requests, errors;

/* A key goes down or up: a MIDI 1.0 message of one word. */
static uint32_t change(unsigned key)
{
    down[key] = !down[key];
    return (down[key] ? 0x20900040u : 0x20800000u) | (LOWEST + key) << 8;
}

/* Queues a chord, which end_write then writes: so no more than one chord is ever unwritten, and the history has room for it. */
static void queue(struct end *e, const uint32_t *words, size_t count)
{
    check(sirmjold_send_ump(&e->stream, words, count) == SIRMJOLD_OK, "a chord is queued");
    end_log(e, "played", played, words, count);
    played += (unsigned)count;
}

/* One to four keys change. */
static void play(struct end *e)
{
    uint32_t words[4];
    size_t count = 1 + draw(&draws) % 4;
    for (size_t k = 0; k < count; k++)
        words[k] = change(draw(&draws) % KEYS);
    queue(e, words, count);
}

static void release_all(struct end *e)
{
    uint32_t words[KEYS];
    size_t count = 0;
    for (unsigned key = 0; key < KEYS; key++)
        if (down[key])
            words[count++] = change(key);
    queue(e, words, count);
}

/* A Retransmit Error, in a payload of its own. */
static void send_error(struct end *e, uint8_t reason, uint16_t seq)
{
    struct sirmjold_payload payload;
    uint8_t buf[LIMIT];
    check(sirmjold_payload_open(&payload, buf, LIMIT) == SIRMJOLD_OK, "an empty payload");
    check(sirmjold_put_retransmit_error(&payload, reason, seq) == SIRMJOLD_OK, "an error");
    line_send(&e->line, buf, sirmjold_payload_length(&payload));
    errors++;
}

/* Requests are the stream's, which answers them with its next writes. This chamber sends no data; a console that hears some does
 * with it what chamber.c does. All else is the session's. */
static void hear(struct end *e, uint64_t now, const struct sirmjold_read *c, const struct sirmjold_reader *from)
{
    (void)now;
    (void)from;
    if (c->kind != SIRMJOLD_READ_REQUEST)
        return;
    struct sirmjold_outcome o = sirmjold_on_retransmit_request(&e->stream, c->seq, c->count);
    check(o.refusal == SIRMJOLD_OK, "a request");
    requests++;
    if (o.kind == SIRMJOLD_ERROR)
        send_error(e, o.reason, o.seq);
}

static void figures(const struct end *e, uint64_t now)
{
    end_figures(e, now);
    printf(", written %u, repeated %u, retransmitted %u, requests heard %u, errors %u\n", e->written, e->repeated,
           e->retransmitted, requests, errors);
}

/* Nothing is due any more: the last idle command is out. */
static bool idle(const struct end *e)
{
    return sirmjold_next_deadline(&e->stream).kind == 0;
}

/* What is played at this time: a chord, or at the end the release of all keys. Answers when to play next. */
static uint64_t play_at(struct end *e, uint64_t now, uint64_t end)
{
    if (now < end) {
        play(e);
        return lesser(now + EVERY, end);
    }
    release_all(e);
    return NEVER;
}

int main(int argc, char **argv)
{
    static struct end e;
    struct options o = options(argc, argv);
    end_open(&e, "console", &o);
    draws.last = ~o.seed;
    uint64_t now, next = e.begun, busy = e.begun, end = e.begun + 1000 * (uint64_t)o.seconds;
    do {
        now = clock_ms();
        end_hear(&e, now, hear);
        if (now >= next)
            next = play_at(&e, now, end);
        end_write(&e, now);
        if (end_second(&e, now))
            figures(&e, now);
        if (next != NEVER || !idle(&e))
            busy = now;
        end_wait(&e, lesser(next, busy + LINGER));
    } while (now < busy + LINGER);
    figures(&e, now);
    return 0;
}
