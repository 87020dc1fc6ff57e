/* Two chambers side by side over a line with jitter: each payload is 1 to 40 ms on its way, so payloads
 * overtake each other, and none is lost. One chamber does what each message says, as it is handed on; the
 * other asks the library which notes are held. At the end every key is released and all has arrived:
 * whatever still sounds, sounds on.
 *
 * Built and run by tools/run_c_example. */
#include <sirmjold.h>
#include <stdio.h>
#include <stdlib.h>
#include <string.h>

#define PERFORMANCES 200
#define PLAYED 1500 /* ms in which keys change */
#define ENDS 1600
#define JITTER 40
#define KEYS 24
#define RING 4096
#define LIMIT 1400

static struct sirmjold_stream console, chamber;
static uint32_t console_ring[RING], chamber_ring[RING];
static uint32_t random_state;
static uint8_t down[KEYS], naive[128];
static struct sirmjold_held held;
static unsigned late, losses;

static struct {
    size_t len;
    uint8_t bytes[LIMIT];
} line[ENDS + JITTER + 1][JITTER + 1];
static unsigned flying[ENDS + JITTER + 1];

static void check(int ok, const char *what)
{
    if (!ok) {
        fprintf(stderr, "not so: %s\n", what);
        exit(1);
    }
}

static uint32_t draw(uint32_t below)
{
    random_state ^= random_state << 13;
    random_state ^= random_state >> 17;
    random_state ^= random_state << 5;
    return random_state % below;
}

/* Neither repeats nor requests. */
static void start(struct sirmjold_stream *s, uint32_t *ring)
{
    struct sirmjold_settings settings = SIRMJOLD_DEFAULTS;
    settings.fec_repeats = settings.retransmit = 0;
    check(sirmjold_start(s, &settings, 64, 4, ring, RING) == 0, "a fresh stream");
}

/* A key goes down or up. */
static void change(unsigned key)
{
    uint32_t word = (down[key] ? 0x20800000u : 0x20900040u) | (36 + key) << 8;
    down[key] = !down[key];
    check(sirmjold_send_ump(&console, &word, 1) == 0, "a change is queued");
}

/* What is written is on its way for 1 to JITTER ms. */
static void write_payload(uint64_t now)
{
    struct sirmjold_payload p;
    uint64_t due = now + 1 + draw(JITTER);
    unsigned at = flying[due];
    check(sirmjold_payload_open(&p, line[due][at].bytes, LIMIT) == 0, "a payload");
    check(sirmjold_write_data(&console, now, &p).refusal == 0, "a write");
    line[due][at].len = sirmjold_payload_length(&p);
    flying[due] += line[due][at].len != 0;
}

/* The chamber that does what each message says. */
static void do_as_said(const uint32_t *words, unsigned count)
{
    for (unsigned k = 0; k < count; k++)
        naive[words[k] >> 8 & 0x7F] = (words[k] >> 20 & 15) == 9;
}

static void hear(uint64_t now, const uint8_t *payload, size_t len)
{
    struct sirmjold_reader reader;
    struct sirmjold_read r;
    sirmjold_reader_open(&reader, payload, len);
    while ((r = sirmjold_reader_next(&reader)).next != 0) {
        check(r.refusal == 0 && r.kind == SIRMJOLD_READ_UMP_DATA, "a data command");
        struct sirmjold_delivery d = sirmjold_on_ump_data(&chamber, now, r.seq);
        struct sirmjold_given g = sirmjold_held_heard(held, d, &reader);
        check(d.refusal == 0 && g.refusal == 0, "a delivery");
        held = g.state;
        if (d.class_ != SIRMJOLD_DUPLICATE)
            do_as_said(reader.words, r.count);
        late += d.class_ == SIRMJOLD_LATE;
        losses += d.lost_count != 0;
    }
    check(r.refusal == 0 && r.kind == SIRMJOLD_READ_END, "a payload that is read to its end");
}

static void perform(uint32_t seed)
{
    random_state = seed * 2654435761u + 1;
    memset(down, 0, sizeof down);
    memset(naive, 0, sizeof naive);
    memset(flying, 0, sizeof flying);
    start(&console, console_ring);
    start(&chamber, chamber_ring);
    held = sirmjold_held_start(0).state;
    for (uint64_t now = 0; now <= ENDS + JITTER; now++) {
        if (now < PLAYED && draw(20) == 0)
            change(draw(KEYS));
        for (unsigned key = 0; now == PLAYED && key < KEYS; key++)
            if (down[key])
                change(key);
        if (now < ENDS)
            write_payload(now);
        for (unsigned k = 0; k < flying[now]; k++)
            hear(now, line[now][k].bytes, line[now][k].len);
    }
}

int main(void)
{
    unsigned naive_performances = 0, naive_pipes = 0, held_pipes = 0;
    for (uint32_t seed = 1; seed <= PERFORMANCES; seed++) {
        unsigned pipes = 0;
        perform(seed);
        for (unsigned note = 0; note < 128; note++)
            pipes += naive[note];
        naive_pipes += pipes;
        naive_performances += pipes != 0;
        held_pipes += (unsigned)sirmjold_held_restarted(held).notes.count;
    }
    check(sirmjold_held_start(16).refusal == SIRMJOLD_REFUSED_SIZE_NOT_ALLOWED, "a group above 15 is refused");
    printf("%d performances, %u late commands, %u losses: a chamber that does as it is told leaves %u pipes sounding on, in %u of them; "
           "with held notes %u\n",
           PERFORMANCES, late, losses, naive_pipes, naive_performances, held_pipes);
    check(naive_pipes > 0, "pipes of the first sound on");
    check(held_pipes == 0, "none of the second does");
    return 0;
}
