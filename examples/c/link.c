/* Settings tried on a pretend link before a hire: how many commands the chamber hands on and how many losses it reports,
 * by repeats and by how many of 256 payloads the line drops. Each run is made again by hand, step by step, with the
 * functions of streams and payloads: its counts and every word of both histories are the same. Then what is refused.
 *
 * Built and run by tools/run_c_example; takes the seeds of load and line as arguments, in decimal. */
#include <inttypes.h>
#include <sirmjold.h>
#include <stdio.h>
#include <stdlib.h>
#include <string.h>

#define STEPS 5000
#define RING 256
#define WINDOW 64
#define PLACES 4
#define LIMIT 1400

struct end {
    struct sirmjold_stream stream;
    uint32_t ring[RING];
};

struct link {
    struct sirmjold_settings settings;
    struct end console, chamber;
    struct sirmjold_outcome waiting; /* an error that stands first in the console's next payload */
    struct sirmjold_report report;
};

static void check(int ok, const char *what)
{
    if (!ok) {
        fprintf(stderr, "not so: %s\n", what);
        exit(1);
    }
}

static void start(const struct link *l, struct end *e)
{
    check(sirmjold_start(&e->stream, &l->settings, WINDOW, PLACES, e->ring, RING) == 0, "a fresh stream");
}

static struct sirmjold_payload opened(uint8_t *buf)
{
    struct sirmjold_payload p;
    check(sirmjold_payload_open(&p, buf, LIMIT) == 0, "a payload");
    return p;
}

/* The chamber hears a data command or an error; the console a request. */
static void arrives(struct link *l, uint64_t now, const struct sirmjold_read *r)
{
    if (r->kind == SIRMJOLD_READ_UMP_DATA) {
        struct sirmjold_delivery d = sirmjold_on_ump_data(&l->chamber.stream, now, r->seq);
        check(d.refusal == 0, "a delivery");
        l->report.handed += d.class_ != SIRMJOLD_DUPLICATE;
        l->report.losses += d.lost_count != 0;
    } else if (r->kind == SIRMJOLD_READ_ERROR) {
        struct sirmjold_event e = sirmjold_on_retransmit_error(&l->chamber.stream, r->code, r->seq);
        check(e.refusal == 0, "an error");
        l->report.losses += e.kind == SIRMJOLD_ERROR_LOSS;
    } else if (r->kind == SIRMJOLD_READ_REQUEST) {
        l->waiting = sirmjold_on_retransmit_request(&l->console.stream, r->seq, r->count);
        check(l->waiting.refusal == 0, "a request");
    }
}

/* What an end writes, behind what the payload holds, is carried to the other one. */
static void write_data(struct link *l, struct end *e, uint64_t now, struct sirmjold_payload *p, int carried)
{
    struct sirmjold_reader reader;
    struct sirmjold_read r;
    check(sirmjold_write_data(&e->stream, now, p).refusal == 0, "a write");
    if (!carried || sirmjold_payload_length(p) == 0)
        return;
    sirmjold_reader_open(&reader, p->buf, sirmjold_payload_length(p));
    while ((r = sirmjold_reader_next(&reader)).next != 0) {
        check(r.refusal == 0 && r.kind > SIRMJOLD_READ_RAW, "a command of a stream");
        arrives(l, now, &r);
    }
    check(r.refusal == 0 && r.kind == SIRMJOLD_READ_END, "a payload that is read to its end");
}

static void step(struct link *l, uint64_t now, struct sirmjold_load load, int carried)
{
    uint8_t buf[LIMIT];
    struct sirmjold_asked asked = sirmjold_load_words(load);
    uint8_t sent = sirmjold_send_ump(&l->console.stream, asked.words, asked.count);
    check(sent == 0 || sent == SIRMJOLD_REFUSED_FULL, "words are queued, or there is no room");
    struct sirmjold_payload p = opened(buf);
    if (l->waiting.kind == SIRMJOLD_ERROR)
        check(sirmjold_put_retransmit_error(&p, l->waiting.reason, l->waiting.seq) == 0, "the error is written");
    l->waiting.kind = SIRMJOLD_QUEUED;
    write_data(l, &l->console, now, &p, carried);
    struct sirmjold_event e = sirmjold_poll(&l->chamber.stream, now);
    check(e.refusal == 0, "a poll");
    l->report.losses += e.kind == SIRMJOLD_DATA_LOSS;
    p = opened(buf);
    write_data(l, &l->chamber, now, &p, 1);
    l->report.steps++;
}

static void by_hand(struct link *l, uint32_t seed, uint32_t drop, uint16_t figure)
{
    struct sirmjold_load load = {seed}, line = {drop};
    start(l, &l->console);
    start(l, &l->chamber);
    for (uint64_t now = 0; now < STEPS; now++) {
        load = sirmjold_load_draw(load);
        line = sirmjold_load_draw(line);
        step(l, now, load, line.last % 256 >= figure);
    }
}

static struct sirmjold_report run(const struct link *l, uint32_t seed, uint32_t drop, uint16_t figure, uint32_t budget, uint32_t *ring,
                                  uint32_t *other)
{
    return sirmjold_link_try(&l->settings, WINDOW, PLACES, seed, drop, figure, budget, ring, other, RING);
}

static void refused(uint32_t seed, uint32_t drop)
{
    struct link l = {.settings = SIRMJOLD_DEFAULTS};
    uint32_t ring[RING], other[RING], before[RING], cfg[SIRMJOLD_SETTINGS_WORDS];
    sirmjold_settings_words(&l.settings, cfg);
    memset(before, 0xA5, sizeof before);
    memcpy(ring, before, sizeof before);
    memcpy(other, before, sizeof before);
    struct sirmjold_report r = run(&l, seed, drop, 13, 65537, ring, other);
    check(r.refusal == SIRMJOLD_REFUSED_SIZE_NOT_ALLOWED && r.steps == 0, "12 for a budget of 65,537");
    r = sirmjold_link_run(cfg, SIRMJOLD_SETTINGS_WORDS, WINDOW, PLACES, seed, drop, 13, 1, ring, RING, other, RING - 1);
    check(r.refusal == SIRMJOLD_REFUSED_SIZE_NOT_ALLOWED, "12 for histories of two lengths");
    r = sirmjold_link_run(cfg, 7, WINDOW, PLACES, seed, drop, 13, 1, ring, RING, other, RING);
    check(r.refusal == SIRMJOLD_REFUSED_INVALID_STATE, "13 for seven settings");
    l.settings.idle_interval_ms = 0;
    check(run(&l, seed, drop, 13, 65537, ring, other).refusal == SIRMJOLD_REFUSED_IDLE_INTERVAL, "7 for T1 0 comes first");
    check(memcmp(ring, before, sizeof before) == 0 && memcmp(other, before, sizeof before) == 0, "a refused run changes nothing");
}

int main(int argc, char **argv)
{
    static const uint16_t figures[] = {0, 13, 64, 128, 200};
    uint32_t seed = argc > 1 ? (uint32_t)strtoul(argv[1], NULL, 10) : 1, drop = argc > 2 ? (uint32_t)strtoul(argv[2], NULL, 10) : 2;
    printf("%d steps, seeds %" PRIu32 " and %" PRIu32 ": commands handed on, losses reported\n  dropped of 256:", STEPS, seed, drop);
    for (size_t f = 0; f < sizeof figures / sizeof *figures; f++)
        printf("%11u", figures[f]);
    for (uint32_t repeats = 0; repeats <= 2; repeats++)
        for (uint32_t requests = 0; requests <= 1; requests++) {
            printf("\n  R %" PRIu32 ", %s", repeats, requests ? "requests   " : "no requests");
            for (size_t f = 0; f < sizeof figures / sizeof *figures; f++) {
                struct link l = {.settings = SIRMJOLD_DEFAULTS};
                l.settings.fec_repeats = repeats;
                l.settings.retransmit = requests;
                uint32_t ring[RING] = {0}, other[RING] = {0};
                struct sirmjold_report r = run(&l, seed, drop, figures[f], STEPS, ring, other);
                by_hand(&l, seed, drop, figures[f]);
                check(r.refusal == 0 && r.steps == l.report.steps && r.handed == l.report.handed && r.losses == l.report.losses,
                      "a run by hand counts the same");
                check(memcmp(ring, l.console.ring, sizeof ring) == 0 && memcmp(other, l.chamber.ring, sizeof other) == 0,
                      "and leaves the same histories");
                printf("%7" PRIu32 "%4" PRIu32, r.handed, r.losses);
            }
        }
    putchar('\n');
    refused(seed, drop);
    return 0;
}
