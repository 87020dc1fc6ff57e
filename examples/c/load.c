/* A seed's load, played into a stream and read back: what each value asks to send is queued, a payload is
 * written in each step and arrives, and the words handed on are counted. Then the same load is made again, from
 * a place in its middle.
 *
 * Built and run by tools/run_c_example; takes the seed as an argument, in decimal. */
#include <inttypes.h>
#include <sirmjold.h>
#include <stdio.h>
#include <stdlib.h>

#define STEPS 65536
#define RING 256
#define WINDOW 64
#define PLACES 4
#define LIMIT 1400

static const struct sirmjold_settings settings = SIRMJOLD_DEFAULTS;
static struct sirmjold_stream console, chamber;
static uint32_t console_ring[RING], chamber_ring[RING];

static void check(int ok, const char *what, unsigned step)
{
    if (!ok) {
        fprintf(stderr, "not so: %s (step %u)\n", what, step);
        exit(1);
    }
}

/* The chamber hears a payload: the words that it hands on, each of them the load's. */
static unsigned heard(uint64_t now, const uint8_t *payload, size_t len)
{
    struct sirmjold_reader reader;
    struct sirmjold_read r;
    unsigned handed = 0;
    sirmjold_reader_open(&reader, payload, len);
    while ((r = sirmjold_reader_next(&reader)).next != 0) {
        check(r.kind == SIRMJOLD_READ_UMP_DATA, "a data command", (unsigned)now);
        struct sirmjold_delivery d = sirmjold_on_ump_data(&chamber, now, r.seq);
        check(d.refusal == 0 && d.lost_count == 0, "a delivery without loss", (unsigned)now);
        if (d.class_ == SIRMJOLD_DUPLICATE)
            continue;
        for (unsigned k = 0; k < r.count; k++)
            check(reader.words[k] == 0x20903C40, "the load's word", (unsigned)now);
        handed += r.count;
    }
    check(r.refusal == 0 && r.kind == SIRMJOLD_READ_END, "a payload that is read to its end", (unsigned)now);
    return handed;
}

/* One step: the value's words are queued, and what the console writes arrives. */
static unsigned step(uint64_t now, const struct sirmjold_asked *asked)
{
    struct sirmjold_payload payload;
    uint8_t buf[LIMIT];
    check(sirmjold_send_ump(&console, asked->words, asked->count) == 0, "the words are queued", (unsigned)now);
    check(sirmjold_payload_open(&payload, buf, LIMIT) == 0, "a payload", (unsigned)now);
    struct sirmjold_written w = sirmjold_write_data(&console, now, &payload);
    check(w.refusal == 0, "a write", (unsigned)now);
    return w.commands ? heard(now, buf, sirmjold_payload_length(&payload)) : 0;
}

int main(int argc, char **argv)
{
    struct sirmjold_load seed = {argc > 1 ? (uint32_t)strtoul(argv[1], NULL, 10) : 1}, load = seed;
    unsigned sends = 0, words = 0, handed = 0;
    check(sirmjold_start(&console, &settings, WINDOW, PLACES, console_ring, RING) == 0, "a console", 0);
    check(sirmjold_start(&chamber, &settings, WINDOW, PLACES, chamber_ring, RING) == 0, "a chamber", 0);
    for (unsigned k = 1; k <= STEPS; k++) {
        load = sirmjold_load_draw(load);
        struct sirmjold_asked asked = sirmjold_load_words(load);
        sends += asked.count != 0;
        words += (unsigned)asked.count;
        handed += step(k, &asked);
        if (k < STEPS) {
            struct sirmjold_jumped again = sirmjold_load_jump(seed, (uint16_t)k);
            check(again.load.last == load.last && again.rounds <= 16, "the jump leads there too", k);
        }
    }
    check(handed == words, "each word is handed on once", STEPS);
    printf("seed %" PRIu32 ": %d draws, %u of them send %u words, all handed on; the last value is %08" PRIX32 "\n", seed.last, STEPS, sends,
           words, load.last);
    return 0;
}
