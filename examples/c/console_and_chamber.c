/* A console plays notes to a chamber over a line that loses, doubles and delays payloads. Both are
 * streams of the library; at the end each change that was played, a note-on or a note-off, was handed
 * on once, or its command's number lies in a reported loss.
 *
 * So that no pipe sounds on, the chamber tells the library what its stream answered, which says which
 * notes are held: a late command releases notes and never holds one, since its release may already
 * have come; a reported loss releases all held notes.
 *
 * Built and run by tools/run_c_example; takes the generator's seed as an argument.
 */
#include <inttypes.h>
#include <stdio.h>
#include <stdlib.h>
#include <string.h>

#include "sirmjold.h"

#define CHANGES 400 /* note-ons and note-offs by turns */
#define KEYS 61
#define RING 65 /* words of the send history: 32 commands of one word */
#define OUT_FROM 700 /* ms at which the line goes dead, and comes back */
#define OUT_TO 1000
#define WINDOW 64
#define PLACES 16
#define LIMIT 1400
#define FLIGHT 64 /* payloads on the way at once */

static const struct sirmjold_settings settings = SIRMJOLD_DEFAULTS;

struct end {
    struct sirmjold_stream stream;
    uint32_t ring[RING];
};

struct flying {
    int used;
    int to_chamber;
    uint64_t due;
    size_t len;
    uint8_t bytes[LIMIT];
};

static struct end console, chamber;
static struct flying line[FLIGHT];
static uint32_t random_state;
static unsigned handed[CHANGES];   /* how often each change was handed on */
static uint8_t lost[65536];        /* numbers in a reported loss */
static struct sirmjold_held held;  /* the notes whose pipes sound */
static unsigned sent_payloads, dropped_payloads, doubled_payloads, losses;
static unsigned notes_held, late_ons, let_go;

static void fail(const char *what, unsigned n)
{
    fprintf(stderr, "failed: %s (%u)\n", what, n);
    exit(1);
}

/* A generator of 32 bits (xorshift). */
static uint32_t next_random(void)
{
    random_state ^= random_state << 13;
    random_state ^= random_state >> 17;
    random_state ^= random_state << 5;
    return random_state;
}

static void put(int to_chamber, uint64_t now, const uint8_t *bytes, size_t len)
{
    unsigned copies = 1;
    uint32_t r = next_random() % 100;
    sent_payloads++;
    if (r < 25 || (now >= OUT_FROM && now < OUT_TO)) {
        dropped_payloads++;
        copies = 0;
    } else if (r < 35) {
        doubled_payloads++;
        copies = 2;
    }
    for (size_t i = 0; i < FLIGHT && copies; i++) {
        if (!line[i].used) {
            line[i].used = 1;
            line[i].to_chamber = to_chamber;
            line[i].due = now + 1 + next_random() % 8;
            line[i].len = len;
            memcpy(line[i].bytes, bytes, len);
            copies--;
        }
    }
}

/* The change with this number, a MIDI 1.0 message of one word: each note-off follows its note-on. */
static uint32_t change(unsigned n)
{
    uint32_t key = 36 + n / 2 % KEYS;
    return n % 2 ? 0x20800000u | key << 8 : 0x20900040u | key << 8;
}

/* How many notes are held: those that a restart would give. */
static unsigned sounding(void)
{
    return (unsigned)sirmjold_held_restarted(held).notes.count;
}

/* What is held now; the notes that are given, on a loss, are silenced. */
static void keep(struct sirmjold_given given)
{
    if (given.refusal)
        fail("held notes", given.refusal);
    held = given.state;
    let_go += (unsigned)given.notes.count;
}

/* A loss: its numbers. */
static void report(uint16_t first, uint16_t count)
{
    losses += count != 0;
    for (unsigned k = 0; k < count; k++)
        lost[(uint16_t)(first + k)] = 1;
}

/* The chamber hands on the messages of a data command. */
static void hand_on(const struct sirmjold_reader *r, size_t count, uint16_t seq, int late)
{
    for (size_t at = 0, k = 0; at < count; at += r->lens[k++]) {
        if (seq >= CHANGES || r->words[at] != change(seq))
            fail("a change in another command than its own", seq);
        handed[seq]++;
        if (seq % 2 == 0)
            *(late ? &late_ons : &notes_held) += 1;
    }
}

static void error_back(uint64_t now, uint8_t reason, uint16_t seq)
{
    struct sirmjold_payload p;
    uint8_t buf[LIMIT];
    if (sirmjold_payload_open(&p, buf, sizeof buf) || sirmjold_put_retransmit_error(&p, reason, seq))
        fail("writing an error", seq);
    put(1, now, buf, sirmjold_payload_length(&p));
}

static void arrive(struct flying *f, uint64_t now)
{
    struct sirmjold_stream *s = f->to_chamber ? &chamber.stream : &console.stream;
    struct sirmjold_reader reader;
    sirmjold_reader_open(&reader, f->bytes, f->len);
    for (;;) {
        struct sirmjold_read c = sirmjold_reader_next(&reader);
        if (c.refusal)
            fail("a payload that cannot be read", c.refusal);
        if (c.next == 0)
            return;
        if (c.kind == SIRMJOLD_READ_UMP_DATA) {
            struct sirmjold_delivery d = sirmjold_on_ump_data(s, now, c.seq);
            if (d.refusal)
                fail("on_ump_data", d.refusal);
            keep(sirmjold_held_heard(held, d, &reader));
            report(d.lost_first, d.lost_count);
            if (d.class_ != SIRMJOLD_DUPLICATE)
                hand_on(&reader, c.count, c.seq, d.class_ == SIRMJOLD_LATE);
        } else if (c.kind == SIRMJOLD_READ_REQUEST) {
            struct sirmjold_outcome o = sirmjold_on_retransmit_request(s, c.seq, c.count);
            if (o.refusal)
                fail("on_retransmit_request", o.refusal);
            if (o.kind == SIRMJOLD_ERROR)
                error_back(now, o.reason, o.seq);
        } else if (c.kind == SIRMJOLD_READ_ERROR) {
            struct sirmjold_event v = sirmjold_on_retransmit_error(s, c.code, c.seq);
            if (v.refusal)
                fail("on_retransmit_error", v.refusal);
            keep(sirmjold_held_told(held, v.kind));
            report(v.first, v.count);
        }
    }
}

/* Writes what an end has to write, payload by payload. */
static void flush(struct end *e, int to_chamber, uint64_t now)
{
    for (;;) {
        struct sirmjold_payload p;
        uint8_t buf[LIMIT];
        if (!sirmjold_wants_write(&e->stream, now).wants)
            return;
        if (sirmjold_payload_open(&p, buf, sizeof buf))
            fail("payload_open", 0);
        struct sirmjold_written w = sirmjold_write_data(&e->stream, now, &p);
        if (w.refusal)
            fail("write_data", w.refusal);
        if (w.commands)
            put(to_chamber, now, buf, sirmjold_payload_length(&p));
        if (!w.more)
            return;
    }
}

static void start(struct end *e)
{
    uint8_t n = sirmjold_start(&e->stream, &settings, WINDOW, PLACES, e->ring, RING);
    if (n)
        fail(sirmjold_refusal_text(n), n);
}

/* Words that no call has left are refused, and nothing is changed. */
static void refusals(void)
{
    struct end e = console;
    struct sirmjold_settings other = settings;
    uint32_t word = 0x20000000u;
    e.stream.history = e.ring;
    struct end before = e;
    other.idle_further = 256;
    sirmjold_change_settings(&e.stream, &other);
    if (sirmjold_send_ump(&e.stream, &word, 1) != SIRMJOLD_REFUSED_INVALID_STATE)
        fail("settings that do not fit", 256);
    other.idle_further = 5;
    other.max_command_words = 65;
    sirmjold_change_settings(&e.stream, &other);
    if (sirmjold_send_ump(&e.stream, &word, 1) != SIRMJOLD_REFUSED_COMMAND_WORDS)
        fail("a command size that is not taken", 65);
    sirmjold_change_settings(&e.stream, &settings);
    if (sirmjold_stream_reset(e.stream.words, SIRMJOLD_STREAM_WORDS - 1, e.ring, RING) != SIRMJOLD_REFUSED_INVALID_STATE)
        fail("a state that is too short", SIRMJOLD_STREAM_WORDS - 1);
    if (memcmp(&e, &before, sizeof e))
        fail("a refused call changed something", 0);
    for (size_t k = 0; k < SIRMJOLD_STREAM_WORDS; k++) {
        e.stream.words[k] = UINT64_MAX;
        uint8_t n = sirmjold_send_ump(&e.stream, &word, 1);
        if (n && n != SIRMJOLD_REFUSED_INVALID_STATE)
            fail("a broken state is refused by another number", n);
        if (n && e.stream.words[k] != UINT64_MAX)
            fail("a refused call changed a word", (unsigned)k);
        e = before;
    }
}

int main(int argc, char **argv)
{
    uint32_t seed = argc > 1 ? (uint32_t)strtoul(argv[1], NULL, 0) : 2463534242u;
    unsigned played = 0, on = 0, in_loss = 0;
    random_state = seed ? seed : 1;
    printf("seed %" PRIu32 "\n", seed);
    start(&console);
    start(&chamber);
    keep(sirmjold_held_start(0));
    refusals();

    for (uint64_t now = 0; now < 6000; now++) {
        if (played < CHANGES && now % 5 == 0) {
            uint32_t word = change(played);
            /* each change is written before the next is played: its command has its number */
            if (sirmjold_send_ump(&console.stream, &word, 1))
                fail("send_ump", played);
            played++;
        }
        struct sirmjold_event v = sirmjold_poll(&chamber.stream, now);
        if (v.refusal)
            fail("poll", v.refusal);
        keep(sirmjold_held_told(held, v.kind));
        report(v.first, v.count);
        flush(&console, 1, now);
        flush(&chamber, 0, now);
        for (size_t i = 0; i < FLIGHT; i++) {
            if (line[i].used && line[i].due <= now) {
                arrive(&line[i], now);
                line[i].used = 0;
            }
        }
    }

    for (unsigned n = 0; n < CHANGES; n++) {
        if (handed[n] > 1)
            fail("a change was handed on twice", n);
        if (handed[n] == 1)
            on++;
        else if (lost[(uint16_t)n])
            in_loss++;
        else
            fail("a change was neither handed on nor reported lost", n);
    }
    if (sounding())
        fail("pipes sound on", sounding());
    printf("payloads %u, lost on the line %u, doubled %u\n", sent_payloads, dropped_payloads,
           doubled_payloads);
    printf("changes played %u, handed on %u, in a reported loss %u (%u reports)\n", played, on,
           in_loss, losses);
    printf("notes held %u, late and not held %u, released by a loss %u, sounding at the end %u\n",
           notes_held, late_ons, let_go, sounding());
    return 0;
}
