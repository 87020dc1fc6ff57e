/* 01's session cases, but for the program `arrivals`, and one of each refusal. Every function of streams, payloads,
 * readers and windows is called, those over arrays also with lengths that are wrong.
 *
 * Built and run by tools/run_c_example. */
#include <sirmjold.h>
#include <stdio.h>
#include <string.h>

#define S SIRMJOLD_STREAM_WORDS
#define P SIRMJOLD_PAYLOAD_WORDS
#define W SIRMJOLD_WINDOW_WORDS
#define C SIRMJOLD_SETTINGS_WORDS
#define MOST SIRMJOLD_COMMAND_WORDS_MAX
#define RING 256

static const struct sirmjold_settings defaults = SIRMJOLD_DEFAULTS;
static int passed, failed;

static void check(int ok, const char *what)
{
    if (ok) {
        passed++;
    } else {
        failed++;
        printf("not so: %s\n", what);
    }
}

static int is(struct sirmjold_delivery d, int class_, int skipped, int first, int count)
{
    return d.refusal == 0 && d.class_ == class_ && d.skipped == skipped && d.lost_first == first &&
           d.lost_count == count;
}

static void windows(void)
{
    uint64_t w[W], bad[W] = {64, 65535, UINT64_MAX, 1};
    check(sirmjold_window_starting_at(w, W, 64, 65535) == 0, "a window of 64");
    check(is(sirmjold_window_accept(w, W, 0), SIRMJOLD_NEW, 0, 0, 0), "P1");
    check(is(sirmjold_window_accept(w, W, 0), SIRMJOLD_DUPLICATE, 0, 0, 0), "P2");
    sirmjold_window_starting_at(w, W, 64, 65535);
    check(is(sirmjold_window_accept(w, W, 0x7FFE), SIRMJOLD_NEW, 32766, 0, 32702), "P7");
    sirmjold_window_starting_at(w, W, 64, 65535);
    check(is(sirmjold_window_accept(w, W, 0x7FFF), SIRMJOLD_DUPLICATE, 0, 0, 0), "P8");
    check(sirmjold_window_starting_at(w, W, 4, 65535) == 0, "a window of 4");
    check(is(sirmjold_window_accept(w, W, 5), SIRMJOLD_NEW, 5, 0, 1), "P3");
    sirmjold_window_starting_at(w, W, 4, 65535);
    check(is(sirmjold_window_accept(w, W, 4), SIRMJOLD_NEW, 4, 0, 0), "P4");
    check(is(sirmjold_window_accept(w, W, 2), SIRMJOLD_LATE, 0, 0, 0), "P5");
    check(is(sirmjold_window_accept(w, W, 6), SIRMJOLD_NEW, 1, 0, 2), "P6");
    check(is(sirmjold_window_accept(w, W, 2), SIRMJOLD_DUPLICATE, 0, 0, 0), "2 was heard");
    check(is(sirmjold_window_accept(w, W, 3), SIRMJOLD_LATE, 0, 0, 0), "3 was not");
    check(sirmjold_window_starting_at(w, W, 129, 0) == 12, "a window of 129");
    check(sirmjold_window_accept(bad, W, 0).refusal == 13, "a position outside of the window");
    check(sirmjold_window_accept(w, W - 1, 0).refusal == 13, "three words");
}

static void payloads(void)
{
    static const uint8_t p9[] = {0x4D, 0x49, 0x44, 0x49, 0x80, 1, 1, 2, 0, 3, 0, 0};
    const uint32_t note[1] = {0x20903C40}, half[1] = {0x40903C00};
    struct sirmjold_payload p;
    uint64_t words[P] = {0, 12};
    uint8_t buf[64];
    memset(buf, 0xAA, sizeof buf);
    memset(&p, 0xAA, sizeof p);
    check(sirmjold_payload_open(&p, buf, 7) == 4 && p.words[0] == 0xAAAAAAAAAAAAAAAA && p.buf_len == 0xAAAAAAAAAAAAAAAA, "a limit of 7");
    check(sirmjold_retransmit_request_write(words, P, buf, 11, 0x0102, 3) == 3 && words[0] == 0 && buf[0] == 0xAA, "P9, limit 11");
    check(sirmjold_payload_open(&p, buf, 12) == 0 && sirmjold_payload_length(&p) == 0, "a limit of 12");
    check(sirmjold_put_retransmit_request(&p, 0x0102, 3) == 0, "P9");
    check(sirmjold_payload_length(&p) == 12 && memcmp(buf, p9, 12) == 0 && buf[12] == 0xAA, "P9, the bytes");
    check(sirmjold_put_command(&p, 0x20, 0, 0, note, 1) == 2, "no room left");
    sirmjold_payload_open(&p, buf, 64);
    check(sirmjold_put_retransmit_error(&p, 2, 0) == 11, "a reason that is not defined");
    check(sirmjold_put_ump_data(&p, 0, half, 1) == 5, "half a message");
    check(sirmjold_put_ump_data(&p, 0, note, 1) == 0 && sirmjold_payload_length(&p) == 12, "one message");
    check(sirmjold_put_command(&p, 0x20, 7, 8, note, 1) == 0 && sirmjold_payload_length(&p) == 20, "a raw command");
    check(sirmjold_put_retransmit_error(&p, 1, 5) == 0 && sirmjold_payload_length(&p) == 28, "an error");
    p.words[0] = 10;
    check(sirmjold_put_ump_data(&p, 0, note, 1) == 13, "a length that no call has left");
}

/* A payload made in one call, beside one that is opened and written. */
static void payloads_in_one_call(void)
{
    const uint32_t note[1] = {0x20903C40}, half[1] = {0x40903C00};
    uint8_t buf[16], other[16];
    struct sirmjold_payload p;
    memset(buf, 0xAA, sizeof buf);
    memset(other, 0xAA, sizeof other);
    struct sirmjold_made m = sirmjold_ump_data_payload(buf, sizeof buf, 7, 3, note, 1);
    check(m.refusal == 4 && m.len == 0, "in one call, a limit of 7");
    m = sirmjold_ump_data_payload(buf, sizeof buf, 16, 3, half, 1);
    check(m.refusal == 5 && m.len == 0, "in one call, half a message");
    m = sirmjold_ump_data_payload(buf, sizeof buf, 8, 3, note, 1);
    check(m.refusal == 3 && m.len == 0, "in one call, no room for the command");
    m = sirmjold_ump_data_payload(buf, 11, 1400, 3, note, 1);
    check(m.refusal == 3 && m.len == 0 && memcmp(buf, other, sizeof buf) == 0, "in one call, a buffer that is too short; no byte is changed");
    m = sirmjold_ump_data_payload(buf, sizeof buf, 16, 3, note, 1);
    sirmjold_payload_open(&p, other, sizeof other);
    check(sirmjold_put_ump_data(&p, 3, note, 1) == 0 && m.refusal == 0 && m.len == sirmjold_payload_length(&p) && memcmp(buf, other, sizeof buf) == 0,
          "in one call, the bytes of the two calls");
}

static void readings(void)
{
    static const uint8_t bytes[] = {0x4D, 0x49, 0x44, 0x49, 0xFF, 3,    1, 2,    0x20, 0x90, 0x3C, 0x40, 0x40, 0x90,
                                    0x3C, 0,    0xFF, 0,    0, 0, 0x80, 0, 0, 9, 0x20, 1,    7,    8,    0xDE, 0xAD,
                                    0xBE, 0xEF, 0x81, 1,    1, 0, 0,    5, 0, 0, 0xFF, 9,    0,    0};
    static const uint8_t cut[] = {0x4D, 0x49, 0x44, 0x49, 0xFF, 2, 0, 0, 0x20, 0x90, 0x3C, 0x40, 0x40, 0x90, 0x3C, 0};
    struct sirmjold_reader reader;
    size_t n = sizeof bytes;
    sirmjold_reader_open(&reader, bytes, n);
    struct sirmjold_read r = sirmjold_reader_next(&reader);
    check(r.refusal == 0 && r.kind == SIRMJOLD_READ_UMP_DATA && r.seq == 0x0102 && r.len == 3 && r.next == 20, "data");
    check(r.count == 3 && reader.words[0] == 0x20903C40 && reader.words[2] == 0xFF000000 && reader.lens[0] == 1 && reader.lens[1] == 2,
          "its messages");
    check(reader.body == bytes + 8 && reader.body_len == 12, "its bytes");
    r = sirmjold_reader_next(&reader);
    check(r.refusal == 10 && r.next == 24, "a request without its word, and reading goes on");
    r = sirmjold_reader_next(&reader);
    check(r.kind == SIRMJOLD_READ_RAW && r.code == 0x20 && r.seq == 0x0708 && reader.words[0] == 0xDEADBEEF, "another code");
    r = sirmjold_reader_next(&reader);
    check(r.kind == SIRMJOLD_READ_ERROR && r.code == 1 && r.seq == 5, "an error");
    r = sirmjold_reader_next(&reader);
    check(r.kind == SIRMJOLD_READ_TRUNCATED && r.code == 0xFF && r.len == 9 && r.next == 0, "a cut command");
    r = sirmjold_reader_next(&reader);
    check(r.refusal == 0 && r.kind == SIRMJOLD_READ_END && reader.body == bytes + n && reader.body_len == 0, "the end");
    check(sirmjold_reader_next(&reader).kind == SIRMJOLD_READ_END, "the end stays the end");
    sirmjold_reader_open(&reader, bytes + 4, n - 4);
    check(sirmjold_reader_next(&reader).refusal == 1, "no signature");
    check(sirmjold_reader_next(&reader).kind == SIRMJOLD_READ_END, "then none is read");
    check(sirmjold_command_next(bytes, n, 0, reader.words, MOST - 1, reader.lens, MOST).refusal == 13, "254 words");
    sirmjold_reader_open(&reader, bytes, 16);
    check(sirmjold_reader_next(&reader).kind == SIRMJOLD_READ_TRUNCATED, "cut in its last word");
    sirmjold_reader_open(&reader, cut, sizeof cut);
    r = sirmjold_reader_next(&reader);
    check(r.kind == SIRMJOLD_READ_UMP_DATA && r.len == 2 && r.count == 1 && reader.lens[0] == 1, "words that end inside a message");
}

/* A stream, its history, and a payload of up to 1400 bytes. */
struct end {
    struct sirmjold_stream stream;
    uint32_t ring[RING];
    struct sirmjold_payload payload;
    uint8_t buf[1400];
};

static void fresh(struct end *e)
{
    check(sirmjold_start(&e->stream, &defaults, 64, 4, e->ring, RING) == 0, "a fresh stream");
}

/* A write into an empty payload of at most `max` bytes. */
static struct sirmjold_written written(struct end *e, uint64_t time, size_t max)
{
    check(sirmjold_payload_open(&e->payload, e->buf, max) == 0, "an empty payload");
    return sirmjold_write_data(&e->stream, time, &e->payload);
}

/* Queues a word and writes it; how many bytes the payload has. */
static size_t played(struct end *e, uint32_t word, uint64_t time, size_t max)
{
    check(sirmjold_send_ump(&e->stream, &word, 1) == 0, "a word is queued");
    check(written(e, time, max).refusal == 0, "it is written");
    return sirmjold_payload_length(&e->payload);
}

/* Figures of timers and of a request that are not there, words that are not used yet, and flags that are none, by word and bit. */
static const unsigned unused[][2] = {{2, 0}, {3, 63}, {4, 0}, {5, 32}, {5, 48}, {6, 0}, {6, 12}, {6, 63},
                                     {9, 32}, {9, 57}, {9, 63}, {10, 0}, {11, 0}};

static void streams(void)
{
    static const uint8_t p11[] = {0x4D, 0x49, 0x44, 0x49, 0xFF, 1, 0, 0, 0x20, 0x90, 0x3C, 0x40,
                                  0xFF, 1,    0,    1,    0x20, 0x80, 0x3C, 0};
    const uint32_t on[1] = {0x20903C40};
    static struct end e;
    struct sirmjold_stream *s = &e.stream;
    sirmjold_change_settings(s, &defaults);
    check(sirmjold_poll(s, 0).refusal == 13, "a stream that was not started");
    fresh(&e);
    check(sirmjold_send_ump(s, on, 1) == 0, "P10, the word");
    check(sirmjold_wants_write(s, 1000).wants == 1, "P10, something to write");
    struct sirmjold_written w = written(&e, 1000, 1400);
    check(w.commands == 1 && w.more == 0 && sirmjold_payload_length(&e.payload) == 12 && memcmp(e.buf, p11, 12) == 0, "P10");
    check(sirmjold_next_deadline(s).time == 1100, "P10, the idle command");
    check(played(&e, 0x20803C00, 1050, 1400) == 20 && memcmp(e.buf, p11, 20) == 0, "P11");
    check(sirmjold_on_retransmit_request(s, 1, 1).kind == SIRMJOLD_QUEUED, "a request");
    check(sirmjold_on_retransmit_request(s, 1, 1).kind == SIRMJOLD_PENDING, "again");
    struct sirmjold_outcome o = sirmjold_on_retransmit_request(s, 9, 1);
    check(o.kind == SIRMJOLD_ERROR && o.reason == 1 && o.seq == 0, "a request for what is not held");
    check(is(sirmjold_on_ump_data(s, 0, 0), SIRMJOLD_NEW, 0, 0, 0), "0 arrives");
    check(is(sirmjold_on_ump_data(s, 0, 2), SIRMJOLD_NEW, 1, 0, 0), "2 arrives");
    sirmjold_payload_open(&e.payload, e.buf, 1400);
    check(sirmjold_write_request(s, &e.payload).kind == SIRMJOLD_NOT_DUE, "no request yet");
    check(sirmjold_poll(s, 10).kind == SIRMJOLD_NOTHING, "the timer");
    check(sirmjold_write_request(s, &e.payload).kind == SIRMJOLD_WRITTEN && sirmjold_payload_length(&e.payload) == 12, "a request for 1");
    struct sirmjold_event v = sirmjold_on_retransmit_error(s, 1, 0);
    check(v.kind == SIRMJOLD_ERROR_LOSS && v.first == 1 && v.count == 1 && v.reason == 1, "1 is lost");
    check(sirmjold_on_retransmit_nak(s).kind == SIRMJOLD_NOTHING, "a NAK with nothing missing");
    check(sirmjold_reset(s) == 0 && e.ring[0] == 0, "a reset");
    check(sirmjold_wants_write(s, 9999).wants == 0, "nothing to write");
    s->history_len = RING - 1;
    check(sirmjold_send_ump(s, on, 1) == 13, "a history of another length");
    s->history_len = RING;
    for (size_t i = 0; i < sizeof unused / sizeof *unused; i++) {
        s->words[unused[i][0]] ^= (uint64_t)1 << unused[i][1];
        check(sirmjold_wants_write(s, 0).refusal == 13, "a bit that belongs to nothing");
        s->words[unused[i][0]] ^= (uint64_t)1 << unused[i][1];
    }
    check(sirmjold_wants_write(s, 0).refusal == 0, "without it");
}

/* A stream that runs: one word is queued. */
static struct end running, before;

static void run(void)
{
    const uint32_t on[1] = {0x20903C40};
    fresh(&running);
    check(sirmjold_send_ump(&running.stream, on, 1) == 0, "a word");
    before = running;
}

static int as_before(void)
{
    return memcmp(&running.stream, &before.stream, sizeof before.stream) == 0 && memcmp(running.ring, before.ring, sizeof before.ring) == 0;
}

/* A start of the running stream, with these settings and sizes, is refused with `number`, and stores nothing. */
static void not_started(uint8_t number, const struct sirmjold_settings *settings, uint32_t window, size_t places, size_t len, const char *what)
{
    check(sirmjold_start(&running.stream, settings, window, places, running.ring, len) == number && as_before(), what);
}

/* The stream that runs goes on where a start is refused. */
static void refused_starts(void)
{
    struct sirmjold_settings no_size = defaults, no_interval = defaults, long_interval = defaults, no_growth = defaults, wide = defaults;
    uint32_t cfg[C];
    no_size.max_command_words = no_interval.idle_interval_ms = no_growth.idle_growth = 0;
    long_interval.idle_interval_ms = 301;
    wide.idle_further = 256;
    run();
    not_started(9, &no_size, 64, 4, RING, "a start with SIZE 0");
    not_started(7, &no_interval, 64, 4, RING, "a start with T1 0");
    not_started(7, &long_interval, 64, 4, RING, "a start with T1 301");
    not_started(8, &no_growth, 64, 4, RING, "a start with G 0");
    not_started(13, &wide, 64, 4, RING, "a start with K 256");
    not_started(12, &defaults, 129, 4, RING, "a start with a window of 129");
    not_started(12, &defaults, 64, 17, RING, "a start with 17 places");
    not_started(12, &defaults, 64, 4, 64, "a start with 64 words of history");
    sirmjold_settings_words(&defaults, cfg);
    check(sirmjold_stream_new(running.stream.words, S, cfg, C - 1, 64, 4, running.ring, RING) == 13 && as_before(),
          "a start with seven settings");
    check(sirmjold_stream_new(running.stream.words, S - 1, cfg, C, 64, 4, running.ring, RING) == 13 && as_before(),
          "a start on a word too few");
    check(written(&running, 0, 1400).commands == 1, "the word is still to write");
}

/* Each function that is given settings, with these and with `n` words: it answers `number`, and nothing is
 * changed. */
static void all_answer(int number, const uint32_t *c, size_t c_len, size_t n, const char *what)
{
    const uint32_t off[1] = {0x20803C00};
    uint64_t *s = running.stream.words, p[P] = {0, 1400};
    uint32_t *ring = running.ring;
    uint8_t buf[64] = {0};
    check(sirmjold_stream_new(s, n, c, c_len, 64, 4, ring, RING) == number, what);
    check(sirmjold_stream_send_ump(s, n, c, c_len, ring, RING, off, 1) == number, what);
    check(sirmjold_stream_on_retransmit_request(s, n, c, c_len, ring, RING, 0, 1).refusal == number, what);
    check(sirmjold_stream_on_ump_data(s, n, c, c_len, 0, 0).refusal == number, what);
    check(sirmjold_stream_poll(s, n, c, c_len, 0).refusal == number, what);
    check(sirmjold_stream_write_request(s, n, c, c_len, p, P, buf, 64).refusal == number, what);
    check(sirmjold_stream_write_data(s, n, c, c_len, 0, p, P, buf, 64, ring, RING).refusal == number, what);
    struct sirmjold_sent_written w = sirmjold_stream_send_and_write(s, n, c, c_len, 0, off, 1, p, P, buf, 64, ring, RING);
    check(w.refusal == number && w.queued == 0, what);
    uint64_t heard[4] = {0};
    struct sirmjold_heard h = sirmjold_stream_hear(s, n, c, c_len, 0, ring, RING, buf, 64, 0, heard, 4);
    check(h.refusal == number && h.count == 0 && h.next == 0 && heard[0] == 0, what);
    check(as_before() && p[0] == 0 && p[1] == 1400 && buf[0] == 0, what);
}

/* Settings are tested before states: 9, 7, 8, then 13. */
static void orders(void)
{
    const uint32_t cfg[C] = SIRMJOLD_DEFAULTS, no_size[C] = {100, 2, 5, 2, 1, 10, 3, 0}, no_size_k[C] = {100, 2, 256, 2, 1, 10, 3, 0},
                   no_size_x[C] = {100, 2, 5, 2, 2, 10, 3, 0}, nothing[C] = {0, 0, 5, 2, 1, 10, 3, 0},
                   no_times[C] = {0, 0, 5, 2, 1, 10, 3, 64}, wide_m[C] = {100, 2, 5, 2, 1, 10, 256, 64};
    uint64_t *s = running.stream.words, p[P + 1] = {0, 1400, 0};
    uint8_t buf[64];
    run();
    all_answer(9, no_size, C, S, "SIZE 0");
    all_answer(9, no_size, C, S - 1, "SIZE 0, and a word too few");
    all_answer(9, no_size_k, C, S, "SIZE 0, and K 256");
    all_answer(9, no_size_x, C, S, "SIZE 0, and X 2");
    all_answer(9, nothing, C, S, "SIZE 0, T1 0 and G 0");
    all_answer(7, no_times, C, S, "T1 0 and G 0");
    all_answer(13, wide_m, C, S, "M 256");
    all_answer(13, no_size, C - 1, S, "seven settings");
    all_answer(13, cfg, C, S - 1, "a word too few");
    check(sirmjold_stream_write_request(s, S, no_size, C, p, P + 1, buf, 64).refusal == 9, "SIZE 0, and a payload of three words");
    check(sirmjold_stream_write_request(s, S, cfg, C, p, P + 1, buf, 64).refusal == 13 && as_before(), "a payload of three words");
    /* a flag that is none, of the receiver and of the sender */
    running.stream.words[6] ^= (uint64_t)1 << 12;
    running.stream.words[9] ^= (uint64_t)1 << 57;
    before = running;
    all_answer(9, no_size, C, S, "SIZE 0, and a flag that is none");
    check(sirmjold_poll(&running.stream, 0).refusal == 13 && as_before(), "a flag that is none");
}

/* The two kinds of number 3 of a write: by a due request nothing is changed, by a command of the sender the
 * payload is as it was. */
static void too_large(void)
{
    run();
    sirmjold_on_ump_data(&running.stream, 0, 1);
    sirmjold_poll(&running.stream, 10);
    before = running;
    memset(running.buf, 0, sizeof running.buf);
    check(written(&running, 0, 8).refusal == 3, "a write in 8 bytes");
    check(sirmjold_write_request(&running.stream, &running.payload).refusal == 3, "a request in 8 bytes");
    check(as_before() && running.payload.words[0] == 0 && running.payload.words[1] == 8 && running.buf[0] == 0, "nothing is changed");
    run();
    check(written(&running, 0, 8).refusal == 3, "a word in 8 bytes");
    check(running.payload.words[0] == 0 && running.payload.words[1] == 8 && running.buf[0] == 0, "the payload is as it was");
}

static void repeats(void)
{
    static const uint8_t p12[] = {0x4D, 0x49, 0x44, 0x49, 0xFF, 1, 0, 1, 0x20, 0x80, 0x3C, 0};
    static struct end e;
    fresh(&e);
    played(&e, 0x20903C40, 1000, 1400);
    check(played(&e, 0x20803C00, 1050, 16) == 12 && memcmp(e.buf, p12, 12) == 0, "P12");
}

/* Data written at 0, then a write at each due time. */
static void idles(void)
{
    static const uint64_t due[] = {100, 200, 300, 500, 900, 1700, 3300, 6500};
    static struct end e;
    fresh(&e);
    played(&e, 0x20903C40, 0, 1400);
    for (size_t i = 0; i < sizeof due / sizeof *due; i++) {
        struct sirmjold_deadline d = sirmjold_next_deadline(&e.stream);
        check(d.kind == 1 && d.time == due[i], "the next idle command");
        written(&e, d.time, 1400);
        check(memcmp(e.buf + sirmjold_payload_length(&e.payload) - 4, (uint8_t[]){0xFF, 0, 0, (uint8_t)(i + 1)}, 4) == 0,
              "it is the last of its payload");
    }
    check(sirmjold_next_deadline(&e.stream).kind == 0, "then none");
}

/* Two streams alike, with a payload each: one queues and writes in one call, the other in two. */
static struct end together, apart;

static void both_fresh(void)
{
    fresh(&together);
    apart.stream = together.stream;
    apart.stream.history = apart.ring;
    memcpy(apart.ring, together.ring, sizeof apart.ring);
    memset(together.buf, 0, sizeof together.buf);
    memset(apart.buf, 0, sizeof apart.buf);
}

/* The same words at the same time into payloads of at most `max` bytes: the answers agree, and all that was lent. */
static struct sirmjold_sent_written both_played(const uint32_t *words, size_t len, uint64_t time, size_t max)
{
    check(sirmjold_payload_open(&together.payload, together.buf, max) == 0 && sirmjold_payload_open(&apart.payload, apart.buf, max) == 0,
          "two empty payloads");
    struct sirmjold_sent_written w = sirmjold_send_and_write(&together.stream, time, words, len, &together.payload);
    struct sirmjold_written v = {0, 0, 0};
    uint8_t sent = sirmjold_send_ump(&apart.stream, words, len);
    if (sent == 0)
        v = sirmjold_write_data(&apart.stream, time, &apart.payload);
    check(w.queued == (sent == 0) && w.refusal == (sent != 0 ? sent : v.refusal) && w.commands == v.commands && w.more == v.more,
          "the answers of both calls");
    check(memcmp(together.stream.words, apart.stream.words, sizeof apart.stream.words) == 0, "the stream of both calls");
    check(memcmp(together.ring, apart.ring, sizeof apart.ring) == 0, "the history of both calls");
    check(memcmp(together.payload.words, apart.payload.words, sizeof apart.payload.words) == 0, "the payload of both calls");
    check(memcmp(together.buf, apart.buf, sizeof apart.buf) == 0, "the bytes of both calls");
    return w;
}

static void sent_and_written(void)
{
    const uint32_t on[1] = {0x20903C40}, half[1] = {0x40903C00};
    uint32_t many[RING];
    for (size_t i = 0; i < RING; i++)
        many[i] = 0x20903C40;
    both_fresh();
    struct sirmjold_sent_written w = both_played(on, 1, 1000, 1400);
    check(w.queued == 1 && w.refusal == 0 && w.commands == 1 && w.more == 0, "P10, in one call");
    w = both_played(half, 1, 1010, 1400);
    check(w.queued == 0 && w.refusal == 5 && w.commands == 0 && sirmjold_payload_length(&together.payload) == 0, "half a message: nothing is written");
    w = both_played(many, RING, 1020, 1400);
    check(w.queued == 0 && w.refusal == 6, "more words than the history has");
    w = both_played(on, 1, 1030, 8);
    check(w.queued == 1 && w.refusal == 3 && w.commands == 0, "a payload of 8 bytes: the word is queued");
    w = both_played(on, 0, 1040, 1400);
    check(w.queued == 1 && w.commands == 2 && w.more == 0, "no words: what was queued is written");
    for (size_t k = 0; k < 40; k++)
        w = both_played(many, 1 + k * 7 % 60, 1050 + k, k % 3 == 0 ? 264 : 1400);
    check(w.queued == 1, "the oldest have left the history");
    together.payload.words[0] = apart.payload.words[0] = 10;
    w = sirmjold_send_and_write(&together.stream, 2000, on, 1, &together.payload);
    check(w.queued == 1 && w.refusal == 13, "a payload that no call has left: the word is queued");
}

/* A payload with a data command, a request for a number that was never sent, an error, a command of another code, a request
 * without its word and a cut command: in one call, and in calls with room for one answer. */
static void heard_whole(void)
{
    static const uint8_t payload[] = {0x4D, 0x49, 0x44, 0x49, 0xFF, 1, 0, 1, 0x20, 0x90, 0x3C, 0x40, 0x80, 1, 0, 0, 0, 1, 0, 0,
                                      0x81, 1, 1, 0, 0, 7, 0, 0, 0x20, 0, 1, 2, 0x80, 0, 0, 3, 0xFF, 64, 0, 2};
    static uint64_t heard[SIRMJOLD_ANSWER_WORDS * SIRMJOLD_ANSWERS_MAX];
    uint64_t one[SIRMJOLD_ANSWER_WORDS];
    both_fresh();
    struct sirmjold_heard h = sirmjold_hear(&together.stream, 0, payload, sizeof payload, 0, heard, sizeof heard / sizeof *heard);
    check(h.refusal == 0 && h.next == 0 && h.count == 6, "six commands");
    struct sirmjold_answer a = sirmjold_heard_answer(heard, 0);
    check(a.place == 4 && a.kind == SIRMJOLD_READ_UMP_DATA && a.len == 1 && a.seq == 1 && is(a.delivery, SIRMJOLD_NEW, 1, 0, 0), "data, with 0 skipped");
    check(a.delivery.gap_first == 0 && a.delivery.gap_count == 1, "the gap");
    a = sirmjold_heard_answer(heard, 1);
    check(a.place == 12 && a.kind == SIRMJOLD_READ_REQUEST && a.seq == 0 && a.count == 1, "a request for number 0");
    check(a.outcome.kind == SIRMJOLD_ERROR && a.outcome.reason == 1 && a.outcome.seq == 0, "which is not in the history");
    a = sirmjold_heard_answer(heard, 2);
    check(a.place == 20 && a.kind == SIRMJOLD_READ_ERROR && a.code == 1 && a.seq == 7, "an error");
    check(a.event.kind == SIRMJOLD_RETRANSMIT_ERROR && a.event.reason == 1 && a.event.seq == 7 && a.event.count == 0, "by which nothing is lost");
    a = sirmjold_heard_answer(heard, 3);
    check(a.place == 28 && a.kind == SIRMJOLD_READ_RAW && a.code == 0x20 && a.len == 0 && a.seq == 0x102 && a.refusal == 0, "another code");
    a = sirmjold_heard_answer(heard, 4);
    check(a.place == 32 && a.kind == 0 && a.refusal == 10, "a request without its word");
    a = sirmjold_heard_answer(heard, 5);
    check(a.place == 36 && a.kind == SIRMJOLD_READ_TRUNCATED && a.code == 0xFF && a.len == 64 && a.seq == 2, "a cut command");
    size_t at = 0;
    for (size_t i = 0; i < 6; i++) {
        h = sirmjold_hear(&apart.stream, 0, payload, sizeof payload, at, one, SIRMJOLD_ANSWER_WORDS);
        check(h.refusal == 0 && h.count == 1 && memcmp(one, heard + SIRMJOLD_ANSWER_WORDS * i, sizeof one) == 0, "the same answer");
        check(h.next == (i < 5 ? sirmjold_heard_answer(heard, i + 1).place : 0), "the next command's place");
        at = h.next;
    }
    check(memcmp(together.stream.words, apart.stream.words, sizeof apart.stream.words) == 0, "the same stream");
    h = sirmjold_hear(&apart.stream, 0, payload, sizeof payload, sizeof payload + 1, one, SIRMJOLD_ANSWER_WORDS);
    check(h.refusal == 0 && h.count == 0 && h.next == 0, "a place beyond the payload");
    h = sirmjold_hear(&apart.stream, 0, payload, 3, 0, one, SIRMJOLD_ANSWER_WORDS);
    check(h.refusal == 1 && memcmp(together.stream.words, apart.stream.words, sizeof apart.stream.words) == 0, "three bytes");
}

/* Words for which the history has no room, and a message above the size. */
static void too_much(void)
{
    struct sirmjold_settings narrow = defaults;
    const uint32_t two[2] = {0x40903C00, 0xFF000000};
    uint32_t ones[64], ring[65];
    struct sirmjold_stream s;
    narrow.max_command_words = 1;
    for (size_t i = 0; i < 64; i++)
        ones[i] = 0x20903C40;
    check(sirmjold_start(&s, &defaults, 64, 4, ring, 65) == 0, "a history of 65 words");
    sirmjold_change_settings(&s, &narrow);
    check(sirmjold_send_ump(&s, two, 2) == 3, "a message above the size");
    sirmjold_change_settings(&s, &defaults);
    check(sirmjold_send_ump(&s, ones, 64) == 0, "64 words and a header");
    check(sirmjold_send_ump(&s, ones, 1) == 6, "no room for one more");
}

/* The sender alone is reset: its next command has a number that was heard, and is not handed on, though
 * nothing is lost or missing. With both ends reset it is. */
static void resets(void)
{
    static struct end console, chamber;
    struct sirmjold_reader reader;
    fresh(&console);
    fresh(&chamber);
    for (int resets = 0; resets < 3; resets++) {
        if (resets > 0)
            check(sirmjold_reset(&console.stream) == 0, "the sender is reset");
        if (resets > 1)
            check(sirmjold_reset(&chamber.stream) == 0, "the receiver is reset");
        sirmjold_reader_open(&reader, console.buf, played(&console, 0x20903C40, 0, 1400));
        struct sirmjold_read r = sirmjold_reader_next(&reader);
        check(is(sirmjold_on_ump_data(&chamber.stream, 0, r.seq), resets == 1 ? SIRMJOLD_DUPLICATE : SIRMJOLD_NEW, 0, 0, 0),
              "new, but where the sender alone was reset");
        check(sirmjold_next_deadline(&chamber.stream).kind == 0, "nothing is missing");
    }
}

/* A text for each number that a call can answer, and one for all others. */
static void texts(void)
{
    const char *none = sirmjold_refusal_text(255);
    int named = 0;
    for (int number = 0; number < 256; number++)
        named += strcmp(sirmjold_refusal_text((uint8_t)number), none) != 0;
    check(named == 17, "16 refusals and 0 have texts");
    check(strcmp(sirmjold_refusal_text(SIRMJOLD_REFUSED_FULL), "the send history has no room") == 0, "the text of 6");
}

int main(void)
{
    windows();
    payloads();
    payloads_in_one_call();
    readings();
    streams();
    repeats();
    idles();
    sent_and_written();
    heard_whole();
    too_much();
    resets();
    refused_starts();
    orders();
    too_large();
    texts();
    printf("%d cases hold, %d do not\n", passed, failed);
    return failed != 0;
}
