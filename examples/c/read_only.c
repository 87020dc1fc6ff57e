/* Calls of a receiver, a window and a payload that change nothing, refused ones among them, in memory that can only be read: a call
 * that stored a word there would end this program.
 *
 * Built and run by tools/run_c_example. */
#define _DEFAULT_SOURCE
#include <sirmjold.h>
#include <stdio.h>
#include <sys/mman.h>

#define RING 256
#define LIMIT 64

struct kept {
    struct sirmjold_stream stream;
    struct sirmjold_payload payload;
    uint64_t window[SIRMJOLD_WINDOW_WORDS];
    uint32_t history[RING];
    uint8_t bytes[LIMIT];
};

static const struct sirmjold_settings defaults = SIRMJOLD_DEFAULTS;
static int passed, failed;

static void check(int ok, const char *what)
{
    if (ok) {
        passed++;
    } else {
        failed++;
        printf("not so: %s\n", what);
    }
}

/* Numbers 0 and 2 are heard at 0, number 0 at the window, and a payload has room for one command more. */
static int prepare(struct kept *k)
{
    static const uint32_t note = 0x20903C40;
    return sirmjold_start(&k->stream, &defaults, 64, 4, k->history, RING) == 0 &&
           sirmjold_on_ump_data(&k->stream, 0, 0).refusal == 0 && sirmjold_on_ump_data(&k->stream, 0, 2).skipped == 1 &&
           sirmjold_window_starting_at(k->window, SIRMJOLD_WINDOW_WORDS, 64, 65535) == 0 &&
           sirmjold_window_accept(k->window, SIRMJOLD_WINDOW_WORDS, 0).refusal == 0 &&
           sirmjold_payload_open(&k->payload, k->bytes, 16) == 0 && sirmjold_put_ump_data(&k->payload, 0, &note, 1) == 0;
}

static void receiving(struct kept *k)
{
    static const uint8_t again[] = {0x4D, 0x49, 0x44, 0x49, 0xFF, 0, 0, 0, 0xFF, 0, 0, 2};
    uint64_t heard[SIRMJOLD_ANSWER_WORDS * 2];
    check(sirmjold_poll(&k->stream, 9).kind == 0, "nothing is due at 9");
    check(sirmjold_on_ump_data(&k->stream, 9, 0).class_ == SIRMJOLD_DUPLICATE, "0 was heard");
    check(sirmjold_on_ump_data(&k->stream, 9, 2).class_ == SIRMJOLD_DUPLICATE, "2 was heard");
    check(sirmjold_hear(&k->stream, 9, again, sizeof again, 0, heard, SIRMJOLD_ANSWER_WORDS * 2).count == 2, "a payload with both again");
    check(sirmjold_write_request(&k->stream, &k->payload).kind == 0, "no request to write");
    check(sirmjold_window_accept(k->window, SIRMJOLD_WINDOW_WORDS, 0).class_ == SIRMJOLD_DUPLICATE, "0 was accepted");
}

static void asking(struct kept *k)
{
    check(sirmjold_next_deadline(&k->stream).kind == 1, "a deadline");
    check(sirmjold_wants_write(&k->stream, 9).wants == 0, "nothing to write");
}

static void writing(struct kept *k)
{
    check(sirmjold_put_ump_data(&k->payload, 1, k->history, 1) == 2, "a command that does not fit any more");
    check(sirmjold_put_ump_data(&k->payload, 1, k->history, 65) == 5, "more words than a command has");
    check(sirmjold_put_retransmit_error(&k->payload, 2, 0) == 11, "a reason that is not defined");
}

static void refused(struct kept *k)
{
    uint32_t bad[SIRMJOLD_SETTINGS_WORDS];
    sirmjold_settings_words(&defaults, bad);
    bad[7] = 0;
    check(sirmjold_stream_poll(k->stream.words, SIRMJOLD_STREAM_WORDS, bad, SIRMJOLD_SETTINGS_WORDS, 99).refusal == 9, "settings");
    check(sirmjold_start(&k->stream, &defaults, 129, 4, k->history, RING) == 12, "a start of a window of 129");
}

int main(void)
{
    const size_t size = (sizeof(struct kept) + 4095) / 4096 * 4096;
    struct kept *k = mmap(NULL, size, PROT_READ | PROT_WRITE, MAP_PRIVATE | MAP_ANONYMOUS, -1, 0);
    if (k == MAP_FAILED || !prepare(k) || mprotect(k, size, PROT_READ) != 0) {
        perror("read_only");
        return 2;
    }
    receiving(k);
    asking(k);
    writing(k);
    refused(k);
    printf("%d calls stored nothing, %d were answered otherwise\n", passed, failed);
    return failed != 0;
}
