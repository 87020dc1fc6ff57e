/* The first program: a console plays a note, its payload reaches a chamber, and the chamber says which
 * pipes sound. What a board adds is a clock, and a socket in place of the call of `arrive`.
 *
 * Built and run by tools/run_c_example. */
#include <sirmjold.h>
#include <stdio.h>
#include <stdlib.h>

#define HISTORY 256 /* words */
#define WINDOW 64
#define PLACES 4
#define LIMIT 1400 /* bytes of a payload */

static const struct sirmjold_settings settings = SIRMJOLD_DEFAULTS;
static struct sirmjold_stream console, chamber;
static uint32_t console_history[HISTORY], chamber_history[HISTORY];
static struct sirmjold_held held;

/* Ends the program where a call is refused. */
static void check(uint8_t refusal)
{
    if (refusal != SIRMJOLD_OK) {
        fprintf(stderr, "refused: %s (%d)\n", sirmjold_refusal_text(refusal), refusal);
        exit(1);
    }
}

/* A payload arrives at the chamber. */
static void arrive(uint64_t now, const uint8_t *payload, size_t len)
{
    struct sirmjold_reader reader;
    struct sirmjold_read command;
    sirmjold_reader_open(&reader, payload, len);
    while ((command = sirmjold_reader_next(&reader)).next != 0) {
        if (command.kind != SIRMJOLD_READ_UMP_DATA)
            continue;
        struct sirmjold_delivery delivery = sirmjold_on_ump_data(&chamber, now, command.seq);
        check(delivery.refusal);
        held = sirmjold_held_heard(held, delivery, &reader).state;
        printf("%s, %d words, note 60 %s\n", delivery.class_ == SIRMJOLD_DUPLICATE ? "heard again" : "new", command.count,
               held.held[0] >> 60 & 1 ? "sounds" : "is silent");
    }
}

/* The console plays: what is queued is written and sent. */
static void play(uint64_t now, uint32_t word)
{
    struct sirmjold_payload payload;
    uint8_t buf[LIMIT];
    check(sirmjold_payload_open(&payload, buf, sizeof buf));
    check(sirmjold_send_and_write(&console, now, &word, 1, &payload).refusal);
    arrive(now, buf, sirmjold_payload_length(&payload));
}

int main(void)
{
    check(sirmjold_start(&console, &settings, WINDOW, PLACES, console_history, HISTORY));
    check(sirmjold_start(&chamber, &settings, WINDOW, PLACES, chamber_history, HISTORY));
    held = sirmjold_held_start(0).state;
    play(0, 0x20903C40);  /* note 60 on */
    play(50, 0x20803C00); /* and off; its payload repeats the first command */
    return 0;
}
