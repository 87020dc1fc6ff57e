/* A chamber over UDP: hears what a console plays, asks for what is missing, keeps its pipes by the rule for a chamber of
 * docs/CONTRACT.md, and ends after a silence. Built and run, with console.c, by tools/run_udp_example. */
#include "end.h"

#define NOTES 2048 /* 16 channels of 128 */

static struct sirmjold_held held;
static bool sounds[NOTES]; /* the pipes whose valve is open */
static unsigned heard[3];  /* commands, by class */
static unsigned losses;

/* Opens or closes a pipe's valve. */
static void valve(unsigned note, bool open)
{
    sounds[note] = open;
}

static bool is_held(unsigned note)
{
    return held.held[note / 64] >> note % 64 & 1;
}

/* The notes that are given are silenced, even those that the same command holds again; then what is held sounds. */
static void sound(struct sirmjold_given given)
{
    check(given.refusal == SIRMJOLD_OK, "held notes");
    held = given.state;
    for (size_t k = 0; k < given.notes.count; k++)
        valve(given.notes.items[k], false);
    for (unsigned note = 0; note < NOTES; note++)
        if (sounds[note] != is_held(note))
            valve(note, is_held(note));
}

/* A loss goes into the books; the notes that it gives back are silenced by `sound`. */
static void lost(struct end *e, uint16_t first, uint16_t count)
{
    if (count == 0)
        return;
    uint32_t numbers = count;
    end_log(e, "lost", first, &numbers, 1);
    losses++;
}

/* Messages that are no notes are the chamber's own affair: here all are written down. */
static void hand_on(struct end *e, const struct sirmjold_read *c, const struct sirmjold_reader *from)
{
    end_log(e, "handed", c->seq, from->words, c->count);
}

static void data(struct end *e, uint64_t now, const struct sirmjold_read *c, const struct sirmjold_reader *from)
{
    struct sirmjold_delivery d = sirmjold_on_ump_data(&e->stream, now, c->seq);
    check(d.refusal == SIRMJOLD_OK, "a data command");
    heard[d.class_]++;
    if (d.class_ == SIRMJOLD_DUPLICATE)
        return;
    lost(e, d.lost_first, d.lost_count);
    sound(sirmjold_held_heard(held, d, from));
    hand_on(e, c, from);
}

/* What a poll or a Retransmit Error was answered with. */
static void told(struct end *e, struct sirmjold_event v)
{
    check(v.refusal == SIRMJOLD_OK, "an event");
    if (v.kind == SIRMJOLD_NOTHING)
        return;
    lost(e, v.first, v.count);
    sound(sirmjold_held_told(held, v.kind));
}

/* Data and Retransmit Errors are the stream's. This chamber writes no data, so that no request comes; one that writes some does
 * with requests what console.c does. All else is the session's. */
static void hear(struct end *e, uint64_t now, const struct sirmjold_read *c, const struct sirmjold_reader *from)
{
    if (c->kind == SIRMJOLD_READ_UMP_DATA)
        data(e, now, c, from);
    else if (c->kind == SIRMJOLD_READ_ERROR)
        told(e, sirmjold_on_retransmit_error(&e->stream, c->code, c->seq));
}

static unsigned sounding(void)
{
    unsigned pipes = 0;
    for (unsigned note = 0; note < NOTES; note++)
        pipes += sounds[note];
    return pipes;
}

static void figures(const struct end *e, uint64_t now)
{
    end_figures(e, now);
    printf(", heard New %u, Late %u, Duplicate %u, losses %u, sounding %u\n", heard[SIRMJOLD_NEW], heard[SIRMJOLD_LATE],
           heard[SIRMJOLD_DUPLICATE], losses, sounding());
}

int main(int argc, char **argv)
{
    static struct end e;
    struct options o = options(argc, argv);
    end_open(&e, "chamber", &o);
    sound(sirmjold_held_start(0));
    figures(&e, e.begun);
    uint64_t now;
    do {
        now = clock_ms();
        end_hear(&e, now, hear);
        told(&e, sirmjold_poll(&e.stream, now));
        end_write(&e, now);
        if (end_second(&e, now))
            figures(&e, now);
        end_wait(&e, e.heard + o.silence);
    } while (now < e.heard + o.silence);
    figures(&e, now);
    return 0;
}
