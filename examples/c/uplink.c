/* A console of eight divisions behind one uplink: in each step every division has some words to send, asks for them, and
 * sends what it was granted. Held to what is promised: no grant exceeds its want, together they are the smaller of A and
 * all wants, and of eight steps each division is first in one.
 *
 * Built and run by tools/run_c_example; takes A as an argument, in decimal. */
#include <sirmjold.h>
#include <stdio.h>
#include <stdlib.h>

#define DIVISIONS SIRMJOLD_DIVISIONS_MAX
#define STEPS 80000

static void check(int ok, const char *what, unsigned step)
{
    if (!ok) {
        fprintf(stderr, "not so: %s (step %u)\n", what, step);
        exit(1);
    }
}

static uint32_t smaller(uint32_t a, uint32_t b)
{
    return a < b ? a : b;
}

/* The paper's cases: the grants, and the next turn. */
static void shown(uint16_t words, uint16_t turn, const uint16_t *wants, size_t n, const uint16_t *grants, uint16_t next)
{
    struct sirmjold_grants g = sirmjold_uplink_grant(words, turn, wants, n);
    check(g.refusal == 0 && g.turn == next, "the step is granted", words);
    for (size_t i = 0; i < DIVISIONS; i++)
        check(g.grants[i] == (i < n ? grants[i] : 0), "the case's grants", words);
}

static void refused(uint16_t turn, const uint16_t *wants, size_t n)
{
    struct sirmjold_grants g = sirmjold_uplink_grant(100, turn, wants, n);
    check(g.refusal == SIRMJOLD_REFUSED_DIVISIONS_NOT_ALLOWED && g.turn == turn, "refused by 18, the turn kept", (unsigned)n);
    for (size_t i = 0; i < DIVISIONS; i++)
        check(g.grants[i] == 0, "nothing is granted", (unsigned)n);
}

static void cases(void)
{
    const uint16_t three[] = {10, 50, 60}, nine[9] = {1, 1, 1, 1, 1, 1, 1, 1, 1};
    shown(100, 0, three, 3, (const uint16_t[]){10, 50, 40}, 1);
    shown(100, 1, three, 3, (const uint16_t[]){10, 50, 40}, 2);
    shown(100, 2, three, 3, (const uint16_t[]){10, 33, 57}, 0);
    shown(7, 5, (const uint16_t[]){9, 9, 9, 9, 9, 9, 9, 9}, 8, (const uint16_t[]){0, 0, 0, 0, 0, 7, 0, 0}, 6);
    shown(5, 0, (const uint16_t[]){3}, 1, (const uint16_t[]){3}, 0);
    refused(0, three, 0);
    refused(0, nine, 9);
    refused(2, three, 2);
}

int main(int argc, char **argv)
{
    uint16_t words = (uint16_t)(argc > 1 ? strtoul(argv[1], NULL, 10) : 100), wants[DIVISIONS] = {0}, turn = 0;
    unsigned long played = 0, sent = 0, first[DIVISIONS] = {0};
    uint32_t drawn = 1;
    cases();
    for (unsigned k = 0; k < STEPS; k++) {
        uint32_t all = 0, together = 0;
        for (size_t i = 0; i < DIVISIONS; i++) {
            drawn = drawn * 1664525 + 1013904223;
            uint32_t more = smaller(drawn >> 27, (uint32_t)(65535 - wants[i]));
            wants[i] = (uint16_t)(wants[i] + more);
            played += more;
            all += wants[i];
        }
        struct sirmjold_grants g = sirmjold_uplink_grant(words, turn, wants, DIVISIONS);
        check(g.refusal == 0 && g.turn == (turn + 1) % DIVISIONS, "the turn moves on by one", k);
        for (size_t i = 0; i < DIVISIONS; i++) {
            check(g.grants[i] <= wants[i], "no grant exceeds its want", k);
            check(g.grants[i] >= smaller(wants[i], words / DIVISIONS), "each has its share", k);
            wants[i] = (uint16_t)(wants[i] - g.grants[i]);
            together += g.grants[i];
        }
        check(together == smaller(words, all), "together the smaller of A and all wants", k);
        sent += together;
        first[turn]++;
        turn = g.turn;
    }
    for (size_t i = 0; i < DIVISIONS; i++)
        check(first[i] == STEPS / DIVISIONS, "each division is first as often", STEPS);
    printf("an uplink of %u words a step: %d steps, %lu of %lu words sent, each division first in %d of them\n", words, STEPS, sent, played,
           STEPS / DIVISIONS);
    return 0;
}
