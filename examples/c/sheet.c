/* The loss sheet: four records in one block and in two, each refusal, and drawn records in blocks of drawn lengths, whose figures are
 * compared with those worked afresh over the last n; each block is stored by column and restored.
 *
 * Built and run by tools/run_c_example. */
#include <sirmjold.h>
#include <stdio.h>
#include <stdlib.h>
#include <string.h>

#define RECORD SIRMJOLD_SHEET_RECORD
#define MOST SIRMJOLD_SHEET_ARRIVALS
#define RECORDS 20000

static uint8_t file[RECORDS * RECORD], out[RECORDS * RECORD], stored[SIRMJOLD_SHEET_BLOCK], back[SIRMJOLD_SHEET_BLOCK];
static uint32_t ring[MOST];
static uint32_t last = 1;

static void check(int ok, const char *what, size_t at)
{
    if (!ok) {
        fprintf(stderr, "not so: %s (%zu)\n", what, at);
        exit(1);
    }
}

static uint32_t drawn(uint32_t below)
{
    last = last * 1664525u + 1013904223u;
    return (last >> 8) % below;
}

static struct sirmjold_sheet started(size_t n)
{
    struct sirmjold_sheet_answer a = sirmjold_sheet_start(n, ring, n);
    check(a.refusal == 0, "a start", n);
    return a.sheet;
}

static uint32_t word(const uint8_t *b)
{
    return (uint32_t)b[0] << 24 | (uint32_t)b[1] << 16 | (uint32_t)b[2] << 8 | b[3];
}

/* The figures of record k over the last n, worked afresh. */
static void afresh(size_t n, size_t k, uint32_t *figures)
{
    memset(figures, 0, 4 * sizeof *figures);
    for (size_t j = k + 1 > n ? k + 1 - n : 0; j <= k; j++) {
        const uint8_t *r = file + j * RECORD;
        figures[r[10]]++;
        figures[3] += (uint32_t)r[12] << 8 | r[13];
    }
}

static void drawn_files(void)
{
    static const size_t sizes[] = {1, 2, 3, 100, 1000, MOST};
    for (size_t i = 0; i < sizeof file; i++)
        file[i] = (uint8_t)drawn(256);
    for (size_t k = 0; k < RECORDS; k++) {
        file[k * RECORD + 10] = (uint8_t)drawn(3);
        file[k * RECORD + 11] = 0;
    }
    for (size_t i = 0; i < sizeof sizes / sizeof *sizes; i++) {
        struct sirmjold_sheet sheet = started(sizes[i]);
        for (size_t at = 0; at < sizeof file;) {
            size_t len = RECORD * drawn(MOST + 1);
            if (len > sizeof file - at)
                len = sizeof file - at;
            struct sirmjold_sheet_answer a = sirmjold_sheet_block(sheet, ring, sizes[i], file + at, len, out + at, len);
            check(a.refusal == 0, "a block", at);
            check(sirmjold_sheet_columns(file + at, len, stored, sizeof stored) == 0, "columns", at);
            check(sirmjold_sheet_restore(stored, len, back, sizeof back) == 0, "restored", at);
            check(memcmp(back, file + at, len) == 0, "the same block", at);
            sheet = a.sheet;
            at += len;
        }
        for (size_t k = 0; k < RECORDS; k++) {
            uint32_t figures[4];
            afresh(sizes[i], k, figures);
            for (size_t f = 0; f < 4; f++)
                check(word(out + k * RECORD + 4 * f) == figures[f], "figures worked afresh", k);
        }
    }
}

static void four_records(void)
{
    static const uint8_t four[64] = {[23] = 1, [25] = 5, [29] = 1, [39] = 2, [41] = 4, [42] = 1, [55] = 3, [57] = 5, [58] = 2};
    static const uint32_t figures[16] = {1, 0, 0, 0, 2, 0, 0, 1, 1, 1, 0, 1, 0, 1, 1, 0};
    for (size_t cut = 0; cut <= 64; cut += RECORD) {
        struct sirmjold_sheet_answer a = sirmjold_sheet_block(started(2), ring, 2, four, cut, out, 64);
        check(a.refusal == 0, "the first block", cut);
        check(sirmjold_sheet_block(a.sheet, ring, 2, four + cut, 64 - cut, out + cut, 64 - cut).refusal == 0, "the second", cut);
        for (size_t f = 0; f < 16; f++)
            check(word(out + 4 * f) == figures[f], "its figures", f);
    }
}

static void refusals(void)
{
    uint8_t bytes[16] = {0}, class3[16] = {[10] = 3}, not_zero[16] = {[11] = 1};
    struct sirmjold_sheet none = {0, 0, 0}, early = {2, 1, 1}, two = started(2);
    check(sirmjold_sheet_start(0, ring, 0).refusal == SIRMJOLD_REFUSED_SIZE_NOT_ALLOWED, "n 0", 0);
    check(sirmjold_sheet_start(MOST + 1, ring, MOST).refusal == SIRMJOLD_REFUSED_SIZE_NOT_ALLOWED, "n 4,097", 0);
    check(sirmjold_sheet_start(2, ring, 3).refusal == SIRMJOLD_REFUSED_SIZE_NOT_ALLOWED, "a ring of another length", 0);
    check(sirmjold_sheet_block(none, ring, 0, bytes, 15, out, 16).refusal == SIRMJOLD_REFUSED_SIZE_NOT_ALLOWED, "12 first", 0);
    check(sirmjold_sheet_block(early, ring, 2, bytes, 15, out, 16).refusal == SIRMJOLD_REFUSED_INVALID_STATE, "then 13", 0);
    check(sirmjold_sheet_block(two, ring, 2, bytes, 15, out, 16).refusal == SIRMJOLD_REFUSED_INVALID_BLOCK, "a cut record", 0);
    check(sirmjold_sheet_block(two, ring, 2, class3, 16, out, 15).refusal == SIRMJOLD_REFUSED_INVALID_BLOCK, "16 before 17", 0);
    check(sirmjold_sheet_block(two, ring, 2, class3, 16, out, 16).refusal == SIRMJOLD_REFUSED_INVALID_RECORD, "class 3", 0);
    check(sirmjold_sheet_block(two, ring, 2, not_zero, 16, out, 16).refusal == SIRMJOLD_REFUSED_INVALID_RECORD, "a zero byte that is 1", 0);
    check(sirmjold_sheet_block(two, ring, 2, file, 65552, out, 65552).refusal == SIRMJOLD_REFUSED_INVALID_BLOCK, "65,552 bytes", 0);
    check(sirmjold_sheet_columns(bytes, 15, out, 16) == SIRMJOLD_REFUSED_INVALID_BLOCK, "columns of a cut record", 0);
    check(sirmjold_sheet_restore(bytes, 16, out, 15) == SIRMJOLD_REFUSED_INVALID_BLOCK, "too short an output", 0);
    check(sirmjold_sheet_columns(class3, 16, out, 16) == 0, "columns look at no class", 0);
}

int main(void)
{
    four_records();
    refusals();
    drawn_files();
    printf("loss sheet: %d drawn records, n 1, 2, 3, 100, 1000, 4096: as worked afresh\n", RECORDS);
    return 0;
}
