/* The program that bench/run builds and drives.
 *
 *     bench check            holds gong to plain C (answers.c); status 1 where an answer differs
 *     bench pictures FOLDER  writes the pictures that the peers filter
 *     bench rows             what can be timed, a line each: call, input, unit, tabs between
 *     bench time             reads lines `LIBRARY CALL INPUT` and answers each with ns per unit
 *
 * bench/run lets all rows take turns, so `time` runs one row and waits for the next line. A turn takes 20 ms or one run, if
 * that takes longer: the first run finds the caches as the row before left them, the later ones do not. */
#include <stdio.h>
#include <string.h>
#include <time.h>

#include "answers.h"
#include "inputs.h"
#include "library.h"

const struct library gong = {"gong",      gong_filter, gong_measure,    gong_judge,     gong_count,   gong_two_means,
                             gong_sample, gong_length, gong_scan_start, gong_scan_rows, gong_scan_end};

enum {
    PASSES = 3,
    AGAIN = 16,     /* the calls on numbers go through their inputs so many times in one run */
    TURN = 20000000 /* ns */
};

static uint16_t output[FULL], work[FULL];

/* ---- one run of each row */

/* 1,048,576 pixels in all, whatever the side: the next picture of that size is the next stretch of levels. A
 * small one filtered over and over would be learnt by heart by the processor. */
static void filter_squares(const struct library *library, const uint8_t *levels, size_t side)
{
    size_t pixels = side * side;

    for (size_t from = 0; from < FULL; from += pixels)
        library->filter(levels + from, pixels, side, side, output, pixels, work, pixels);
}

static void filter_random(const struct library *library) { filter_squares(library, random_picture, SIDE); }
static void filter_smooth(const struct library *library) { filter_squares(library, smooth_picture, SIDE); }
static void filter_512(const struct library *library) { filter_squares(library, random_picture, 512); }
static void filter_256(const struct library *library) { filter_squares(library, random_picture, 256); }
static void filter_128(const struct library *library) { filter_squares(library, random_picture, 128); }
static void filter_64(const struct library *library) { filter_squares(library, random_picture, 64); }

/* The same pictures row by row, some rows a call, and the start and the end with them. The rows that come out are put where
 * the whole filter puts them. */
static void scan_squares(const struct library *library, size_t side, size_t a_call)
{
    static uint16_t held[GONG_SCAN];
    size_t pixels = side * side, brought = a_call * side;
    uint64_t rows;

    for (size_t from = 0; from < FULL; from += pixels) {
        const uint8_t *levels = random_picture + from;
        size_t out = 0;

        library->scan_start(held, GONG_SCAN, side, side);
        for (size_t k = 0; k < pixels; k += brought) {
            library->scan_rows(held, GONG_SCAN, levels + k, brought, output + out, pixels - out, &rows);
            out += rows * side;
        }
        library->scan_end(held, GONG_SCAN, output + out, pixels - out, &rows);
    }
}

static void scan_1024_by_1(const struct library *library) { scan_squares(library, SIDE, 1); }
static void scan_1024_by_8(const struct library *library) { scan_squares(library, SIDE, 8); }
static void scan_64_by_1(const struct library *library) { scan_squares(library, 64, 1); }
static void scan_64_by_8(const struct library *library) { scan_squares(library, 64, 8); }

static void measure_squares(const struct library *library, size_t side)
{
    size_t pixels = side * side;
    uint64_t ratio;

    for (size_t from = 0; from < FULL; from += pixels)
        library->measure(discs_picture + from, pixels, side, side, output, pixels, work, pixels, &ratio);
}

static void measure_discs(const struct library *library) { measure_squares(library, SIDE); }
static void measure_64(const struct library *library) { measure_squares(library, 64); }

static void judge_many(const struct library *library)
{
    uint64_t ratio;

    for (int k = 0; k < AGAIN * MANY; k++) {
        const struct judged *j = &judged[k % MANY];

        library->judge(j->count, j->bright, j->dark, j->spread, &ratio);
    }
}

static void count_discs(const struct library *library)
{
    uint32_t histogram[256];

    library->count(discs_filtered, FULL, histogram, 256);
}

static void means_many(const struct library *library)
{
    uint64_t rounds, numerator, denominator;

    for (int k = 0; k < AGAIN * HISTOGRAMS; k++)
        library->two_means(histograms[k % HISTOGRAMS], 256, &rounds, &numerator, &denominator);
}

static void sample_many(const struct library *library)
{
    int64_t value;

    for (int k = 0; k < AGAIN * MANY; k++)
        library->sample(random_picture, FULL, SIDE, SIDE, places[k % MANY].x, places[k % MANY].y, &value);
}

static void length_many(const struct library *library)
{
    uint64_t length;

    for (int k = 0; k < AGAIN * MANY; k++)
        library->length(sharpnesses[k % MANY].factor, sharpnesses[k % MANY].pixel, &length);
}

static const struct row {
    const char *call, *input, *unit;
    void (*run)(const struct library *);
    int units; /* of one run */
} rows[] = {
    {"filter", "random", "pixel and pass", filter_random, FULL * PASSES},
    {"filter", "smooth", "pixel and pass", filter_smooth, FULL * PASSES},
    {"filter", "512", "pixel and pass", filter_512, FULL * PASSES},
    {"filter", "256", "pixel and pass", filter_256, FULL * PASSES},
    {"filter", "128", "pixel and pass", filter_128, FULL * PASSES},
    {"filter", "64", "pixel and pass", filter_64, FULL * PASSES},
    {"scan", "1024-by-1", "pixel and pass", scan_1024_by_1, FULL * PASSES},
    {"scan", "1024-by-8", "pixel and pass", scan_1024_by_8, FULL * PASSES},
    {"scan", "64-by-1", "pixel and pass", scan_64_by_1, FULL * PASSES},
    {"scan", "64-by-8", "pixel and pass", scan_64_by_8, FULL * PASSES},
    {"measure", "discs", "pixel", measure_discs, FULL},
    {"measure", "64", "pixel", measure_64, FULL},
    {"judge", "1,024-pictures", "call", judge_many, AGAIN * MANY},
    {"count", "discs", "value", count_discs, FULL},
    {"two_means", "64-histograms", "call", means_many, AGAIN * HISTOGRAMS},
    {"sample", "1,024-places", "call", sample_many, AGAIN * MANY},
    {"length", "1,024-sharpnesses", "call", length_many, AGAIN * MANY},
};
enum { ROWS = sizeof rows / sizeof *rows };

/* ---- the program */

/* The processor time of this program in ns: what others do on the same core in between is not in it. */
static double now(void)
{
    struct timespec time;

    clock_gettime(CLOCK_PROCESS_CPUTIME_ID, &time);
    return (double)time.tv_sec * 1e9 + (double)time.tv_nsec;
}

/* One turn: the least of its runs, in ns a unit. */
static double turn(const struct library *library, const struct row *row)
{
    double began = now(), before = began, least = 1e300;

    do {
        row->run(library);
        double after = now();
        if (after - before < least) least = after - before;
        before = after;
    } while (before - began < TURN);
    return least / row->units;
}

static int answer(const char *line)
{
    char library[16], call[16], input[32];

    if (sscanf(line, "%15s %15s %31s", library, call, input) != 3) return 0;
    for (int k = 0; k < ROWS; k++)
        if (!strcmp(call, rows[k].call) && !strcmp(input, rows[k].input)) {
            printf("%.4f\n", turn(strcmp(library, gong.name) ? &plain : &gong, &rows[k]));
            return fflush(stdout) == 0;
        }
    return 0;
}

int main(int words, char **word)
{
    const char *part = words > 1 ? word[1] : "";
    char line[80];

    make_inputs();
    if (!strcmp(part, "check")) return compare_answers() > 0;
    if (!strcmp(part, "pictures") && words > 2) return !write_pictures(word[2]);
    if (!strcmp(part, "rows")) {
        for (int k = 0; k < ROWS; k++) printf("%s\t%s\t%s\n", rows[k].call, rows[k].input, rows[k].unit);
        return 0;
    }
    if (!strcmp(part, "time")) {
        while (fgets(line, sizeof line, stdin))
            if (!answer(line)) return 2;
        return 0;
    }
    fputs("bench check | pictures FOLDER | rows | time\n", stderr);
    return 2;
}
