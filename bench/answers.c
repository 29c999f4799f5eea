#include "answers.h"

#include <inttypes.h>
#include <stdio.h>
#include <string.h>

#include "inputs.h"
#include "library.h"

enum { SHOWN = 3 }; /* differences of one call that are told */

static int answers, differences; /* of the call that is being compared */

int differs(int same)
{
    answers++;
    if (same) return 0;
    return ++differences <= SHOWN;
}

/* ---- the calls on a picture: the filter and measuring */

struct lent {
    const uint8_t *levels;
    size_t levels_len, width, height, output_len, work_len;
};
struct left {
    uint8_t number;
    uint64_t ratio;
    uint16_t output[FULL + GUARDS], work[FULL + GUARDS];
};

/* One call, with both buffers filled before it: so elements that it leaves alone are compared too. */
static void call(const struct library *library, int measured, const struct lent *lent, struct left *left)
{
    for (size_t k = 0; k < lent->output_len + GUARDS; k++) left->output[k] = (uint16_t)(31 * k + 5);
    for (size_t k = 0; k < lent->work_len + GUARDS; k++) left->work[k] = (uint16_t)(17 * k + 3);
    left->ratio = measured ? UINT64_MAX : 0;
    if (measured)
        left->number = library->measure(lent->levels, lent->levels_len, lent->width, lent->height, left->output,
                                        lent->output_len, left->work, lent->work_len, &left->ratio);
    else
        left->number = library->filter(lent->levels, lent->levels_len, lent->width, lent->height, left->output,
                                       lent->output_len, left->work, lent->work_len);
}

static void compare_lent(int measured, const struct lent *lent)
{
    static struct left ours, theirs;
    size_t output = (lent->output_len + GUARDS) * sizeof *ours.output;
    size_t work = (lent->work_len + GUARDS) * sizeof *ours.work;

    call(&gong, measured, lent, &ours);
    call(&plain, measured, lent, &theirs);
    int same_output = !memcmp(ours.output, theirs.output, output), same_work = !memcmp(ours.work, theirs.work, work);
    if (differs(ours.number == theirs.number && ours.ratio == theirs.ratio && same_output && same_work))
        printf("%s, %zu columns, %zu rows: gong gives %d and %" PRIu64 ", plain C %d and %" PRIu64 "; output %s, work %s\n",
               measured ? "measure" : "filter", lent->width, lent->height, ours.number, ours.ratio, theirs.number,
               theirs.ratio, same_output ? "the same" : "different", same_work ? "the same" : "different");
}

static void compare_picture(int measured, const uint8_t *levels, size_t width, size_t height, size_t spare)
{
    size_t pixels = width * height;

    compare_lent(measured, &(struct lent){levels, pixels, width, height, pixels + spare, pixels + spare / 2});
}

const uint8_t *some_levels(size_t width, size_t height, uint32_t kind)
{
    static uint8_t levels[SIDE * 64];

    for (size_t k = 0; k < width * height; k++)
        levels[k] = (uint8_t)(kind == 0 ? below(256) : kind == 1 ? below(4) : kind == 2 ? 255 * below(2) : 7 * k / width);
    return levels;
}

/* Bright and dark squares of 4 by 4 with noise, so that every verdict comes up. */
static const uint8_t *some_squares(size_t width, size_t height)
{
    static uint8_t levels[64 * 64];
    uint32_t bright = 150 + below(105), dark = 5 + below(80), noise = 1 + below(below(2) ? 4 : 60);

    for (size_t k = 0; k < width * height; k++) {
        uint32_t grain = below(noise);

        levels[k] = (uint8_t)((k / width / 4 + k % width / 4) % 2 ? bright - grain : dark + grain);
    }
    return levels;
}

/* 1 to 5, and sides whose product wraps. */
static void compare_refused(int measured)
{
    static const size_t sizes[][5] = {/* levels, width, height, output, work */
                                      {0, 0, 8, 64, 64},    {0, 8, 0, 64, 64},  {64, 1025, 8, 64, 64},
                                      {64, 8, 1025, 64, 64}, {63, 8, 8, 63, 63}, {65, 8, 8, 65, 65},
                                      {64, 8, 8, 63, 63},   {64, 8, 8, 64, 63}, {64, 8, (size_t)1 << 61, 64, 64},
                                      {80, 8, 10, 80, 80},  {80, 10, 8, 80, 80}, {32, 4, 8, 32, 32}, {32, 8, 4, 32, 32}};

    for (size_t k = 0; k < sizeof sizes / sizeof *sizes; k++)
        compare_lent(measured, &(struct lent){random_picture, sizes[k][0], sizes[k][1], sizes[k][2], sizes[k][3], sizes[k][4]});
}

static void compare_filter(void)
{
    static const size_t thin[][2] = {{1024, 1}, {1, 1024}, {1024, 2}, {2, 1024}, {1024, 3}, {3, 1024}, {1023, 31}};

    compare_picture(0, smooth_picture, SIDE, SIDE, 0);
    for (size_t side = 64; side <= SIDE; side *= 2) /* as they are timed: the random picture in stretches */
        for (size_t from = 0; from < FULL; from += side * side) compare_picture(0, random_picture + from, side, side, 0);
    for (size_t width = 1; width <= 12; width++)
        for (size_t height = 1; height <= 12; height++)
            for (uint32_t kind = 0; kind < 4; kind++)
                compare_picture(0, some_levels(width, height, kind), width, height, below(4));
    for (uint32_t k = 0; k < 100; k++) {
        size_t width = 1 + below(90), height = 1 + below(40);

        compare_picture(0, some_levels(width, height, k % 4), width, height, below(4));
    }
    for (size_t k = 0; k < sizeof thin / sizeof *thin; k++)
        compare_picture(0, random_picture, thin[k][0], thin[k][1], 0);
    compare_refused(0);
}

static void compare_measure(void)
{
    compare_picture(1, random_picture, SIDE, SIDE, 0);
    compare_picture(1, discs_picture, SIDE, SIDE, 0);
    for (size_t from = 0; from < FULL; from += 64 * 64) compare_picture(1, discs_picture + from, 64, 64, 0); /* as they are timed */
    for (int k = 0; k < 300; k++) {
        size_t width = 4 * (2 + below(15)), height = 4 * (2 + below(15));

        compare_picture(1, some_squares(width, height), width, height, below(4));
    }
    for (size_t width = 1; width <= 8; width++) /* 5, but for the last of them */
        for (size_t height = 1; height <= 8; height++) compare_picture(1, some_squares(width, height), width, height, 0);
    compare_refused(1);
}

/* ---- the calls on numbers */

static void compare_judged(const struct judged *j)
{
    uint64_t ratio = UINT64_MAX, due = UINT64_MAX;
    int number = gong.judge(j->count, j->bright, j->dark, j->spread, &ratio);
    int due_number = plain.judge(j->count, j->bright, j->dark, j->spread, &due);

    if (differs(number == due_number && ratio == due))
        printf("judge, N %" PRIu64 ", M %" PRIu64 ", m %" PRIu64 ", D %" PRIu64 ": gong gives %d and %" PRIu64
               ", plain C %d and %" PRIu64 "\n",
               j->count, j->bright, j->dark, j->spread, number, ratio, due_number, due);
}

static void compare_judge(void)
{
    for (int k = 0; k < MANY; k++) compare_judged(&judged[k]);
    for (int k = 0; k < MANY; k++) { /* spreads of every length, and each number out of range now and then */
        struct judged j = judged[k];

        j.spread = ((uint64_t)1 << below(63)) + below(2) - below(2);
        if (k % 8 == 0) j.bright = below(32642);
        if (k % 8 == 1) j.dark = below(32642);
        if (k % 8 == 2) j.count = FULL * below(2) + below(2);
        compare_judged(&j);
    }
}

static void compare_counted(const uint16_t *values, size_t values_len, size_t histogram_len)
{
    uint32_t histogram[257 + GUARDS], due[257 + GUARDS];

    for (uint32_t k = 0; k < 257 + GUARDS; k++) histogram[k] = due[k] = 77 + k;
    int number = gong.count(values, values_len, histogram, histogram_len);
    int due_number = plain.count(values, values_len, due, histogram_len);

    if (differs(number == due_number && !memcmp(histogram, due, sizeof due)))
        printf("count, %zu values, %zu places: gong gives %d, plain C %d\n", values_len, histogram_len, number, due_number);
}

static void compare_count(void)
{
    static uint16_t values[4096];

    compare_counted(discs_filtered, FULL, 256);
    for (uint32_t length = 0; length < 300; length++) {
        for (uint32_t k = 0; k < length; k++) values[k] = (uint16_t)below(2041);
        compare_counted(values, length, 256);
        compare_counted(values, length, length % 258);
        if (length == 0) continue;
        values[below(length)] = (uint16_t)(2041 + (length % 2 ? below(60000) : 0));
        compare_counted(values, length, 256);
    }
}

static void compare_threshold(const uint32_t *histogram, size_t histogram_len)
{
    uint64_t ours[3] = {1, 1, 1}, theirs[3] = {2, 2, 2};
    int number = gong.two_means(histogram, histogram_len, &ours[0], &ours[1], &ours[2]);
    int due_number = plain.two_means(histogram, histogram_len, &theirs[0], &theirs[1], &theirs[2]);

    if (differs(number == due_number && !memcmp(ours, theirs, sizeof ours)))
        printf("two means: gong gives %d, %" PRIu64 " rounds, %" PRIu64 "/%" PRIu64 ", plain C %d, %" PRIu64 " rounds, %" PRIu64
               "/%" PRIu64 "\n",
               number, ours[0], ours[1], ours[2], due_number, theirs[0], theirs[1], theirs[2]);
}

static void compare_two_means(void)
{
    for (int k = 0; k < HISTOGRAMS; k++) compare_threshold(histograms[k], 256);
    for (int k = 0; k < 300; k++) { /* few levels, anywhere; in some the total is too large */
        uint32_t histogram[256] = {0}, from = below(256), levels = below(12);

        for (uint32_t level = 0; level < levels; level++)
            histogram[from + below(256 - from)] = 1 + below(k % 9 == 0 ? UINT32_MAX : 1u << below(18));
        compare_threshold(histogram, k % 7 ? 256 : below(257));
    }
    for (uint32_t more = 0; more < 2; more++) { /* the largest total, and one more */
        uint32_t histogram[256] = {[9] = 5, [200] = FULL - 5 + more};

        compare_threshold(histogram, 256);
    }
}

static void compare_sampled(size_t levels_len, size_t width, size_t height, int64_t x, int64_t y)
{
    int64_t value = -1, due = -2;
    int number = gong.sample(random_picture, levels_len, width, height, x, y, &value);
    int due_number = plain.sample(random_picture, levels_len, width, height, x, y, &due);

    if (differs(number == due_number && value == due))
        printf("sample, %zu columns, %zu rows, x %" PRId64 ", y %" PRId64 ": gong gives %d and %" PRId64
               ", plain C %d and %" PRId64 "\n",
               width, height, x, y, number, value, due_number, due);
}

static void compare_sample(void)
{
    for (int k = 0; k < MANY; k++) compare_sampled(FULL, SIDE, SIDE, places[k].x, places[k].y);
    for (int64_t y = -18; y < 16 * 5 + 2; y++) /* every place of 6 by 5, and past all four borders */
        for (int64_t x = -18; x < 16 * 6 + 2; x++) compare_sampled(30, 6, 5, x, y);
    for (size_t side = 0; side < 6; side++) compare_sampled(4 * side, side, 4, 16, 16);
    compare_sampled(4 * (SIDE + 1), SIDE + 1, 4, 16, 16);
    compare_sampled(15, 4, 4, 16, 16);
    compare_sampled(17, 4, 4, 16, 16);
}

static void compare_sharpness(int64_t factor, uint64_t pixel)
{
    uint64_t length = UINT64_MAX, due = UINT64_MAX - 1;
    int number = gong.length(factor, pixel, &length), due_number = plain.length(factor, pixel, &due);

    if (differs(number == due_number && length == due))
        printf("length, factor %" PRId64 ", pixel %" PRIu64 ": gong gives %d and %" PRIu64 ", plain C %d and %" PRIu64 "\n",
               factor, pixel, number, length, due_number, due);
}

static void compare_length(void)
{
    for (int k = 0; k < MANY; k++) compare_sharpness(sharpnesses[k].factor, sharpnesses[k].pixel);
    for (int k = 0; k < MANY; k++) compare_sharpness((int64_t)below(1u << below(16)) - below(2), below(1u << below(18)));
    compare_sharpness(16384, 100000);
    compare_sharpness(INT64_MIN, 1);
    compare_sharpness(INT64_MAX, UINT64_MAX);
}

int compare_answers(void)
{
    static const struct {
        const char *call;
        void (*compare)(void);
    } calls[] = {{"filter", compare_filter},         {"measure", compare_measure},       {"judge", compare_judge},
                 {"count", compare_count},           {"two_means", compare_two_means},   {"sample", compare_sample},
                 {"length", compare_length},         {"scan_start", compare_scan_start}, {"scan_rows", compare_scan_rows},
                 {"scan_end", compare_scan_end}};
    int wrong = 0;

    for (size_t k = 0; k < sizeof calls / sizeof *calls; k++) {
        answers = differences = 0;
        calls[k].compare();
        printf("%s: %d answers compared, %d differ\n", calls[k].call, answers, differences);
        fflush(stdout); /* a later call may crash */
        wrong += differences > 0;
    }
    return wrong;
}
