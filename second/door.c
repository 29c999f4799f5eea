/* The C library driven from standard input, as the program `calls` drives the library below it: the
 * same requests, the same lines (wire.py has both). So the comparison holds the C door to the second
 * program on any machine that runs x86-64 code.
 *
 * Beyond what `calls` can see it looks for what only C can get wrong: an answer that is not written
 * (it starts as all ones), an element written past a buffer (a guard stands behind it), an empty
 * slice (its pointer is null), and memory of a scan that a refused call changed. */
#include <inttypes.h>
#include <stdio.h>
#include <stdlib.h>
#include <string.h>

#include "gong.h"

#define MOST 1048577u     /* elements of a slice or buffer: one more than any picture has */
#define MOST_COUNTS 4096u /* those of 32 bits */
#define GUARDS 8u         /* elements behind a buffer that no call may touch */
#define GUARD 0xA5A5u

/* The memory that requests lend. */
static uint8_t levels_space[MOST];
static uint16_t output_space[MOST + GUARDS], work_space[MOST + GUARDS];
static uint32_t counts_space[MOST_COUNTS + GUARDS];

/* The one scan, over all requests: all zeros before its first good start. And as it was before a call. */
static uint16_t held[GONG_SCAN + GUARDS], held_before[GONG_SCAN + GUARDS];

static int bytes(void *to, size_t count) { return fread(to, 1, count, stdin) == count; }

/* The machine is little-endian, as x86-64 is, and so are the requests. */
static int number(uint64_t *to) { return bytes(to, 8); }
static int signed_number(int64_t *to) { return bytes(to, 8); }

static int slice(void *space, size_t width, size_t most, size_t *count)
{
    uint64_t asked;

    if (!number(&asked) || asked > most) return 0;
    *count = (size_t)asked;
    return bytes(space, *count * width);
}

static int size_and_fill(size_t most, size_t *count, uint64_t *fill)
{
    uint64_t asked;

    if (!number(&asked) || asked > most || !number(fill)) return 0;
    *count = (size_t)asked;
    return 1;
}

static int value_buffer(uint16_t *space, size_t *count)
{
    uint64_t fill;
    size_t k;

    if (!size_and_fill(MOST, count, &fill)) return 0;
    for (k = 0; k < *count; k++) space[k] = (uint16_t)fill;
    for (k = 0; k < GUARDS; k++) space[*count + k] = GUARD;
    return 1;
}

static int count_buffer(uint32_t *space, size_t *count)
{
    uint64_t fill;
    size_t k;

    if (!size_and_fill(MOST_COUNTS, count, &fill)) return 0;
    for (k = 0; k < *count; k++) space[k] = (uint32_t)fill;
    for (k = 0; k < GUARDS; k++) space[*count + k] = GUARD;
    return 1;
}

static void sure(int so, const char *otherwise)
{
    if (so) return;
    puts(otherwise);
    exit(3);
}

static void guarded(int kept) { sure(kept, "an element past the buffer was written"); }

/* A buffer as the call leaves it. */
static void show_values(const uint16_t *space, size_t count)
{
    size_t k;

    for (k = 0; k < count; k++) printf(k ? " %d" : "%d", space[k]);
    putchar('\n');
    for (k = 0; k < GUARDS; k++) guarded(space[count + k] == GUARD);
}

static void show_counts(const uint32_t *space, size_t count)
{
    size_t k;

    for (k = 0; k < count; k++) printf(k ? " %" PRIu32 : "%" PRIu32, space[k]);
    putchar('\n');
    for (k = 0; k < GUARDS; k++) guarded(space[count + k] == GUARD);
}

/* `f` and `m` are lent the same: a picture and two buffers. */
static int picture(int letter)
{
    uint64_t width, height, ratio = UINT64_MAX;
    size_t count, output, work;

    if (!slice(levels_space, 1, MOST, &count) || !number(&width) || !number(&height)) return 0;
    if (!value_buffer(output_space, &output) || !value_buffer(work_space, &work)) return 0;

    const uint8_t *levels = count ? levels_space : NULL;
    uint16_t *one = output ? output_space : NULL, *two = work ? work_space : NULL;

    if (letter == 'f') {
        printf("f %d\n", gong_filter(levels, count, width, height, one, output, two, work));
    } else {
        int number_back = gong_measure(levels, count, width, height, one, output, two, work, &ratio);

        printf("m %d %" PRIu64 "\n", number_back, ratio);
    }
    show_values(output_space, output);
    show_values(work_space, work);
    return 1;
}

static int judge(void)
{
    uint64_t count, bright, dark, spread, ratio = UINT64_MAX;
    int number_back;

    if (!number(&count) || !number(&bright) || !number(&dark) || !number(&spread)) return 0;
    number_back = gong_judge(count, bright, dark, spread, &ratio);
    printf("j %d %" PRIu64 "\n", number_back, ratio);
    return 1;
}

static int count(void)
{
    size_t values, places;

    /* the values are read into the output's space, which this call does not need */
    if (!slice(output_space, 2, MOST, &values) || !count_buffer(counts_space, &places)) return 0;
    printf("c %d\n", gong_count(values ? output_space : NULL, values, places ? counts_space : NULL, places));
    show_counts(counts_space, places);
    return 1;
}

static int two_means(void)
{
    uint64_t rounds = UINT64_MAX, numerator = UINT64_MAX, denominator = UINT64_MAX;
    size_t places;
    int number_back;

    if (!slice(counts_space, 4, MOST_COUNTS, &places)) return 0;
    number_back = gong_two_means(places ? counts_space : NULL, places, &rounds, &numerator, &denominator);
    printf("t %d %" PRIu64 " %" PRIu64 " %" PRIu64 "\n", number_back, rounds, numerator, denominator);
    return 1;
}

static int sample(void)
{
    uint64_t width, height;
    int64_t x, y, value = -1;
    size_t count;
    int number_back;

    if (!slice(levels_space, 1, MOST, &count) || !number(&width) || !number(&height)) return 0;
    if (!signed_number(&x) || !signed_number(&y)) return 0;
    number_back = gong_sample(count ? levels_space : NULL, count, width, height, x, y, &value);
    printf("s %d %" PRId64 "\n", number_back, value);
    return 1;
}

static int length(void)
{
    uint64_t pixel, picometres = UINT64_MAX;
    int64_t factor;
    int number_back;

    if (!signed_number(&factor) || !number(&pixel)) return 0;
    number_back = gong_length(factor, pixel, &picometres);
    printf("l %d %" PRIu64 "\n", number_back, picometres);
    return 1;
}

/* Around each call to the scan: the memory is kept, and then looked at. */
static void keep_held(void) { memcpy(held_before, held, sizeof held); }

static void look_at_held(int number_back)
{
    size_t k;

    for (k = 0; k < GUARDS; k++) guarded(held[GONG_SCAN + k] == GUARD);
    sure(number_back == GONG_DONE || !memcmp(held_before, held, sizeof held), "a refused call changed what is held");
}

static int start(void)
{
    uint64_t width, height;
    int number_back;

    if (!number(&width) || !number(&height)) return 0;
    keep_held();
    number_back = gong_scan_start(held, GONG_SCAN, width, height);
    look_at_held(number_back);
    printf("b %d\n", number_back);
    return 1;
}

/* `r` and `z` give back the same: `z` is lent no levels. */
static int rows_or_end(int letter)
{
    uint64_t rows = UINT64_MAX;
    size_t count = 0, output;
    int number_back;

    if (letter == 'r' && !slice(levels_space, 1, MOST, &count)) return 0;
    if (!value_buffer(output_space, &output)) return 0;

    uint16_t *one = output ? output_space : NULL;

    keep_held();
    number_back = letter == 'r' ? gong_scan_rows(held, GONG_SCAN, count ? levels_space : NULL, count, one, output, &rows)
                                : gong_scan_end(held, GONG_SCAN, one, output, &rows);
    look_at_held(number_back);
    printf("%c %d %" PRIu64 "\n", letter, number_back, rows);
    show_values(output_space, output);
    return 1;
}

int main(void)
{
    unsigned long answered = 0;
    int letter, good = 1;

    for (size_t k = 0; k < GUARDS; k++) held[GONG_SCAN + k] = GUARD;

    while (good && (letter = getchar()) != EOF) {
        switch (letter) {
        case 'f':
        case 'm': good = picture(letter); break;
        case 'j': good = judge(); break;
        case 'c': good = count(); break;
        case 't': good = two_means(); break;
        case 's': good = sample(); break;
        case 'l': good = length(); break;
        case 'b': good = start(); break;
        case 'r':
        case 'z': good = rows_or_end(letter); break;
        default: good = 0;
        }
        answered += (unsigned long)good;
        fflush(stdout);
    }
    printf("%s %lu\n", good ? "answered" : "bad request", answered);
    return 0;
}
