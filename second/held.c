/* What only C can do with the memory of a scan: lend too little of it, damage it, copy it, have two. The
 * program `calls` keeps one scan, in memory of its own, so the comparison never sees that; here it is
 * tried on widths that use little of the memory, most of it and all of it. What a scan gives out is
 * held to gong_filter.
 *
 * Each line but the last names something that is not as include/gong.h says. The last line counts, and the
 * status is 0 only where nothing was named. .ci/c-door runs it. */
#include <inttypes.h>
#include <stdio.h>
#include <string.h>

#include "gong.h"

#define WIDEST 1024u
#define HEIGHT 9u /* of every picture here */
#define SOME 5u   /* of its rows come before something is done to the memory */
#define PAST 8u   /* elements behind the memory of a scan, and behind an output, that no call may touch */
#define FILL 0xA5A5u

/* How the memory begins: two sides, how many rows have come, then six rows. */
enum { WIDTH_AT, HEIGHT_AT, CAME_AT, ROWS_AT };
static const uint16_t most[6] = {255, 255, 510, 510, 1020, 1020};

typedef struct { uint16_t held[GONG_SCAN + PAST]; } memory;

static uint8_t levels[WIDEST * HEIGHT];
static uint16_t filtered[WIDEST * HEIGHT], work[WIDEST * HEIGHT], output[WIDEST * HEIGHT + PAST];
static unsigned long passed, failed;

static void check(int so, const char *what, size_t width, size_t place)
{
    if (so) {
        passed++;
    } else {
        failed++;
        printf("not so: %s (width %zu, place %zu)\n", what, width, place);
    }
}

/* A picture that no symmetry leaves alone, and what the whole filter makes of it. */
static void draw(size_t width)
{
    for (size_t k = 0; k < width * HEIGHT; k++) levels[k] = (uint8_t)(k * k * 7919 / 16);
    gong_filter(levels, width * HEIGHT, width, HEIGHT, filtered, width * HEIGHT, work, width * HEIGHT);
}

static int all(const uint16_t *from, size_t count, uint16_t value)
{
    for (size_t k = 0; k < count; k++)
        if (from[k] != value) return 0;
    return 1;
}

static void fill(uint16_t *from, size_t count, uint16_t value)
{
    for (size_t k = 0; k < count; k++) from[k] = value;
}

/* The row that comes after so many, or the end after the last: the number. What was given out is the filter's. */
static int next(memory *scan, size_t length, size_t width, size_t came)
{
    size_t first = came < 3 ? 0 : came - 3, due = came < HEIGHT ? came >= 3 : 3;
    uint64_t given = UINT64_MAX;
    int number;

    fill(output, WIDEST * HEIGHT + PAST, FILL);
    number = came < HEIGHT ? gong_scan_rows(scan->held, length, levels + came * width, width, output, due * width, &given)
                           : gong_scan_end(scan->held, length, output, due * width, &given);
    check(given == (number ? 0 : due), "the rows given out are those due, and none where refused", width, came);
    check(number || !memcmp(output, filtered + first * width, due * width * sizeof *output), "they are the filter's", width, came);
    check(all(output + (number ? 0 : due * width), PAST, FILL), "the output past them never changes", width, came);
    check(all(scan->held + GONG_SCAN, PAST, FILL), "elements past the memory never change", width, came);
    return number;
}

/* A scan from where it is, so many rows having come, until so many have; one more than the height stands for the end. */
static void goes_on(const char *what, memory *scan, size_t length, size_t width, size_t came, size_t until)
{
    for (; came < until; came++) check(next(scan, length, width, came) == GONG_DONE, what, width, came);
}

/* A scan of which so many rows have come, in memory that held something else. */
static void begin(memory *scan, size_t width, size_t came)
{
    fill(scan->held, GONG_SCAN + PAST, FILL);
    check(gong_scan_start(scan->held, GONG_SCAN, width, HEIGHT) == GONG_DONE, "a start needs the length alone", width, 0);
    goes_on("row by row it goes on", scan, GONG_SCAN, width, 0, came);
}

/* Rows, no rows and the end all answer 1, and leave the memory and the output as they were. */
static void refused(const char *what, const memory *scan, size_t length, size_t width, size_t place)
{
    for (int call = 0; call < 3; call++) {
        memory tried = *scan;
        uint64_t given = UINT64_MAX;
        int number;

        fill(output, WIDEST * HEIGHT, FILL);
        number = call == 2 ? gong_scan_end(tried.held, length, output, WIDEST * HEIGHT, &given)
                           : gong_scan_rows(tried.held, length, levels, call * width, output, WIDEST * HEIGHT, &given);
        check(number == GONG_SIDE_OUT_OF_RANGE && given == 0, what, width, place);
        check(!memcmp(&tried, scan, sizeof tried), "refused, it leaves the memory as it was", width, place);
        check(all(output, WIDEST * HEIGHT, FILL), "refused, it leaves the output as it was", width, place);
    }
}

/* A running scan, one number of whose memory is another. */
static void damaged(const char *what, size_t width, size_t came, size_t place, uint16_t value)
{
    memory scan;

    begin(&scan, width, came);
    scan.held[place] = value;
    refused(what, &scan, GONG_SCAN, width, place);
}

static void too_short(size_t width)
{
    memory scan, as_it_was;

    begin(&scan, width, SOME);
    refused("memory too short by one answers 1", &scan, GONG_SCAN - 1, width, 0);
    refused("no memory at all answers 1", &scan, 0, width, 0);
    as_it_was = scan;
    check(gong_scan_start(scan.held, GONG_SCAN - 1, width, HEIGHT) == GONG_SIDE_OUT_OF_RANGE, "nor does it start", width, 0);
    check(gong_scan_start(NULL, 0, width, HEIGHT) == GONG_SIDE_OUT_OF_RANGE, "nor does none", width, 0);
    check(gong_scan_start(scan.held, GONG_SCAN, width, WIDEST + 1) == GONG_SIDE_OUT_OF_RANGE, "a side too long is no start", width, 0);
    check(!memcmp(&scan, &as_it_was, sizeof scan), "and a refused start leaves the memory as it was", width, 0);
    goes_on("memory that is longer is taken", &scan, GONG_SCAN + PAST, width, SOME, HEIGHT + 1);
}

static void before_a_start(size_t width)
{
    memory scan;

    memset(&scan, 0, sizeof scan);
    refused("all zeros are before a good start", &scan, GONG_SCAN, width, 0);
}

static void wrong_sides(size_t width, size_t came)
{
    damaged("a width of 0 answers 1", width, came, WIDTH_AT, 0);
    damaged("a width of 1,025 answers 1", width, came, WIDTH_AT, WIDEST + 1);
    damaged("a width of 65,535 answers 1", width, came, WIDTH_AT, 65535);
    damaged("a height of 0 answers 1", width, came, HEIGHT_AT, 0);
    damaged("a height of 1,025 answers 1", width, came, HEIGHT_AT, WIDEST + 1);
    damaged("a height of 65,535 answers 1", width, came, HEIGHT_AT, 65535);
}

/* More rows than the height are those of a scan that has ended, however many. */
static void counted_beyond(size_t width, uint16_t came)
{
    memory scan, as_it_was;
    uint64_t given;

    begin(&scan, width, SOME);
    scan.held[CAME_AT] = came;
    as_it_was = scan;
    check(gong_scan_rows(scan.held, GONG_SCAN, levels, width, output, WIDEST, &given) == GONG_ROWS_BEYOND && given == 0,
          "past its height a scan takes no row", width, came);
    check(gong_scan_rows(scan.held, GONG_SCAN, NULL, 0, output, WIDEST, &given) == GONG_DONE && given == 0,
          "past its height a scan takes no rows at all, and gives none", width, came);
    check(gong_scan_end(scan.held, GONG_SCAN, output, 3 * WIDEST, &given) == GONG_NOT_THE_END && given == 0,
          "past its height a scan has no end", width, came);
    check(!memcmp(&scan, &as_it_was, sizeof scan), "and none of these changes the memory", width, came);
}

/* Each of the six rows, at its first place and its last: one more than there can be, and the most that there can be. */
static void wrong_rows(size_t width, size_t came)
{
    for (size_t row = 0; row < 6; row++) {
        for (size_t place = row * width; place < (row + 1) * width; place += width > 1 ? width - 1 : 1) {
            memory scan;
            uint64_t given;

            damaged("a number out of its range answers 1", width, came, ROWS_AT + place, (uint16_t)(most[row] + 1));
            begin(&scan, width, came);
            scan.held[ROWS_AT + place] = most[row];
            check(gong_scan_rows(scan.held, GONG_SCAN, NULL, 0, output, 0, &given) == GONG_DONE, "the last number in range is taken",
                  width, ROWS_AT + place);
        }
    }
}

/* What lies past the six rows is never looked at; and after the end nothing is held. */
static void past_the_rows(size_t width)
{
    memory scan;

    begin(&scan, width, SOME);
    fill(scan.held + ROWS_AT + 6 * width, GONG_SCAN - ROWS_AT - 6 * width, 65535);
    goes_on("numbers past the six rows do not matter", &scan, GONG_SCAN, width, SOME, HEIGHT + 1);
    check(scan.held[CAME_AT] == HEIGHT + 3, "the end leaves three rows more than the height", width, CAME_AT);
    check(all(scan.held + ROWS_AT, GONG_SCAN - ROWS_AT, 0), "and zeros for the rows", width, ROWS_AT);
}

static void copied(size_t width)
{
    memory here, there;

    begin(&here, width, SOME);
    memcpy(&there, &here, sizeof here);
    fill(here.held, GONG_SCAN, 65535);
    goes_on("a scan goes on in a copy of its memory", &there, GONG_SCAN, width, SOME, HEIGHT + 1);
}

/* Two scans by turns, one of them a row behind. */
static void two_at_once(size_t width)
{
    memory one, other;

    begin(&one, width, SOME);
    begin(&other, width, SOME - 1);
    for (size_t came = SOME; came <= HEIGHT; came++) {
        check(next(&one, GONG_SCAN, width, came) == GONG_DONE, "two scans do not disturb each other", width, came);
        check(next(&other, GONG_SCAN, width, came - 1) == GONG_DONE, "two scans do not disturb each other", width, came - 1);
    }
}

int main(void)
{
    const size_t widths[] = {1, 2, 7, 500, WIDEST}, rows[] = {0, SOME, HEIGHT, HEIGHT + 1};
    const uint16_t beyond[] = {HEIGHT + 1, HEIGHT + 2, HEIGHT + 3, HEIGHT + 4, 32768, 65535};

    for (size_t k = 0; k < sizeof widths / sizeof *widths; k++) {
        size_t width = widths[k];

        draw(width);
        too_short(width);
        before_a_start(width);
        for (size_t n = 0; n < sizeof rows / sizeof *rows; n++) {
            wrong_sides(width, rows[n]);
            wrong_rows(width, rows[n]);
        }
        for (size_t n = 0; n < sizeof beyond / sizeof *beyond; n++) counted_beyond(width, beyond[n]);
        past_the_rows(width);
        copied(width);
        two_at_once(width);
    }
    printf("the memory of a scan: %lu as said, %lu not\n", passed, failed);
    return failed > 0;
}
