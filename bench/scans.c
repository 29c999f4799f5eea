/* The three calls of a scan, held to plain C. They are compared together, since each stands on those before it: all scans
 * are made three times, and each time the answers of one call are counted. */
#include <inttypes.h>
#include <stdio.h>
#include <string.h>

#include "answers.h"
#include "inputs.h"
#include "library.h"

enum { HELD = GONG_SCAN, AT_ONCE = 8 /* rows a call, as they are timed */ };

/* ---- one call */

enum call { START, ROWS, END };
static const char *const names[] = {"scan_start", "scan_rows", "scan_end"};

struct lent {
    enum call call;
    size_t held_len, width, height;
    const uint8_t *levels;
    size_t levels_len, output_len;
};
struct left {
    uint16_t held[HELD + GUARDS], output[SIDE * 64 + GUARDS];
    uint64_t rows;
    uint8_t number;
};

static enum call counted;        /* the call whose answers are counted */
static struct left ours, theirs; /* after the last call; what is held goes from call to call */

/* With the output filled before it: so elements that it leaves alone are compared too. */
static void call(const struct library *library, const struct lent *lent, struct left *left)
{
    for (size_t k = 0; k < lent->output_len + GUARDS; k++) left->output[k] = (uint16_t)(31 * k + 5);
    left->rows = lent->call == START ? 0 : UINT64_MAX;
    if (lent->call == START)
        left->number = library->scan_start(left->held, lent->held_len, lent->width, lent->height);
    else if (lent->call == ROWS)
        left->number = library->scan_rows(left->held, lent->held_len, lent->levels, lent->levels_len, left->output,
                                          lent->output_len, &left->rows);
    else
        left->number = library->scan_end(left->held, lent->held_len, left->output, lent->output_len, &left->rows);
}

/* What gong holds is its own affair, but a refused call changes nothing of it, and none what lies behind it. */
static void compare(const struct lent *lent)
{
    static uint16_t before[HELD + GUARDS];

    memcpy(before, ours.held, sizeof before);
    call(&gong, lent, &ours);
    call(&plain, lent, &theirs);
    size_t its_own = ours.number ? 0 : HELD;
    int kept = !memcmp(ours.held + its_own, before + its_own, sizeof before - its_own * sizeof *before);
    int same_output = !memcmp(ours.output, theirs.output, (lent->output_len + GUARDS) * sizeof *ours.output);
    int same = ours.number == theirs.number && ours.rows == theirs.rows && same_output && kept;

    if (lent->call == counted && differs(same))
        printf("%s, %zu columns, %zu rows, %zu levels, room for %zu, memory of %zu: gong gives %d and %" PRIu64
               " rows, plain C %d and %" PRIu64 "; output %s, memory %s\n",
               names[lent->call], lent->width, lent->height, lent->levels_len, lent->output_len, lent->held_len, ours.number,
               ours.rows, theirs.number, theirs.rows, same_output ? "the same" : "different", kept ? "good" : "changed");
}

/* ---- small scans */

/* The scan that runs. */
static struct {
    const uint8_t *levels;
    size_t width, height, came;
} scan;

static void start(size_t held_len, size_t width, size_t height)
{
    compare(&(struct lent){START, held_len, width, height, NULL, 0, 0});
}

static void rows(size_t held_len, size_t levels_len, size_t output_len)
{
    const uint8_t *levels = scan.levels + scan.came * scan.width;

    compare(&(struct lent){ROWS, held_len, scan.width, scan.height, levels, levels_len, output_len});
}

static void end(size_t held_len, size_t output_len)
{
    compare(&(struct lent){END, held_len, scan.width, scan.height, NULL, 0, output_len});
}

/* How many numbers come out with so many more rows, and with the end. */
static size_t due(size_t more)
{
    size_t from = scan.came > 3 ? scan.came : 3, to = scan.came + more;

    return to > from ? (to - from) * scan.width : 0;
}
static size_t due_last(void) { return (scan.height < 3 ? scan.height : 3) * scan.width; }

/* Calls that are refused wherever the scan stands, and one with no rows. Many have two faults, so that it shows which is
 * tested first. */
static void compare_refused(void)
{
    static const size_t bad[] = {0, SIDE + 1, 65536 + 4};
    size_t left = scan.height - scan.came, width = scan.width;

    start(HELD - 1, 4, 4);
    start(0, 4, 4);
    for (size_t k = 0; k < sizeof bad / sizeof *bad; k++) {
        start(HELD, bad[k], 4);
        start(HELD, 4, bad[k]);
    }
    rows(HELD - 1, width, due(1));
    rows(0, width + 1, 0);
    end(HELD - 1, due_last());
    rows(HELD, (left + 1) * width + 1, 0);
    rows(HELD, left * width + 1, due(left));
    rows(HELD, (left + 1) * width, 0);
    rows(HELD, (left + 1) * width, due(left + 1));
    end(HELD, due_last() - 1);
    if (left) end(HELD, due_last());
    rows(HELD, 0, 0);
}

/* 1, whatever else is wrong, and also where nothing is: in memory of zeros, and in memory where no scan ever was. */
static void compare_unstarted(void)
{
    for (int fill = 0; fill <= 255; fill += 255) {
        memset(ours.held, fill, sizeof ours.held);
        memset(theirs.held, fill, sizeof theirs.held);
        for (scan.came = 0; scan.came <= scan.height; scan.came++) {
            compare_refused();
            rows(HELD, scan.width, due(1));
            end(HELD, due_last());
        }
    }
}

/* Rows come by chance, up to so many a call. One scan in four is left before its end: the next start comes in its middle.
 * Memory and output may be longer than they need to be. */
static void compare_scan(size_t width, size_t height, size_t most, uint32_t kind)
{
    size_t last = below(4) ? height : below((uint32_t)height), spare = below(GUARDS), more;

    scan.levels = some_levels(width, height + 2, kind);
    scan.width = width, scan.height = height, scan.came = 0;
    start(HELD + spare, width, height);
    for (; scan.came < last; scan.came += more) {
        more = below((uint32_t)(most < height - scan.came ? most : height - scan.came) + 1);
        spare = below(GUARDS);
        compare_refused();
        if (due(more)) rows(HELD, more * width, due(more) - 1);
        rows(HELD + spare, more * width, due(more) + spare);
    }
    compare_refused();
    if (last < height) return;
    end(HELD + spare, due_last() + spare);
    compare_refused();
    end(HELD, due_last());
}

/* ---- scans as they are timed */

/* A scan of gong's by itself. */
struct alone {
    uint16_t held[HELD], output[FULL];
    size_t out; /* numbers that came out */
    int refused;
};

static void begin(struct alone *alone, size_t side)
{
    alone->out = 0;
    alone->refused = gong.scan_start(alone->held, HELD, side, side) != 0;
}

static void bring(struct alone *alone, const uint8_t *levels, size_t side, size_t height)
{
    uint64_t rows;

    alone->refused |= gong.scan_rows(alone->held, HELD, levels, height * side, alone->output + alone->out,
                                     side * side - alone->out, &rows) != 0;
    alone->out += rows * side;
}

static void finish(struct alone *alone, size_t side, const uint16_t *whole, const char *how)
{
    uint64_t rows;

    alone->refused |= gong.scan_end(alone->held, HELD, alone->output + alone->out, side * side - alone->out, &rows) != 0;
    int all = alone->out + rows * side == side * side;
    int same = !memcmp(alone->output, whole, side * side * sizeof *whole);
    if (differs(!alone->refused && all && same))
        printf("scan of %zu columns and rows, %s: %s, %s, and the output is %s\n", side, how,
               alone->refused ? "a call was refused" : "no call was refused", all ? "all rows came out" : "rows are missing",
               same ? "the whole filter's" : "another than the whole filter's");
}

/* By ones and by eights at once, each in memory of its own: whatever is kept anywhere else shows. */
static void compare_square(const uint8_t *levels, size_t side)
{
    static struct alone ones, eights;
    static uint16_t whole[FULL], work[FULL];

    plain.filter(levels, side * side, side, side, whole, FULL, work, FULL);
    begin(&ones, side);
    begin(&eights, side);
    for (size_t row = 0; row < side; row += AT_ONCE) {
        for (size_t k = row; k < row + AT_ONCE; k++) bring(&ones, levels + k * side, side, 1);
        bring(&eights, levels + row * side, side, AT_ONCE);
    }
    finish(&ones, side, whole, "by ones");
    finish(&eights, side, whole, "by eights");
}

/* ---- all of them */

static void compare_scans(enum call call)
{
    static const size_t thin[][2] = {{1024, 1}, {1, 1024}, {1024, 2}, {2, 1000}, {1024, 4}, {1023, 7}, {700, 31}};

    counted = call;
    scan.levels = random_picture, scan.width = 5, scan.height = 4;
    compare_unstarted();
    for (size_t width = 1; width <= 9; width++)
        for (size_t height = 1; height <= 12; height++)
            for (uint32_t kind = 0; kind < 4; kind++) compare_scan(width, height, kind == 0 ? 1 : height, kind);
    for (uint32_t k = 0; k < 200; k++) {
        size_t width = 1 + below(60), height = 1 + below(40);

        compare_scan(width, height, 1 + below(9), k % 4);
    }
    for (size_t k = 0; k < sizeof thin / sizeof *thin; k++) compare_scan(thin[k][0], thin[k][1], 60, 0);
}

void compare_scan_start(void) { compare_scans(START); }
void compare_scan_rows(void) { compare_scans(ROWS); }

void compare_scan_end(void)
{
    compare_scans(END);
    for (size_t from = 0; from < FULL; from += 64 * 64) compare_square(random_picture + from, 64);
    compare_square(random_picture, SIDE);
}
