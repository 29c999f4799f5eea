/* A picture filtered while it is still being read, called from C. From the top of the repository:
 *
 *     (cd crates/gong && rt lib)
 *     cc -Iinclude examples/c/scan.c crates/gong/out/libgong.a -o scan
 *     ./scan < examples/c/scan.pgm
 *
 * The picture is an 8-bit PGM file (P5, without comments), and is read a row at a time. Each filtered row is
 * printed as soon as it comes out. There is room for one row of levels and for three filtered ones: the
 * picture itself is never kept.
 */
#include <inttypes.h>
#include <stdio.h>

#include "gong.h"

#define ROOM (3 * GONG_MOST_SIDE) /* a call with one row gives out one at most, and the end the last three */

/* What a call gives back: each value is in eighths of a level, so 104 is level 13. */
static void show(const char *call, int number, uint64_t rows, const uint16_t *output, size_t width)
{
    printf("%s: number %d, %" PRIu64 " rows\n", call, number, rows);
    for (uint64_t row = 0; row < rows; row++, output += width) {
        printf("   ");
        for (size_t column = 0; column < width; column++) printf(" %d", output[column]);
        printf("\n");
    }
}

int main(void)
{
    static const char *const texts[GONG_NUMBERS] = GONG_TEXTS;
    static uint16_t held[GONG_SCAN]; /* the scan: all that is kept from one call to the next */
    static uint8_t levels[GONG_MOST_SIDE];
    static uint16_t output[ROOM];
    size_t width, height;
    unsigned brightest;
    char blank;
    uint64_t rows;
    uint8_t number;

    if (scanf("P5 %4zu %4zu %3u%c", &width, &height, &brightest, &blank) != 4 || brightest != 255) return 1;
    number = gong_scan_start(held, GONG_SCAN, width, height);
    printf("start: number %d\n", number);
    if (number != GONG_DONE) {
        fprintf(stderr, "refused: %s\n", texts[number]);
        return 1;
    }

    /* the first row comes out with the fourth that goes in, since it needs three rows below it */
    while (fread(levels, 1, width, stdin) == width) {
        number = gong_scan_rows(held, GONG_SCAN, levels, width, output, ROOM, &rows);
        show("row", number, rows, output, width);
    }

    /* one row too many: GONG_ROWS_BEYOND, and the scan goes on as if it had not come */
    number = gong_scan_rows(held, GONG_SCAN, levels, width, output, ROOM, &rows);
    show("row", number, rows, output, width);

    number = gong_scan_end(held, GONG_SCAN, output, ROOM, &rows);
    show("end", number, rows, output, width);
    return number != GONG_DONE;
}
