/* A picture filtered and counted, and the threshold between its dark and its bright levels, called
 * from C. From the top of the repository:
 *
 *     (cd crates/gong && rt lib)
 *     cc -Iinclude examples/c/threshold.c crates/gong/out/libgong.a -o threshold
 *     ./threshold
 */
#include <inttypes.h>
#include <stdio.h>

#include "gong.h"

#define SIDE 16
#define PIXELS (SIDE * SIDE)
#if PIXELS > GONG_MOST_PIXELS
#error "a histogram counts one picture at a time"
#endif

static void part(const uint32_t *histogram)
{
    uint64_t rounds, numerator, denominator;
    uint8_t number = gong_two_means(histogram, GONG_HISTOGRAM, &rounds, &numerator, &denominator);

    printf("two means: number %d, %" PRIu64 " rounds, threshold %" PRIu64 "/%" PRIu64 "\n", number, rounds, numerator,
           denominator);
}

int main(void)
{
    uint8_t levels[PIXELS];
    uint16_t output[PIXELS], work[PIXELS];
    uint32_t histogram[GONG_HISTOGRAM];
    const uint32_t empty[GONG_HISTOGRAM] = {0};
    uint8_t number;

    /* a dark half and a bright half, each with a slope */
    for (int k = 0; k < PIXELS; k++) levels[k] = (uint8_t)(k % SIDE < 8 ? 40 + 3 * (k % SIDE) : 150 + 5 * (k % SIDE));

    if (gong_filter(levels, PIXELS, SIDE, SIDE, output, PIXELS, work, PIXELS) != GONG_DONE) return 1;
    number = gong_count(output, PIXELS, histogram, GONG_HISTOGRAM);
    printf("count: number %d, %" PRIu32 " at level 46\n", number, histogram[46]);
    part(histogram);

    /* a histogram of no picture: GONG_EMPTY_HISTOGRAM */
    part(empty);
    return 0;
}
