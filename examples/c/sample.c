/* A vertical edge, sampled every quarter of a pixel, called from C. From the top of the repository:
 *
 *     (cd crates/gong && rt lib)
 *     cc -Iinclude examples/c/sample.c crates/gong/out/libgong.a -o sample
 *     ./sample
 */
#include <inttypes.h>
#include <stdio.h>

#include "gong.h"

#define WIDTH 6
#define HEIGHT 5
#define PIXELS (WIDTH * HEIGHT)

static uint8_t levels[PIXELS];

/* x in sixteenths of a pixel, in the middle between rows 1 and 2 */
static void show(int64_t x)
{
    int64_t value;
    uint8_t number = gong_sample(levels, PIXELS, WIDTH, HEIGHT, x, 24, &value);

    printf("x %" PRId64 ": number %d, value %" PRId64, x, number, value);
    if (number == GONG_DONE) printf(", %.4f levels", (double)value / GONG_SAMPLE_LEVEL);
    putchar('\n');
}

int main(void)
{
    for (int k = 0; k < PIXELS; k++) levels[k] = k % WIDTH < 2 ? 0 : 255;

    /* from pixel 1, the last dark one, to pixel 2, the first bright one */
    for (int64_t x = 16; x <= 32; x += 4) show(x);
    show(48);
    show(64); /* pixel 4 has only one after it: GONG_PLACE_OUTSIDE */
    return 0;
}
