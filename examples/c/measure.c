/* Measuring a picture, and the judge alone, called from C. From the top of the repository:
 *
 *     (cd crates/gong && rt lib)
 *     cc -Iinclude examples/c/measure.c crates/gong/out/libgong.a -o measure
 *     ./measure
 */
#include <inttypes.h>
#include <stdio.h>

#include "gong.h"

#define SIDE 16 /* a multiple of 4, so that sixteen tiles can be cut, and not below 8 */
#define PIXELS (SIDE * SIDE)

/* Bright and dark squares of 2 by 2 pixels; every pixel on some slanted lines is lighter by `noise`. */
static void draw(uint8_t *levels, int noise)
{
    for (int y = 0; y < SIDE; y++)
        for (int x = 0; x < SIDE; x++)
            levels[y * SIDE + x] =
                (uint8_t)(((x / 2 + y / 2) % 2 ? 200 : 40) + ((7 * x + 5 * y) % 11 == 0 ? noise : 0));
}

int main(void)
{
    /* no noise at all: GONG_NO_NOISE; a little: measured, ratio 30.07; too much: GONG_LOW_RATIO */
    const int noises[] = {0, 9, 50};
    static const char *const texts[GONG_NUMBERS] = GONG_TEXTS;
    uint8_t levels[PIXELS];
    uint16_t output[PIXELS], work[PIXELS];
    uint64_t ratio;
    uint8_t number;

    for (size_t k = 0; k < sizeof noises / sizeof *noises; k++) {
        draw(levels, noises[k]);
        number = gong_measure(levels, PIXELS, SIDE, SIDE, output, PIXELS, work, PIXELS, &ratio);
        printf("noise %d: number %d, ratio %" PRIu64 "\n", noises[k], number, ratio);
        if (number != GONG_DONE) fprintf(stderr, "discarded: %s\n", texts[number]);
    }

    /* the judge by itself: N, M, m and D of a picture that was measured elsewhere */
    number = gong_judge(256, 25600, 7392, 655360000, &ratio);
    printf("judge: number %d, ratio %" PRIu64 "\n", number, ratio);
    return 0;
}
