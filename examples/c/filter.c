/* The median, three times, called from C. From the top of the repository:
 *
 *     (cd crates/gong && rt lib)
 *     cc -Iinclude examples/c/filter.c crates/gong/out/libgong.a -o filter
 *     ./filter
 */
#include <stdio.h>

#include "gong.h"

/* The version that this program was written for, or a later one. */
#if GONG_VERSION < 100
#error "gong.h is older than 0.1.0"
#endif

#define WIDTH 3
#define HEIGHT 2

int main(void)
{
    const uint8_t levels[WIDTH * HEIGHT] = {0, 9, 1,
                                            0, 7, 2};
    static const char *const texts[GONG_NUMBERS] = GONG_TEXTS;
    uint16_t output[WIDTH * HEIGHT], work[WIDTH * HEIGHT];
    uint8_t number = gong_filter(levels, WIDTH * HEIGHT, WIDTH, HEIGHT, output, WIDTH * HEIGHT, work, WIDTH * HEIGHT);

    fprintf(stderr, "gong %s\n", GONG_VERSION_TEXT);

    /* done; each value is in eighths of a level: 24 is level 3 */
    printf("number %d\n", number);
    for (int row = 0; row < HEIGHT; row++)
        printf("%d %d %d\n", output[row * WIDTH], output[row * WIDTH + 1], output[row * WIDTH + 2]);

    /* six levels are no picture of 3 by 3: GONG_WRONG_LEVELS, and nothing is written */
    number = gong_filter(levels, WIDTH * HEIGHT, 3, 3, output, WIDTH * HEIGHT, work, WIDTH * HEIGHT);
    printf("number %d\n", number);
    if (number != GONG_DONE) fprintf(stderr, "refused: %s\n", texts[number]);
    return 0;
}
