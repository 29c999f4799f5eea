/* The length of a sharpness, called from C. From the top of the repository:
 *
 *     (cd crates/gong && rt lib)
 *     cc -Iinclude examples/c/length.c crates/gong/out/libgong.a -o length
 *     ./length
 */
#include <inttypes.h>
#include <stdio.h>

#include "gong.h"

/* What each number says, for people. */
static const char *const texts[GONG_NUMBERS] = GONG_TEXTS;

/* The factor in sixteenths of a pixel, the pixel's size in picometres. Why a call was refused goes to standard
 * error, where it does not mix with the answers. */
static void show(int64_t factor, uint64_t pixel)
{
    uint64_t length;
    uint8_t number = gong_length(factor, pixel, &length);

    printf("factor %" PRId64 ", pixel %" PRIu64 ": number %d, length %" PRIu64 "\n", factor, pixel, number, length);
    if (number != GONG_DONE) fprintf(stderr, "refused: %s\n", texts[number]);
}

int main(void)
{
    show(32, 800);       /* two pixels of 0.8 nm: 1,131 pm */
    show(16384, 100000); /* the largest of both */
    show(-1, 800);       /* GONG_FACTOR_OR_PIXEL_OUT_OF_RANGE, which is 14; the length is 0 */
    return 0;
}
