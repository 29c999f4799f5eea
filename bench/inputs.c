#include "inputs.h"

#include <stdio.h>

#include "library.h"

uint8_t random_picture[FULL], smooth_picture[FULL], discs_picture[FULL];
uint16_t discs_filtered[FULL];
struct judged judged[MANY];
struct place places[MANY];
struct sharpness sharpnesses[MANY];
uint32_t histograms[HISTOGRAMS][256];

/* Marsaglia's xorshift, from a fixed start. */
static uint64_t state = 88172645463325252u;

uint32_t below(uint32_t bound)
{
    state ^= state << 13;
    state ^= state >> 7;
    state ^= state << 17;
    return (uint32_t)(state >> 32) % bound;
}

static void make_pictures(void)
{
    for (int y = 0; y < SIDE; y++)
        for (int x = 0; x < SIDE; x++) {
            int k = y * SIDE + x, across = x % 96 - 48, down = y % 96 - 48;

            random_picture[k] = (uint8_t)below(256);
            smooth_picture[k] = (uint8_t)(20 + x * 90 / SIDE + y * 120 / SIDE);
            discs_picture[k] = (uint8_t)((across * across + down * down < 24 * 24 ? 200 : 50) + below(7));
        }
}

/* A judge's numbers as pictures have them: averages in range, and a spread that gives a ratio of up to 50. */
static struct judged some_judged(void)
{
    struct judged made;

    made.count = 1 + below(FULL);
    made.bright = 21760 + below(9601);
    made.dark = 1280 + below(8961);
    /* the square root of D, from q + 138 <= 100 (M - m) N / (16 root of D) */
    double deviation = 100.0 * (double)((made.bright - made.dark) * made.count) / (16.0 * (138 + below(5000)));

    made.spread = (uint64_t)(deviation * deviation);
    return made;
}

/* Up to 256 levels that are counted, with a total of at most 1,048,576. */
static void some_histogram(uint32_t *histogram)
{
    for (uint32_t levels = 1 + below(256); levels; levels--) histogram[below(256)] = 1 + below(4096);
}

void make_inputs(void)
{
    static uint16_t work[FULL];

    make_pictures();
    plain.filter(discs_picture, FULL, SIDE, SIDE, discs_filtered, FULL, work, FULL);
    for (int k = 0; k < MANY; k++) {
        judged[k] = some_judged();
        places[k].x = 16 + below(16 * SIDE - 48);
        places[k].y = 16 + below(16 * SIDE - 48);
        sharpnesses[k].factor = 1 + below(16384);
        sharpnesses[k].pixel = 1 + below(100000);
    }
    for (int k = 0; k < HISTOGRAMS; k++) some_histogram(histograms[k]);
}

static int write_picture(const char *folder, const char *name, const uint8_t *levels, int width, int height)
{
    char path[4096];
    size_t pixels = (size_t)width * (size_t)height;

    snprintf(path, sizeof path, "%s/%s", folder, name);
    FILE *file = fopen(path, "wb");
    if (!file) return 0;
    int good = fprintf(file, "P5\n%d %d\n255\n", width, height) > 0 && fwrite(levels, 1, pixels, file) == pixels;
    return fclose(file) == 0 && good;
}

int write_pictures(const char *folder)
{
    return write_picture(folder, "random.pgm", random_picture, SIDE, SIDE) &&
           write_picture(folder, "smooth.pgm", smooth_picture, SIDE, SIDE) &&
           write_picture(folder, "small.pgm", random_picture, SMALL_WIDTH, SMALL_HEIGHT);
}
