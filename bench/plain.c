/* Document 01's rules in plain C, each as one writes it down, with no trick. They serve twice: the
 * library gong is held to them before anything is timed, and then they are the rows "plain C". The scan, document 02's P1,
 * serves once: it is not timed. */
#include <string.h>

#include "library.h"

typedef unsigned __int128 wide; /* "Comparing the ratio after squaring in 64 bits, where it wraps" */

/* "1 | w or h outside 1..1,024" */
static int good_sides(size_t width, size_t height)
{
    return width >= 1 && width <= 1024 && height >= 1 && height <= 1024;
}

/* and "2 | levels lent != w h" */
static uint8_t misshapen(size_t levels_len, size_t width, size_t height)
{
    if (!good_sides(width, height)) return 1;
    return levels_len == width * height ? 0 : 2;
}

static uint8_t refused(size_t levels_len, size_t width, size_t height, size_t output_len, size_t work_len)
{
    uint8_t number = misshapen(levels_len, width, height);

    if (number) return number;
    if (output_len < width * height) return 3;
    return work_len < width * height ? 4 : 0;
}

/* The levels of a pixel's 3 by 3 block that lie inside the picture, sorted by insertion. Gives back how many. */
static size_t sorted_block(const uint16_t *in, size_t width, size_t height, size_t x, size_t y, uint16_t *block)
{
    size_t count = 0;

    for (size_t row = y ? y - 1 : 0; row <= y + 1 && row < height; row++)
        for (size_t column = x ? x - 1 : 0; column <= x + 1 && column < width; column++) {
            uint16_t level = in[row * width + column];
            size_t place = count++;

            for (; place && block[place - 1] > level; place--) block[place] = block[place - 1];
            block[place] = level;
        }
    return count;
}

/* Twice the median, so that nothing is rounded: the two middle ones, or the middle one two times. */
static void one_pass(const uint16_t *in, size_t width, size_t height, uint16_t *out)
{
    for (size_t y = 0; y < height; y++)
        for (size_t x = 0; x < width; x++) {
            uint16_t block[9];
            size_t count = sorted_block(in, width, height, x, y, block);

            out[y * width + x] = (uint16_t)(block[(count - 1) / 2] + block[count / 2]);
        }
}

static uint8_t filter(const uint8_t *levels, size_t levels_len, size_t width, size_t height, uint16_t *output,
                      size_t output_len, uint16_t *work, size_t work_len)
{
    uint8_t number = refused(levels_len, width, height, output_len, work_len);

    if (number) return number;
    for (size_t k = 0; k < levels_len; k++) work[k] = levels[k];
    one_pass(work, width, height, output);
    one_pass(output, width, height, work);
    one_pass(work, width, height, output);
    return 0;
}

/* The greatest whole number whose square is at most this one, which is below 2^80. */
static uint64_t root(wide square)
{
    uint64_t low = 0, high = (uint64_t)1 << 40;

    while (high - low > 1) {
        uint64_t middle = (low + high) / 2;

        if ((wide)middle * middle <= square)
            low = middle;
        else
            high = middle;
    }
    return low;
}

static uint8_t judge(uint64_t count, uint64_t bright, uint64_t dark, uint64_t spread, uint64_t *ratio)
{
    *ratio = 0;
    if (count < 1 || count > 1048576 || bright > 32640 || dark > 32640 || spread > (uint64_t)1 << 62) return 15;
    if (bright < 21760 || bright > 31360) return 6;
    if (dark < 1280 || dark > 10240) return 7;
    if (spread == 0) return 8;

    /* (q + 138)^2 256 D <= 10,000 (M - m)^2 N^2 */
    wide contrast = (wide)100 * (bright - dark) * count;
    uint64_t most = root(contrast * contrast / ((wide)256 * spread));

    *ratio = most > 138 ? most - 138 : 0;
    return *ratio < 1000 ? 9 : 0;
}

/* M and m: the sums of the sixteen tiles' maxima and minima. */
static void extremes(const uint16_t *filtered, size_t width, size_t height, uint64_t *bright, uint64_t *dark)
{
    *bright = *dark = 0;
    for (size_t tile = 0; tile < 16; tile++) {
        size_t left = tile % 4 * (width / 4), top = tile / 4 * (height / 4);
        uint16_t least = UINT16_MAX, most = 0;

        for (size_t y = top; y < top + height / 4; y++)
            for (size_t x = left; x < left + width / 4; x++) {
                uint16_t eighths = filtered[y * width + x];

                if (eighths < least) least = eighths;
                if (eighths > most) most = eighths;
            }
        *bright += most;
        *dark += least;
    }
}

/* D = N (sum of d^2) - (sum of d)^2, over the N pixels that count, all but three rows and columns on each side:
 * below 2^62, so nothing wraps. */
static uint64_t spread_of(const uint8_t *levels, const uint16_t *filtered, size_t width, size_t height)
{
    int64_t count = 0, sum = 0, squares = 0;

    for (size_t y = 3; y < height - 3; y++)
        for (size_t x = 3; x < width - 3; x++) {
            int64_t d = 8 * (int64_t)levels[y * width + x] - (int64_t)filtered[y * width + x];

            count++;
            sum += d;
            squares += d * d;
        }
    return (uint64_t)(count * squares - sum * sum);
}

static uint8_t measure(const uint8_t *levels, size_t levels_len, size_t width, size_t height, uint16_t *output,
                       size_t output_len, uint16_t *work, size_t work_len, uint64_t *ratio)
{
    uint8_t number = refused(levels_len, width, height, output_len, work_len);
    uint64_t bright, dark;

    *ratio = 0;
    if (number) return number;
    if (width % 4 || height % 4 || width < 8 || height < 8) return 5;
    filter(levels, levels_len, width, height, output, output_len, work, work_len);
    extremes(output, width, height, &bright, &dark);
    return judge((width - 6) * (height - 6), bright, dark, spread_of(levels, output, width, height), ratio);
}

static uint8_t count(const uint16_t *values, size_t values_len, uint32_t *histogram, size_t histogram_len)
{
    if (histogram_len != 256) return 10;
    if (values_len < 1 || values_len > 1048576) return 15;
    for (size_t k = 0; k < values_len; k++)
        if (values[k] > 2040) return 15;
    memset(histogram, 0, 256 * sizeof *histogram);
    for (size_t k = 0; k < values_len; k++) histogram[values[k] / 8]++;
    return 0;
}

/* The pair of which a round makes half the sum of both means. A level equal to T = p/q is in both. */
static void one_round(const uint32_t *histogram, uint64_t p, uint64_t q, uint64_t *next_p, uint64_t *next_q)
{
    uint64_t a = 0, b = 0, c = 0, e = 0;

    for (uint64_t level = 0; level < 256; level++) {
        if (level * q <= p) a += level * histogram[level], b += histogram[level];
        if (level * q >= p) c += level * histogram[level], e += histogram[level];
    }
    *next_p = a * e + c * b;
    *next_q = 2 * b * e;
}

static uint8_t two_means(const uint32_t *histogram, size_t histogram_len, uint64_t *rounds, uint64_t *numerator,
                         uint64_t *denominator)
{
    uint64_t total = 0, lowest = 256, highest = 0;

    *rounds = *numerator = *denominator = 0;
    if (histogram_len != 256) return 10;
    for (uint64_t level = 0; level < 256; level++) {
        total += histogram[level];
        if (histogram[level]) highest = level;
        if (histogram[level] && lowest == 256) lowest = level;
    }
    if (total == 0) return 11;
    if (total > 1048576) return 12;

    uint64_t p = 128 < lowest ? lowest : 128 > highest ? highest : 128, q = 1;

    for (;;) {
        one_round(histogram, p, q, numerator, denominator);
        if ((wide)*numerator * q == (wide)p * *denominator) return 0;
        p = *numerator, q = *denominator;
        ++*rounds;
    }
}

/* The weights on pixels i-1, i, i+1 and i+2 for the remainder k, in 1/8,192. */
static void weights(int64_t k, int64_t *weight)
{
    weight[0] = -256 * k + 32 * k * k - k * k * k;
    weight[1] = 8192 - 80 * k * k + 3 * k * k * k;
    weight[2] = 256 * k + 64 * k * k - 3 * k * k * k;
    weight[3] = -16 * k * k + k * k * k;
}

static uint8_t sample(const uint8_t *levels, size_t levels_len, size_t width, size_t height, int64_t x, int64_t y,
                      int64_t *value)
{
    uint8_t number = misshapen(levels_len, width, height);
    int64_t across[4], down[4], sum = 0;

    *value = 0;
    if (number) return number;
    if (x < 16 || x / 16 > (int64_t)width - 3 || y < 16 || y / 16 > (int64_t)height - 3) return 13;
    weights(x % 16, across);
    weights(y % 16, down);
    for (size_t row = 0; row < 4; row++)
        for (size_t column = 0; column < 4; column++)
            sum += down[row] * across[column] *
                   levels[((size_t)y / 16 - 1 + row) * width + (size_t)x / 16 - 1 + column];
    *value = sum;
    return 0;
}

static uint8_t length(int64_t factor, uint64_t pixel, uint64_t *picometres)
{
    *picometres = 0;
    if (factor < 1 || factor > 16384 || pixel < 1 || pixel > 100000) return 14;

    /* 512 q^2 <= (p s)^2 */
    wide product = (wide)pixel * (uint64_t)factor;

    *picometres = root(product * product / 512);
    return 0;
}

/* ---- document 02, P1: rows while the beam runs */

/* The first numbers of the memory that a scan is lent: all zeros is before a good start. */
enum { WIDTH, HEIGHT, CAME, ENDED };

/* "Only the rows still needed may be held, never the picture." Here the picture is held all the same, in one place, and is
 * filtered again with each call: that is plain, but slow, and one scan runs at a time. */
static uint8_t scanned[1024 * 1024];

/* "A third-pass row comes out with the call that brings the third row below it": how many are out when so many came. */
static size_t settled(size_t came) { return came > 3 ? came - 3 : 0; }

/* "1, also before a good start" */
static int started(const uint16_t *held, size_t held_len)
{
    return held_len >= GONG_SCAN && good_sides(held[WIDTH], held[HEIGHT]);
}

static uint8_t scan_start(uint16_t *held, size_t held_len, size_t width, size_t height)
{
    if (held_len < GONG_SCAN || !good_sides(width, height)) return 1;
    held[WIDTH] = (uint16_t)width;
    held[HEIGHT] = (uint16_t)height;
    held[CAME] = held[ENDED] = 0;
    return 0;
}

/* Third-pass rows, from one to before another. The rows that came are filtered as if they were all: what is still to come
 * lies four rows or more below these, and three passes look three rows down. */
static void give(const uint16_t *held, size_t from, size_t to, uint16_t *output)
{
    static uint16_t filtered[1024 * 1024], work[1024 * 1024];
    size_t width = held[WIDTH], pixels = width * held[CAME];

    filter(scanned, pixels, width, held[CAME], filtered, pixels, work, pixels);
    for (size_t k = from * width; k < to * width; k++) *output++ = filtered[k];
}

static uint8_t scan_rows(uint16_t *held, size_t held_len, const uint8_t *levels, size_t levels_len, uint16_t *output,
                         size_t output_len, uint64_t *rows)
{
    *rows = 0;
    if (!started(held, held_len)) return 1;

    size_t width = held[WIDTH], before = held[CAME], came = before + levels_len / width;

    if (levels_len % width) return 20;
    if (came > held[HEIGHT]) return 21;
    if (output_len < (settled(came) - settled(before)) * width) return 3;
    if (levels_len == 0) return 0; /* "A call with no rows is allowed and gives none." */
    memcpy(scanned + before * width, levels, levels_len);
    held[CAME] = (uint16_t)came;
    give(held, settled(before), settled(came), output);
    *rows = settled(came) - settled(before);
    return 0;
}

static uint8_t scan_end(uint16_t *held, size_t held_len, uint16_t *output, size_t output_len, uint64_t *rows)
{
    *rows = 0;
    if (!started(held, held_len)) return 1;

    size_t width = held[WIDTH], height = held[HEIGHT];

    if (held[CAME] < height || held[ENDED]) return 22;
    if (output_len < (height - settled(height)) * width) return 3;
    held[ENDED] = 1;
    give(held, settled(height), height, output);
    *rows = height - settled(height);
    return 0;
}

const struct library plain = {"plain", filter, measure,    judge,     count,   two_means,
                              sample,  length, scan_start, scan_rows, scan_end};
